//! States of a network, good and faulty, and lengths around the one that fits.

use crate::random::Random;
use crate::reckoning::plan::{length, plan, radial, Pair};
use crate::reckoning::{Network, CLOSED, OPEN};

/// Bytes of an 82 line.
pub const OPERATION_LENGTH: usize = 9;

/// A length at, one short of or above the one that fits, or 0.
pub fn near(random: &mut Random, fitting: usize) -> usize {
    random.pick(&[fitting, fitting, fitting.saturating_sub(1), fitting + 1, fitting + 9, 0])
}

pub fn any_state(random: &mut Random, network: &Network) -> Vec<u8> {
    let count = network.switches.len();
    let bits = |random: &mut Random| (0..count).map(|_| random.below(2) as u8).collect::<Vec<u8>>();
    match random.below(12) {
        0 => network.base(),
        1 => vec![CLOSED; count],
        2 => vec![OPEN; count],
        3 => vec![OPEN; near(random, count)],
        4 => {
            let mut state = bits(random);
            let at = random.below(count.max(1));
            state.iter_mut().skip(at).take(1).for_each(|byte| *byte = random.pick(&[2, 9, 0xFF]));
            state
        }
        5 | 6 => bits(random),
        _ => {
            let spares = random.percent(70);
            radial_state(random, network, spares).unwrap_or_else(|| bits(random))
        }
    }
}

/// The base with some of its open switches closed, none or all among them.
pub fn more_closed(random: &mut Random, network: &Network) -> Vec<u8> {
    let chance = random.pick(&[0, 50, 50, 100]);
    network.base().iter().map(|&byte| if random.percent(chance) { CLOSED } else { byte }).collect()
}

/// A present and a wanted state, and a slice about as long as their plan.
pub fn any_plan(random: &mut Random, network: &Network) -> (Vec<u8>, Vec<u8>, usize) {
    let (present, wanted, pairs) = any_two_states(random, network);
    (present, wanted, near(random, length(&pairs)))
}

/// A present and a wanted state, mostly drawn again where nothing is to be moved, how many single moves are done, and slices about as
/// long as the remaining ones and those that go back.
pub fn any_cut_plan(random: &mut Random, network: &Network) -> (Vec<u8>, Vec<u8>, u64, Vec<usize>) {
    let first = any_two_states(random, network);
    let again = first.2.is_empty() && random.percent(75);
    let (present, wanted, pairs) = if again { any_two_states(random, network) } else { first };
    let moves = pairs.iter().map(Pair::moves).sum();
    let count = any_count(random, moves);
    let done = count.min(moves as u64) as usize;
    let rooms = [moves - done, done].map(|lines| near(random, OPERATION_LENGTH * lines));
    (present, wanted, count, rooms.to_vec())
}

/// Mostly up to two above the moves, else around the ends of 16, 32 and 64 bits.
fn any_count(random: &mut Random, moves: usize) -> u64 {
    let up_to = |random: &mut Random, most: usize| random.below(most + 1) as u64;
    match random.below(16) {
        0 => random.pick(&[0xFFFF, 1 << 16, 1 << 32, u64::MAX]),
        1 => random.pick(&[1 << 16, 1 << 32]) + up_to(random, moves),
        2 => moves as u64,
        3..=6 => up_to(random, moves + 2),
        _ => up_to(random, moves),
    }
}

/// A present and a wanted state, mostly radial, and their plan, which is empty where it is refused.
fn any_two_states(random: &mut Random, network: &Network) -> (Vec<u8>, Vec<u8>, Vec<Pair>) {
    let spares = random.percent(70);
    let radial =
        |random: &mut Random| radial_state(random, network, spares).unwrap_or_else(|| any_state(random, network));
    let present = if random.percent(15) { any_state(random, network) } else { radial(random) };
    let wanted = if random.percent(15) { any_state(random, network) } else { radial(random) };
    let pairs = plan(network, &present, &wanted, usize::MAX).unwrap_or_default();
    (present, wanted, pairs)
}

/// A state whose live branches are a tree: fixed branches first, then those with a switch in any order. One that finds its ends joined
/// is dead by one switch or by both, by a locked one not where another is there and they are spared.
fn radial_state(random: &mut Random, network: &Network, spares: bool) -> Option<Vec<u8>> {
    let mut on = vec![Vec::new(); network.branches.len()];
    network.switches.iter().enumerate().for_each(|(i, switch)| on[switch.branch].push(i));
    let mut order: Vec<usize> = (0..network.branches.len()).filter(|&k| network.branches[k].in_service).collect();
    random.shuffle(&mut order);
    order.sort_by_key(|&k| !on[k].is_empty());
    let mut piece: Vec<usize> = (0..network.buses.len()).collect();
    let mut state: Vec<u8> = network.switches.iter().map(|_| random.below(2) as u8).collect();
    for k in order {
        let (a, b) = (piece[network.branches[k].from], piece[network.branches[k].to]);
        piece.iter_mut().filter(|piece| **piece == a && a != b).for_each(|piece| *piece = b);
        on[k].iter().for_each(|&i| state[i] = CLOSED);
        if a == b {
            opened(random, network, &on[k], spares).into_iter().for_each(|i| state[i] = OPEN);
        }
    }
    radial(network, &network.live(&state)).then_some(state)
}

/// Some of a branch's switches, one at least where it has any.
fn opened(random: &mut Random, network: &Network, on: &[usize], spares: bool) -> Vec<usize> {
    let operable: Vec<usize> = on.iter().copied().filter(|&i| network.switches[i].can_operate).collect();
    let from = if spares && !operable.is_empty() { &operable[..] } else { on };
    match from {
        [_, _] if random.percent(50) => vec![random.pick(from)],
        _ => from.to_vec(),
    }
}
