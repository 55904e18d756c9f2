//! The 86 lines of a plan, read as lists of ids, carried out and undone on a state's bytes as include/feeder.h says.

use crate::reckoning::judge::tree;
use crate::reckoning::{Network, CLOSED, OPEN};

/// The ids that are closed, and those that are opened.
pub struct Pair {
    closed: Vec<u16>,
    opened: Vec<u16>,
}

impl Pair {
    /// How many switches it moves.
    pub fn moves(&self) -> usize {
        self.closed.len() + self.opened.len()
    }
}

/// None where a line is no 86 line.
pub fn read(lines: &[u8]) -> Option<Vec<Pair>> {
    std::str::from_utf8(lines).ok()?.split_inclusive('\n').map(pair).collect()
}

fn pair(line: &str) -> Option<Pair> {
    let (closed, rest) = ids(line.strip_prefix("86")?)?;
    let (opened, end) = ids(rest)?;
    (end == "\n").then_some(Pair { closed, opened })
}

/// One or two ids behind their number, and what is behind them.
fn ids(digits: &str) -> Option<(Vec<u16>, &str)> {
    let number = |at: usize, width: usize| u16::from_str_radix(digits.get(at..at + width)?, 16).ok();
    let count = usize::from(number(0, 2)?);
    let ids = (0..count).map(|k| number(2 + 4 * k, 4)).collect::<Option<Vec<u16>>>()?;
    (1..=2).contains(&count).then_some((ids, &digits[2 + 4 * count..]))
}

/// The stopping points are radial and the last has the wanted live branches; undone, each line leads back to the point before it. Every switch stands the other way before it is moved.
pub fn lead(network: &Network, present: &[u8], wanted: &[u8], pairs: &[Pair]) -> bool {
    let mut points = vec![present.to_vec()];
    for pair in pairs {
        let mut state = points[points.len() - 1].clone();
        let moved = set(network, &mut state, pair.closed.iter(), CLOSED) && set(network, &mut state, pair.opened.iter(), OPEN);
        if !moved || !tree(network, &network.live(&state)) {
            return false;
        }
        points.push(state);
    }
    let back = |(pair, points): (&Pair, &[Vec<u8>])| {
        let mut state = points[1].clone();
        set(network, &mut state, pair.opened.iter().rev(), CLOSED) && set(network, &mut state, pair.closed.iter().rev(), OPEN) && state == points[0]
    };
    pairs.iter().zip(points.windows(2)).all(back) && network.live(&points[pairs.len()]) == network.live(wanted)
}

fn set<'a>(network: &Network, state: &mut [u8], mut ids: impl Iterator<Item = &'a u16>, byte: u8) -> bool {
    ids.all(|id| {
        let switch = network.switches.iter().position(|switch| switch.id == *id);
        switch.is_some_and(|i| std::mem::replace(&mut state[i], byte) != byte)
    })
}
