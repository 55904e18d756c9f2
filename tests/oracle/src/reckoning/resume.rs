//! Document 02, Points 4 and 6: the single moves of a plan, the lists for a controller that lost power among them, and refusal 16.

use super::plan::Pair;
use super::{Network, Refusal, CLOSED, OPEN};

/// The position of a switch, and the byte that it gets.
#[derive(Debug, Clone, Copy, PartialEq, Eq)]
pub struct Move {
    pub switch: usize,
    pub byte: u8,
}

impl Move {
    pub fn inverted(self) -> Move {
        Move { byte: if self.byte == OPEN { CLOSED } else { OPEN }, ..self }
    }
}

/// Of each pair the closings, then the openings, each in list order: "Point 4 counts each switch move".
pub fn moves(pairs: &[Pair]) -> Vec<Move> {
    let each = |switches: &[usize], byte| switches.iter().map(|&switch| Move { switch, byte }).collect::<Vec<Move>>();
    pairs.iter().flat_map(|pair| [each(&pair.closed, CLOSED), each(&pair.opened, OPEN)].concat()).collect()
}

/// "The remaining moves and those that go back (the done ones inverted, last first)"; 16 is "count above the plan's moves, place 0".
pub fn resume(moves: &[Move], count: u64) -> Result<[Vec<Move>; 2], Refusal> {
    if count > moves.len() as u64 {
        return Err(Refusal { number: 16, place: 0 });
    }
    let (done, remaining) = moves.split_at(count as usize);
    Ok([remaining.to_vec(), done.iter().rev().map(|done| done.inverted()).collect()])
}

/// "Each list as 82 lines": the id, and 00 open or 01 close.
pub fn lines(network: &Network, moves: &[Move]) -> String {
    let id = |one: &Move| network.switches[one.switch].id;
    moves.iter().map(|one| format!("82{:04X}{:02X}\n", id(one), (one.byte == CLOSED) as u8)).collect()
}
