//! A plan that is cut off, by the independent reckoning: its single moves, the two lists at a count, and where carrying them out on the states leads.

use crate::reckoning::plan::{count as live_count, path, plan, radial};
use crate::reckoning::resume::{lines, moves, resume, Move};
use crate::reckoning::{reader, Network, Refusal, CLOSED, OPEN};
use crate::states::OPERATION_LENGTH;

/// The moves, and the state at each count of them.
pub struct Plan {
    network: Network,
    pub present: Vec<u8>,
    pub wanted: Vec<u8>,
    pub moves: Vec<Move>,
    states: Vec<Vec<u8>>,
}

/// A plan that there isn't.
pub struct Refused {
    pub present: Vec<u8>,
    pub wanted: Vec<u8>,
    pub refusal: Refusal,
}

/// The two lists in lines.
pub struct Cut {
    pub remaining: Vec<u8>,
    pub back: Vec<u8>,
}

impl Plan {
    pub fn of(text: &[u8], present: &[u8], wanted: &[u8]) -> Result<Plan, Refused> {
        let (present, wanted) = (present.to_vec(), wanted.to_vec());
        let read = reader::read(text).and_then(|network| plan(&network, &present, &wanted, usize::MAX).map(|pairs| (network, pairs)));
        let (network, pairs) = match read {
            Ok(read) => read,
            Err(refusal) => return Err(Refused { present, wanted, refusal }),
        };
        let (moves, mut states) = (moves(&pairs), vec![present.clone()]);
        for one in &moves {
            let mut state = states[states.len() - 1].clone();
            state[one.switch] = one.byte;
            states.push(state);
        }
        Ok(Plan { network, present, wanted, moves, states })
    }

    /// The state after so many moves.
    pub fn state(&self, count: usize) -> Option<&[u8]> {
        self.states.get(count).map(Vec::as_slice)
    }

    /// 16, then 13.
    pub fn cut(&self, count: u64, rooms: (usize, usize)) -> Result<Cut, Refusal> {
        let [remaining, back] = resume(&self.moves, count)?.map(|list| lines(&self.network, &list).into_bytes());
        if remaining.len() > rooms.0 || back.len() > rooms.1 {
            return Err(Refusal { number: 13, place: 0 });
        }
        Ok(Cut { remaining, back })
    }

    /// The lines that a call wrote, carried out on the state at the cut: finishing reaches the wanted live branches, going back the bytes of the present state. Between the last
    /// closing of a pair and its first opening every bus is joined, and there is one loop; at every other count the state is radial.
    pub fn leads(&self, count: usize, remaining: &[u8], back: &[u8]) -> bool {
        let state = &self.states[count];
        let finished = self.carried_out(state, remaining, self.moves.len() - count);
        let gone_back = self.carried_out(state, back, count);
        let live = |state: &[u8]| self.network.live(state);
        let opens = self.moves.get(count).is_some_and(|next| next.byte == OPEN);
        let closing = self.moves[..count].last().filter(|one| one.byte == CLOSED && opens);
        let stands = closing.map_or_else(|| radial(&self.network, &live(state)), |one| self.has_one_loop(state, one.switch));
        stands && finished.is_some_and(|state| live(&state) == live(&self.wanted)) && gone_back.is_some_and(|state| state == self.present)
    }

    /// As many live branches as buses, and those without which a tree is left are the closed branch and the whole path between its ends; the largest feeders are
    /// looked at for the closed branch alone.
    fn has_one_loop(&self, state: &[u8], closed: usize) -> bool {
        let (network, live) = (&self.network, self.network.live(state));
        let without = |k: usize| live.iter().enumerate().map(|(at, &live)| live && at != k).collect::<Vec<bool>>();
        let tie = network.switches[closed].branch;
        let (from, to) = (network.branches[tie].from, network.branches[tie].to);
        if !live[tie] || live_count(&live) != network.buses.len() || !radial(network, &without(tie)) {
            return false;
        }
        let mut around = path(network, &without(tie), from, to).expect("a tree joins all buses");
        around.push(tie);
        let on_loop = |&k: &usize| live[k] && radial(network, &without(k));
        around.sort_unstable();
        network.buses.len() > 64 || (0..live.len()).filter(on_loop).eq(around)
    }

    /// Each line moves a switch that stood the other way.
    fn carried_out(&self, state: &[u8], lines: &[u8], count: usize) -> Option<Vec<u8>> {
        let mut state = state.to_vec();
        for line in lines.chunks(OPERATION_LENGTH).take(count) {
            let line = std::str::from_utf8(line).ok()?;
            let id = u16::from_str_radix(line.get(2..6)?, 16).ok()?;
            let byte = match line.get(6..)? {
                "00\n" => OPEN,
                "01\n" => CLOSED,
                _ => return None,
            };
            let switch = self.network.switches.iter().position(|switch| switch.id == id)?;
            let moves = std::mem::replace(&mut state[switch], byte) != byte;
            if !moves || !line.starts_with("82") {
                return None;
            }
        }
        Some(state)
    }
}
