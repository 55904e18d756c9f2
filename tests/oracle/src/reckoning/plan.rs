//! Document 01, section "Plan", with document 02's Point 6, and refusals 10 to 13.

use super::{Network, Refusal, CLOSED, OPEN};

/// Bytes of an 86 line without ids, and of an id.
const HEAD_LENGTH: usize = 7;
const ID_LENGTH: usize = 4;

/// A pair: the positions of the switches that are closed, all of one branch, and of those that are opened, in list order.
#[derive(Debug, Clone, PartialEq, Eq)]
pub struct Pair {
    pub closed: Vec<usize>,
    pub opened: Vec<usize>,
}

impl Pair {
    /// How many switches it moves.
    pub fn moves(&self) -> usize {
        self.closed.len() + self.opened.len()
    }
}

/// The planner's answer; `room` is the room for its lines, in bytes.
pub fn plan(network: &Network, present: &[u8], wanted: &[u8], room: usize) -> Result<Vec<Pair>, Refusal> {
    let refuse = |number, place| Err(Refusal { number, place });
    for (place, state) in [(0, present), (1, wanted)] {
        if !well_formed(network, state) {
            return refuse(10, place);
        }
    }
    for (place, state) in [(0, present), (1, wanted)] {
        if !radial(network, &network.live(state)) {
            return refuse(11, place);
        }
    }
    if let Some(id) = locked(network, present, wanted) {
        return refuse(12, id);
    }
    let pairs = pairs(network, present, wanted);
    if length(&pairs) > room {
        return refuse(13, 0);
    }
    Ok(pairs)
}

/// "One byte 00 (closed) or 01 (open) for each switch."
pub fn well_formed(network: &Network, state: &[u8]) -> bool {
    state.len() == network.switches.len() && state.iter().all(|&byte| byte == CLOSED || byte == OPEN)
}

/// "True for zero buses; else n−1 live branches, and all n buses reached."
pub fn radial(network: &Network, live: &[bool]) -> bool {
    let n = network.buses.len();
    n == 0 || (count(live) == n - 1 && reached(network, live, 0).iter().all(|&bus| bus))
}

pub fn count(live: &[bool]) -> usize {
    live.iter().filter(|&&branch| branch).count()
}

/// The buses joined with one: spread over live branches, of the first so many as there are flags, until nothing is new.
pub fn reached(network: &Network, live: &[bool], start: usize) -> Vec<bool> {
    let mut reached = vec![false; network.buses.len()];
    reached[start] = true;
    loop {
        let before = count(&reached);
        for (branch, _) in network.branches.iter().zip(live).filter(|(_, &live)| live) {
            let (a, b) = (branch.from, branch.to);
            let either = reached[a] || reached[b];
            (reached[a], reached[b]) = (either, either);
        }
        if count(&reached) == before {
            return reached;
        }
    }
}

/// Refusal 12's place: the first locked switch, in list order, that differs and whose branch is live in just one of the states.
fn locked(network: &Network, present: &[u8], wanted: &[u8]) -> Option<u16> {
    let (before, after) = (network.live(present), network.live(wanted));
    let differs = |i: usize, branch: usize| present[i] != wanted[i] && before[branch] != after[branch];
    let mut moved = network.switches.iter().enumerate().filter(|(i, s)| differs(*i, s.branch));
    moved.find(|(_, s)| !s.can_operate).map(|(_, s)| s.id)
}

/// "Take branches live in the wanted state only, by switch order"; "A branch ranks by its first listed switch."
fn closings(network: &Network, present: &[u8], wanted: &[u8]) -> Vec<usize> {
    let (before, after) = (network.live(present), network.live(wanted));
    let mut branches: Vec<usize> = (0..after.len()).filter(|&k| after[k] && !before[k]).collect();
    branches.sort_by_key(|&k| network.switches.iter().position(|s| s.branch == k));
    branches
}

/// The positions of the switches on a branch that a state opens, in list order.
pub fn open_on(network: &Network, state: &[u8], branch: usize) -> Vec<usize> {
    (0..state.len()).filter(|&i| network.switches[i].branch == branch && state[i] == OPEN).collect()
}

/// "A plan pair closes all open switches of one branch and opens those of the other that the wanted state opens."
fn pairs(network: &Network, present: &[u8], wanted: &[u8]) -> Vec<Pair> {
    let pair =
        |(tie, section)| Pair { closed: open_on(network, present, tie), opened: open_on(network, wanted, section) };
    exchanges(network, present, wanted, &closings(network, present, wanted)).into_iter().map(pair).collect()
}

/// Each branch that is closed, and the one that is opened for it.
pub fn exchanges(network: &Network, present: &[u8], wanted: &[u8], closings: &[usize]) -> Vec<(usize, usize)> {
    let (mut live, goal) = (network.live(present), network.live(wanted));
    let mut exchanges = Vec::new();
    for &tie in closings {
        let branch = &network.branches[tie];
        let way = path(network, &live, branch.from, branch.to).expect("a radial state joins all buses");
        let section = *way.iter().find(|&&k| !goal[k]).expect("the wanted state has no loop");
        (live[tie], live[section]) = (true, false);
        exchanges.push((tie, section));
    }
    exchanges
}

/// The branches of the path between two buses, beginning at the first: a search into the depth.
pub fn path(network: &Network, live: &[bool], from: usize, to: usize) -> Option<Vec<usize>> {
    fn onward(network: &Network, live: &[bool], at: usize, to: usize, way: &mut Vec<usize>) -> bool {
        if at == to {
            return true;
        }
        for (k, branch) in network.branches.iter().enumerate() {
            let touches = branch.from == at || branch.to == at;
            if !live[k] || !touches || way.last() == Some(&k) {
                continue;
            }
            way.push(k);
            let next = if branch.from == at { branch.to } else { branch.from };
            if onward(network, live, next, to, way) {
                return true;
            }
            way.pop();
        }
        false
    }
    let mut way = Vec::new();
    onward(network, live, from, to, &mut way).then_some(way)
}

/// Document 02's 86 lines: "a count byte, the closed ids, a count byte, the opened ids, each id u16, in list order".
pub fn lines(network: &Network, pairs: &[Pair]) -> String {
    let ids = |positions: &[usize]| -> String {
        let ids = positions.iter().map(|&position| format!("{:04X}", network.switches[position].id));
        std::iter::once(format!("{:02X}", positions.len())).chain(ids).collect()
    };
    pairs.iter().map(|pair| format!("86{}{}\n", ids(&pair.closed), ids(&pair.opened))).collect()
}

/// Bytes of these lines.
pub fn length(pairs: &[Pair]) -> usize {
    pairs.iter().map(|pair| HEAD_LENGTH + ID_LENGTH * pair.moves()).sum()
}
