//! A judge of plans that makes none: it carries the pairs out on the state's bytes and looks behind every switch, or the single moves and
//! looks behind each. Trees are told by union-find; a branch lies on the loop of a closing when the buses stay joined without it.

use super::form::Form;
use super::plan::{count, path, Pair};
use super::resume::{resume, Move};
use super::{Network, CLOSED, OPEN};

/// What is wrong with the plan from `present` to `wanted`, two radial states; none if nothing is.
pub fn fault(network: &Network, present: &[u8], wanted: &[u8], pairs: &[Pair]) -> Option<String> {
    let (before, goal) = (network.live(present), network.live(wanted));
    let missing = (0..goal.len()).filter(|&k| goal[k] && !before[k]).count();
    if pairs.len() != missing {
        return Some(format!("{} pairs, {missing} branches are live in the wanted state only", pairs.len()));
    }
    let mut state = present.to_vec();
    for (number, pair) in pairs.iter().enumerate() {
        if let Err(fault) = carry_out(network, &mut state, pair) {
            return Some(format!("pair {}: {fault}", number + 1));
        }
    }
    if network.live(&state) != goal {
        return Some("the last point's live branches are not the wanted ones".to_string());
    }
    let differs = |branch: usize| before[branch] != goal[branch];
    let as_wanted = |i: usize, branch: usize| state[i] == if differs(branch) { wanted[i] } else { present[i] };
    if !network.switches.iter().enumerate().all(|(i, switch)| as_wanted(i, switch.branch)) {
        return Some("the last point has a switch that is neither as found nor as wanted".to_string());
    }
    None
}

/// The closings make their branch live at the last of them, the openings theirs dead at the first.
fn carry_out(network: &Network, state: &mut [u8], pair: &Pair) -> Result<(), &'static str> {
    let (tie, section) = (only_branch(network, &pair.closed)?, only_branch(network, &pair.opened)?);
    let before = network.live(state);
    check(
        pair.closed.iter().chain(&pair.opened).all(|&i| network.switches[i].can_operate),
        "a locked switch is moved",
    )?;
    let stands = |switches: &[usize], byte: u8| switches.iter().all(|&i| state[i] == byte);
    check(stands(&pair.closed, OPEN) && stands(&pair.opened, CLOSED), "a switch is moved to where it stands")?;
    check(!before[tie] && network.branches[tie].in_service, "the closing makes no branch live")?;
    check(before[section], "the opened branch was not live")?;
    let mut closed = before.clone();
    for (&i, left) in pair.closed.iter().zip((0..pair.closed.len()).rev()) {
        state[i] = CLOSED;
        closed[tie] = left == 0;
        check(network.live(state) == closed, "a closing changes other live branches than its own")?;
    }
    check(joined_without(network, &closed, section), "the opening is not on the loop of its closing")?;
    closed[section] = false;
    for &i in &pair.opened {
        state[i] = OPEN;
        check(network.live(state) == closed, "an opening changes other live branches than its own")?;
    }
    check(tree(network, &closed), "the stopping point is not radial")
}

/// The branch of switches that stand in list order, each once.
fn only_branch(network: &Network, switches: &[usize]) -> Result<usize, &'static str> {
    let branch = network.switches[*switches.first().ok_or("a pair moves nothing")?].branch;
    check(switches.iter().all(|&i| network.switches[i].branch == branch), "a list has switches of several branches")?;
    check(switches.is_sorted_by(|a, b| a < b), "a list is not in list order")?;
    Ok(branch)
}

/// What is wrong with the single moves of a plan from `present` to `wanted` at some count of them; none if nothing is.
pub fn fault_of_moves(network: &Network, present: &[u8], wanted: &[u8], moves: &[Move]) -> Option<String> {
    let mut state = present.to_vec();
    for done in 0..=moves.len() {
        let looked_at = point(network, &state, moves.split_at(done)).and_then(|()| {
            let [remaining, back] = resume(moves, done as u64).map_err(|_| "the count is refused")?;
            let reaches = network.live(&carried_out(&state, &remaining)) == network.live(wanted);
            check(reaches, "finishing does not reach the wanted live branches")?;
            check(carried_out(&state, &back) == present, "going back does not reach the present state")
        });
        if let Err(fault) = looked_at {
            return Some(format!("{done} moves done: {fault}"));
        }
        state = carried_out(&state, &moves[done..moves.len().min(done + 1)]);
    }
    None
}

fn carried_out(state: &[u8], moves: &[Move]) -> Vec<u8> {
    let mut state = state.to_vec();
    moves.iter().for_each(|one| state[one.switch] = one.byte);
    state
}

/// Document 02: "Point 4's one loop from the pair's last closing to its first opening, a tree at every other count"; there "every bus is connected
/// and exactly one loop exists, made of the closed branch and the whole path between its ends".
fn point(network: &Network, state: &[u8], (done, remaining): (&[Move], &[Move])) -> Result<(), &'static str> {
    let (live, n) = (network.live(state), network.buses.len());
    check(pieces(network, &live).0 <= 1, "a bus is cut off")?;
    let closes = |one: &&Move| one.byte == CLOSED;
    let Some(closing) = done.last().filter(closes).filter(|_| !remaining.first().is_some_and(|next| closes(&next)))
    else {
        check(count(&live) == n.saturating_sub(1), "the live branches are not one fewer than the buses")?;
        return check(tree(network, &live), "there is a loop beside closing and opening");
    };
    let tie = network.switches[closing.switch].branch;
    check(live[tie], "a closing leaves its branch dead")?;
    // With as many branches as buses, and all of these joined, there is just one loop.
    check(count(&live) == n, "the live branches are not as many as the buses")?;
    let (mut before, mut way) = (live.clone(), vec![false; live.len()]);
    (before[tie], way[tie]) = (false, true);
    let ends = &network.branches[tie];
    let walked = path(network, &before, ends.from, ends.to).ok_or("the ends of the closed branch were not joined")?;
    walked.into_iter().for_each(|k| way[k] = true);
    check(loops(network, &live) == way, "the loop is not the closed branch and the path between its ends")
}

/// What is left when branches with a dead end are taken off until there is none.
fn loops(network: &Network, live: &[bool]) -> Vec<bool> {
    let mut left = live.to_vec();
    loop {
        let mut branches_at = vec![0; network.buses.len()];
        for (branch, _) in network.branches.iter().zip(&left).filter(|(_, &left)| left) {
            branches_at[branch.from] += 1;
            branches_at[branch.to] += 1;
        }
        let before = count(&left);
        for (branch, left) in network.branches.iter().zip(&mut left) {
            *left &= branches_at[branch.from] > 1 && branches_at[branch.to] > 1;
        }
        if count(&left) == before {
            return left;
        }
    }
}

fn check(holds: bool, fault: &'static str) -> Result<(), &'static str> {
    if holds {
        Ok(())
    } else {
        Err(fault)
    }
}

/// With one branch too many for a tree, just the branches of its loop can be missed.
fn joined_without(network: &Network, live: &[bool], branch: usize) -> bool {
    let mut rest = live.to_vec();
    rest[branch] = false;
    pieces(network, &rest).0 <= 1
}

/// Connected, and no branch has both ends in one piece when it is added.
pub fn tree(network: &Network, live: &[bool]) -> bool {
    form(network, live) == Form::Tree
}

/// The answer of `form::form`, by union-find.
pub fn form(network: &Network, live: &[bool]) -> Form {
    let (pieces, closing) = pieces(network, live);
    let islands = pieces.saturating_sub(1) as u16;
    match closing {
        Some(branch) => Form::Loop { branch: branch as u16, islands },
        None if islands > 0 => Form::Islands(islands),
        None => Form::Tree,
    }
}

/// The number of connected pieces, and the first branch that closes a loop.
fn pieces(network: &Network, live: &[bool]) -> (usize, Option<usize>) {
    let (_, pieces, closing) = joined(network, live);
    (pieces, closing)
}

/// For each bus a label, the same for two buses just where live branches join them.
pub fn labels(network: &Network, live: &[bool]) -> Vec<usize> {
    let mut parent = joined(network, live).0;
    (0..parent.len()).map(|bus| root(&mut parent, bus)).collect()
}

/// Union-find, the number of pieces and the first branch that closes a loop.
fn joined(network: &Network, live: &[bool]) -> (Vec<usize>, usize, Option<usize>) {
    let mut parent: Vec<usize> = (0..network.buses.len()).collect();
    let (mut pieces, mut closing) = (parent.len(), None);
    for k in (0..live.len()).filter(|&k| live[k]) {
        let branch = &network.branches[k];
        let a = root(&mut parent, branch.from);
        let b = root(&mut parent, branch.to);
        if a == b {
            closing = closing.or(Some(k));
        } else {
            parent[a] = b;
            pieces -= 1;
        }
    }
    (parent, pieces, closing)
}

fn root(parent: &mut [usize], mut at: usize) -> usize {
    while parent[at] != at {
        parent[at] = parent[parent[at]];
        at = parent[at];
    }
    at
}
