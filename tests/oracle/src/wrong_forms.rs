//! Mistakes about what the live branches of a state are: `wrong` has them in the 84 line, `wrong_calls` in the answers of calls.

use crate::reckoning::form::{self, closes, parallel, Form, NO_BRANCH};
use crate::reckoning::plan::count;
use crate::reckoning::searches::Slip;
use crate::reckoning::Network;
use std::collections::VecDeque;

#[derive(Debug, Clone, Copy, PartialEq)]
pub enum Mistake {
    PiecesForIslands,
    OneUnlessTree,
    NoIslandsBesideLoop,
    BusesLessLive,
    IslandsBeforeLoop,
    LastClosing,
    FirstOnWalk,
    ParallelsPassed,
    LastBusKeepsLabel,
    OpenOnesAdded,
    OutOfServiceAdded,
    OfBase,
    BranchFromOne,
    ZeroForNone,
    BranchFirst,
    LastSwitchDecides,
    AnyClosedMakesLive,
}

pub const ALL: [Mistake; 17] = [
    Mistake::PiecesForIslands,
    Mistake::OneUnlessTree,
    Mistake::NoIslandsBesideLoop,
    Mistake::BusesLessLive,
    Mistake::IslandsBeforeLoop,
    Mistake::LastClosing,
    Mistake::FirstOnWalk,
    Mistake::ParallelsPassed,
    Mistake::LastBusKeepsLabel,
    Mistake::OpenOnesAdded,
    Mistake::OutOfServiceAdded,
    Mistake::OfBase,
    Mistake::BranchFromOne,
    Mistake::ZeroForNone,
    Mistake::BranchFirst,
    Mistake::LastSwitchDecides,
    Mistake::AnyClosedMakesLive,
];

impl Mistake {
    /// The islands and the branch that are told of a state.
    pub fn fields(self, network: &Network, state: &[u8]) -> [u16; 2] {
        if self.spares_trees() && form::form(network, &network.live(state)) == Form::Tree {
            return Form::Tree.fields();
        }
        let live = self.live(network, state);
        let right = form::form(network, &live);
        let [islands, branch] = right.fields();
        let looped = branch != NO_BRANCH;
        match self {
            Mistake::PiecesForIslands => [islands + !network.buses.is_empty() as u16, branch],
            Mistake::OneUnlessTree => [(right != Form::Tree) as u16, branch],
            Mistake::NoIslandsBesideLoop if looped => [0, branch],
            Mistake::BusesLessLive => [network.buses.len().saturating_sub(1 + count(&live)) as u16, branch],
            Mistake::IslandsBeforeLoop if islands > 0 => [islands, NO_BRANCH],
            Mistake::BranchFromOne if looped => [islands, branch + 1],
            Mistake::ZeroForNone if !looped => [islands, 0],
            Mistake::BranchFirst => [branch, islands],
            Mistake::LastBusKeepsLabel if network.buses.len() == 256 => labelled(network, &live),
            _ if looped => [islands, self.closing(network, &live).map_or(NO_BRANCH, |k| k as u16)],
            _ => [islands, branch],
        }
    }

    /// Mistakes with the labels, which are asked only where a state is no tree.
    fn spares_trees(self) -> bool {
        matches!(
            self,
            Mistake::PiecesForIslands
                | Mistake::LastBusKeepsLabel
                | Mistake::OpenOnesAdded
                | Mistake::OutOfServiceAdded
        )
    }

    fn live(self, network: &Network, state: &[u8]) -> Vec<bool> {
        match self {
            Mistake::OfBase => network.live(&network.base()),
            Mistake::OpenOnesAdded => network.live(&[]),
            Mistake::LastSwitchDecides => Slip::LastSwitchDecides.live(network, state),
            Mistake::AnyClosedMakesLive => Slip::AnyClosedMakesLive.live(network, state),
            Mistake::OutOfServiceAdded => {
                let mut all = network.clone();
                all.branches.iter_mut().for_each(|branch| branch.in_service = true);
                all.live(state)
            }
            _ => network.live(state),
        }
    }

    /// The branch that is told of live branches with a loop.
    fn closing(self, network: &Network, live: &[bool]) -> Option<usize> {
        let mut closing = (0..live.len()).filter(|&k| closes(network, live, k));
        match self {
            Mistake::LastClosing => closing.last(),
            Mistake::FirstOnWalk => first_on_walk(network, live),
            Mistake::ParallelsPassed => closing.find(|&k| !parallel(network, live, k)),
            _ => closing.next(),
        }
    }
}

/// The branch over which breadth-first walks, from the first bus and then from the next that is not reached, first come to a bus again.
fn first_on_walk(network: &Network, live: &[bool]) -> Option<usize> {
    let mut reached = vec![false; network.buses.len()];
    let mut left = live.to_vec();
    while let Some(start) = reached.iter().position(|&bus| !bus) {
        reached[start] = true;
        let mut waiting = VecDeque::from([start]);
        while let Some(bus) = waiting.pop_front() {
            for (k, branch) in network.branches.iter().enumerate() {
                if !left[k] || (branch.from != bus && branch.to != bus) {
                    continue;
                }
                left[k] = false;
                let next = if branch.from == bus { branch.to } else { branch.from };
                if reached[next] {
                    return Some(k);
                }
                reached[next] = true;
                waiting.push_back(next);
            }
        }
    }
    None
}

/// By labels that are merged for all buses but the last of 256.
fn labelled(network: &Network, live: &[bool]) -> [u16; 2] {
    let mut labels: Vec<usize> = (0..network.buses.len()).collect();
    let (mut islands, mut closing) = (network.buses.len() as u16 - 1, NO_BRANCH);
    for k in (0..live.len()).filter(|&k| live[k]) {
        let (kept, gone) = (labels[network.branches[k].from], labels[network.branches[k].to]);
        if kept != gone {
            labels.iter_mut().take(255).filter(|label| **label == gone).for_each(|label| *label = kept);
            islands = islands.saturating_sub(1);
        } else if closing == NO_BRANCH {
            closing = k as u16;
        }
    }
    [islands, closing]
}
