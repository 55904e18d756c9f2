//! Mistakes about branches with two switches in plans: `wrong` has them in the 86 lines, `wrong_calls` in the answers of calls.

use crate::reckoning::plan::{exchanges, open_on, plan, Pair};
use crate::reckoning::resume::{self, Move};
use crate::reckoning::{Network, Refusal, OPEN};

#[derive(Debug, Clone, Copy, PartialEq)]
pub enum Mistake {
    AllOfOpenedBranch,
    FirstOpenAlone,
    LockedThatStays,
    LockedInPlanOrder,
    RankByFirstMoved,
    ClosedTwice,
    IdsSorted,
    NoCounts,
    OpeningsFirst,
    UndoneInListOrder,
}

/// The plans that `feeder` prints move one switch of each branch: an exchange closes a tie, and from a radial state a branch with two open ties
/// would stay dead; nor is a plan from a radial base refused.
pub const IN_TEXTS: [Mistake; 6] = [
    Mistake::AllOfOpenedBranch,
    Mistake::LockedThatStays,
    Mistake::RankByFirstMoved,
    Mistake::ClosedTwice,
    Mistake::NoCounts,
    Mistake::OpeningsFirst,
];
pub const IN_PLANS: [Mistake; 9] = [
    Mistake::AllOfOpenedBranch,
    Mistake::FirstOpenAlone,
    Mistake::LockedThatStays,
    Mistake::LockedInPlanOrder,
    Mistake::RankByFirstMoved,
    Mistake::ClosedTwice,
    Mistake::IdsSorted,
    Mistake::NoCounts,
    Mistake::OpeningsFirst,
];
pub const IN_CUT_PLANS: [Mistake; 9] = [
    Mistake::AllOfOpenedBranch,
    Mistake::FirstOpenAlone,
    Mistake::LockedThatStays,
    Mistake::LockedInPlanOrder,
    Mistake::RankByFirstMoved,
    Mistake::ClosedTwice,
    Mistake::IdsSorted,
    Mistake::OpeningsFirst,
    Mistake::UndoneInListOrder,
];

impl Mistake {
    /// The planner's answer with the mistake.
    pub fn plan(self, network: &Network, present: &[u8], wanted: &[u8]) -> Result<Vec<Pair>, Refusal> {
        let right = plan(network, present, wanted, usize::MAX);
        match self {
            Mistake::LockedThatStays => {
                right.and_then(|pairs| locked_that_stays(network, present, wanted).map(|()| pairs))
            }
            Mistake::LockedInPlanOrder => right.map_err(|refusal| match refusal.number {
                12 => first_locked(network, &self.pairs(network, present, wanted)).unwrap_or(refusal),
                _ => refusal,
            }),
            _ => right.map(|_| self.pairs(network, present, wanted)),
        }
    }

    fn pairs(self, network: &Network, present: &[u8], wanted: &[u8]) -> Vec<Pair> {
        let closings = self.closings(network, present, wanted);
        let mut pairs: Vec<Pair> = exchanges(network, present, wanted, &closings)
            .into_iter()
            .map(|(tie, section)| Pair {
                closed: open_on(network, present, tie),
                opened: open_on(network, wanted, section),
            })
            .collect();
        for pair in &mut pairs {
            let id = |i: &usize| network.switches[*i].id;
            match self {
                Mistake::AllOfOpenedBranch => {
                    let section = network.switches[pair.opened[0]].branch;
                    pair.opened = open_on(network, &vec![OPEN; present.len()], section);
                }
                Mistake::FirstOpenAlone => pair.closed.truncate(1),
                Mistake::IdsSorted => {
                    [&mut pair.closed, &mut pair.opened].into_iter().for_each(|list| list.sort_by_key(id))
                }
                Mistake::OpeningsFirst => std::mem::swap(&mut pair.closed, &mut pair.opened),
                _ => (),
            }
        }
        if self == Mistake::ClosedTwice {
            let two = |pair: &Pair| {
                let tie = network.switches[pair.closed[0]].branch;
                network.switches.iter().filter(|s| s.branch == tie).count()
            };
            pairs = pairs.into_iter().flat_map(|pair| vec![pair.clone(); two(&pair)]).collect();
        }
        pairs
    }

    /// The branches that are closed, by the first switch of each or by the first that moves.
    fn closings(self, network: &Network, present: &[u8], wanted: &[u8]) -> Vec<usize> {
        let (before, after) = (network.live(present), network.live(wanted));
        let ranks = |i: usize| self != Mistake::RankByFirstMoved || present[i] != wanted[i];
        let mut branches: Vec<usize> = (0..after.len()).filter(|&k| after[k] && !before[k]).collect();
        branches.sort_by_key(|&k| (0..present.len()).find(|&i| network.switches[i].branch == k && ranks(i)));
        branches
    }

    /// The lines of a plan that was made with the mistake.
    pub fn lines(self, network: &Network, pairs: &[Pair]) -> String {
        let ids = |list: &[usize]| {
            let ids: String = list.iter().map(|&i| format!("{:04X}", network.switches[i].id)).collect();
            let count = format!("{:02X}", list.len());
            if self == Mistake::NoCounts {
                ids
            } else {
                count + &ids
            }
        };
        pairs.iter().map(|pair| format!("86{}{}\n", ids(&pair.closed), ids(&pair.opened))).collect()
    }

    /// The remaining moves and those that go back, of a plan that was made with the mistake.
    pub fn resume(self, pairs: &[Pair], count: u64) -> Result<[Vec<Move>; 2], Refusal> {
        let mut moves = resume::moves(pairs);
        if self == Mistake::OpeningsFirst {
            // the lists have changed places: what is first is opened
            moves.iter_mut().for_each(|one| *one = one.inverted());
        }
        let [remaining, mut back] = resume::resume(&moves, count)?;
        if self == Mistake::UndoneInListOrder {
            // each pair's openings, then its closings, as the 86 line has them
            back.chunk_by_mut(|a, b| a.byte == b.byte).for_each(<[Move]>::reverse);
        }
        Ok([remaining, back])
    }
}

/// 12 for any locked switch of a branch that is live in one of the states only, whether it moves or not.
fn locked_that_stays(network: &Network, present: &[u8], wanted: &[u8]) -> Result<(), Refusal> {
    let (before, after) = (network.live(present), network.live(wanted));
    let locked = network.switches.iter().find(|s| before[s.branch] != after[s.branch] && !s.can_operate);
    locked.map_or(Ok(()), |s| Err(Refusal { number: 12, place: s.id }))
}

/// The first locked switch that a plan moves, by its pairs.
fn first_locked(network: &Network, pairs: &[Pair]) -> Option<Refusal> {
    let mut moved = pairs.iter().flat_map(|pair| pair.closed.iter().chain(&pair.opened));
    let locked = moved.find(|&&i| !network.switches[i].can_operate)?;
    Some(Refusal { number: 12, place: network.switches[*locked].id })
}
