//! Document 01, sections "Loss" and "Search answer", step by step, with the loss of document 02's Point 2 where a supply is named.
//! A `Slip` turns one step into a mistake, to see whether a set of texts tells the mistake from the rule.

use super::plan::radial;
use super::{Network, CLOSED, OPEN};
use std::collections::VecDeque;

/// Mistakes in the loss and in the searches.
#[derive(Debug, Clone, Copy, PartialEq, Eq)]
pub enum Slip {
    SupplySide,
    DepthFirst,
    LoadsBackwards,
    FusedProduct,
    SquareFirst,
    BranchesFall,
    EntersFromBus,
    BestTie,
    FirstTie,
    StateMovesInsideRound,
    NextSection,
    AnyOpenSwitch,
    TiesAsSections,
    LockedTies,
    LockedSections,
    PathFromToBus,
    PathDepthFirst,
    BranchOrderOnPath,
    RankedByLoss,
    MarginAsDifference,
    NoMargin,
    LastRoundNotCounted,
    ConvergedAtMax,
    TabuLaterOnTie,
    TabuFirstRadial,
    TabuReportsRounds,
    TabuAnswersLastState,
    TabuLockedSwitches,
    TabuOneRound,
    TabuNothingBarred,
    SkipsLockedTies,
    MasksFall,
    MaskBitsFromLastTie,
    ExhaustiveLaterOnTie,
    ExhaustiveFirstRadial,
    CountsAllMasks,
    BaseFirst,
    ReductionNotBelowZero,
    ReductionAboveZeroLoss,
    ReductionOtherOrder,
    ToSideWithLine,
    SideOfSupply,
    TrialsOnToSide,
    BaseOnToSide,
    DrawnInBase,
    SupplyIdAsPosition,
    LoadsByTree,
    QueueOf254,
    PositionsOfSevenBits,
    LastSwitchDecides,
    AnyClosedMakesLive,
    LastSection,
    ExchangeLiveBesideOpen,
    TabuLiveBesideOpen,
    ExhaustiveLiveBesideOpen,
    TabuPassesBesideOpen,
}

impl Slip {
    /// No text can show these: the first move leaves a radial state, and every later one keeps its live branches.
    pub const UNSEEN: [Slip; 3] = [Slip::TabuOneRound, Slip::TabuNothingBarred, Slip::TabuPassesBesideOpen];
    pub const ALL: [Slip; 53] = [
        Slip::SupplySide,
        Slip::DepthFirst,
        Slip::LoadsBackwards,
        Slip::FusedProduct,
        Slip::SquareFirst,
        Slip::BranchesFall,
        Slip::EntersFromBus,
        Slip::BestTie,
        Slip::FirstTie,
        Slip::StateMovesInsideRound,
        Slip::NextSection,
        Slip::AnyOpenSwitch,
        Slip::TiesAsSections,
        Slip::LockedTies,
        Slip::LockedSections,
        Slip::PathFromToBus,
        Slip::PathDepthFirst,
        Slip::BranchOrderOnPath,
        Slip::RankedByLoss,
        Slip::MarginAsDifference,
        Slip::NoMargin,
        Slip::LastRoundNotCounted,
        Slip::ConvergedAtMax,
        Slip::TabuLaterOnTie,
        Slip::TabuFirstRadial,
        Slip::TabuReportsRounds,
        Slip::TabuAnswersLastState,
        Slip::TabuLockedSwitches,
        Slip::SkipsLockedTies,
        Slip::MasksFall,
        Slip::MaskBitsFromLastTie,
        Slip::ExhaustiveLaterOnTie,
        Slip::ExhaustiveFirstRadial,
        Slip::CountsAllMasks,
        Slip::BaseFirst,
        Slip::ReductionNotBelowZero,
        Slip::ReductionAboveZeroLoss,
        Slip::ReductionOtherOrder,
        Slip::ToSideWithLine,
        Slip::SideOfSupply,
        Slip::TrialsOnToSide,
        Slip::BaseOnToSide,
        Slip::DrawnInBase,
        Slip::SupplyIdAsPosition,
        Slip::LoadsByTree,
        Slip::QueueOf254,
        Slip::PositionsOfSevenBits,
        Slip::LastSwitchDecides,
        Slip::AnyClosedMakesLive,
        Slip::LastSection,
        Slip::ExchangeLiveBesideOpen,
        Slip::TabuLiveBesideOpen,
        Slip::ExhaustiveLiveBesideOpen,
    ];

    /// Whether only a text with the 05 line can show it.
    pub fn needs_line(self) -> bool {
        (Slip::ToSideWithLine as usize..=Slip::LoadsByTree as usize).contains(&(self as usize))
    }

    /// Whether only a feeder with two switches on a branch can show it.
    pub fn needs_two_on_branch(self) -> bool {
        (Slip::LastSwitchDecides as usize..=Slip::TabuPassesBesideOpen as usize).contains(&(self as usize))
    }

    /// The live branches of a state; by a mistake the last listed switch of a branch decides, or any closed one makes it live.
    pub fn live(self, network: &Network, state: &[u8]) -> Vec<bool> {
        let mut live: Vec<bool> = network.branches.iter().map(|branch| branch.in_service).collect();
        for (k, live) in live.iter_mut().enumerate() {
            let mut on = network.switches.iter().zip(state).filter(|(s, _)| s.branch == k).map(|(_, &byte)| byte);
            let closed = match self {
                Slip::LastSwitchDecides => on.next_back() != Some(OPEN),
                Slip::AnyClosedMakesLive => on.clone().any(|byte| byte == CLOSED) || on.next().is_none(),
                _ => return network.live(state),
            };
            *live &= closed;
        }
        live
    }

    /// The fewest buses that a text which shows it has.
    pub fn needs_buses(self) -> usize {
        match self {
            Slip::QueueOf254 => 256,
            Slip::PositionsOfSevenBits => 129,
            _ => 0,
        }
    }
}

pub struct Answer {
    pub best: Vec<u8>,
    pub base_loss: f64,
    pub best_loss: f64,
    pub reduction: f64,
    pub iterations: u16,
    pub converged: bool,
}

/// The order of a walk, and from which bus by which branch each bus was reached.
type Walk = (Vec<usize>, Vec<Option<(usize, usize)>>);

/// What a search hands to `solve`: state, loss, iterations, converged.
struct Found(Vec<u8>, f64, u16, bool);

pub struct Searches<'a> {
    network: &'a Network,
    slip: Option<Slip>,
    /// A loss in place of the reckoned one.
    other_loss: Option<&'a dyn Fn(&[u8]) -> f64>,
}

impl<'a> Searches<'a> {
    pub fn new(network: &'a Network, slip: Option<Slip>) -> Self {
        Self { network, slip, other_loss: None }
    }

    /// The same steps with a given loss.
    pub fn with_loss(network: &'a Network, loss: &'a dyn Fn(&[u8]) -> f64) -> Self {
        Self { network, slip: None, other_loss: Some(loss) }
    }

    /// Positions of a branch's from bus and to bus.
    fn ends(&self, k: usize) -> (usize, usize) {
        (self.network.branches[k].from, self.network.branches[k].to)
    }

    fn slips(&self, slip: Slip) -> bool {
        self.slip == Some(slip)
    }

    pub fn solve(&self) -> Answer {
        let base_loss = self.loss(&self.network.base());
        let Found(best, best_loss, iterations, converged) = match self.network.method {
            0 => self.exchange(),
            1 => self.tabu(),
            _ => self.exhaustive(),
        };
        Answer { best, base_loss, best_loss, reduction: self.reduction(base_loss, best_loss), iterations, converged }
    }

    fn reduction(&self, base: f64, best: f64) -> f64 {
        let least = if self.slips(Slip::ReductionAboveZeroLoss) { 0.0 } else { 1e-12 };
        if base > least {
            let percent = (base - best) / base * 100.0;
            match self.slip {
                Some(Slip::ReductionNotBelowZero) => percent.max(0.0),
                Some(Slip::ReductionOtherOrder) => 100.0 * (base - best) / base,
                _ => percent,
            }
        } else {
            0.0
        }
    }

    /// The 81 line and the 82 lines.
    pub fn lines(&self, answer: &Answer) -> String {
        let radial_byte = radial(self.network, &self.live(&answer.best)) as u8;
        let first = format!(
            "81{:02X}{:016X}{:016X}{:016X}{:04X}{:02X}\n",
            radial_byte,
            answer.base_loss.to_bits(),
            answer.best_loss.to_bits(),
            answer.reduction.to_bits(),
            answer.iterations,
            answer.converged as u8
        );
        first + &operations(self.network, &self.network.base(), &answer.best)
    }

    pub fn live(&self, state: &[u8]) -> Vec<bool> {
        self.slip.map_or_else(|| self.network.live(state), |slip| slip.live(self.network, state))
    }

    /// The live branches of a state in which some of these switches were closed; a mistake takes no heed of what else is on their branches.
    fn live_closed(&self, state: &[u8], switches: &[usize], mistake: Slip) -> Vec<bool> {
        let mut live = self.live(state);
        for &i in switches.iter().filter(|&&i| self.slips(mistake) && state[i] == CLOSED) {
            let branch = self.network.switches[i].branch;
            live[branch] = self.network.branches[branch].in_service;
        }
        live
    }

    pub fn loss(&self, state: &[u8]) -> f64 {
        self.loss_over(state, self.live(state))
    }

    fn loss_over(&self, state: &[u8], live: Vec<bool>) -> f64 {
        if let Some(loss) = self.other_loss {
            return loss(state);
        }
        let base_mva = self.network.base_mva;
        let mut order: Vec<usize> = (0..live.len()).filter(|&k| live[k]).collect();
        if self.slips(Slip::BranchesFall) {
            order.reverse();
        }
        let mut total = 0.0;
        for k in order {
            let r = self.network.branches[k].r;
            let p = self.load(&live, self.drawn(state, &live, k)) / base_mva;
            total += match self.slip {
                Some(Slip::SquareFirst) => r * (p * p) * base_mva,
                Some(Slip::FusedProduct) => {
                    total = (r * p * p).mul_add(base_mva, total);
                    continue;
                }
                _ => ((r * p) * p) * base_mva,
            };
        }
        total
    }

    /// A branch's from and to; with a supply, the end on its side and the other: "downstream is the side of a live branch that
    /// does not hold the supply bus".
    fn drawn(&self, state: &[u8], live: &[bool], k: usize) -> (usize, usize) {
        let (from, to) = self.ends(k);
        let Some(supply) = self.supply(state) else { return (from, to) };
        let in_base = self.slips(Slip::DrawnInBase).then(|| self.live(&self.network.base()));
        let to_side = self.walk(in_base.as_deref().unwrap_or(live), to, Some(from), false).0;
        if to_side.contains(&supply) != self.slips(Slip::SideOfSupply) {
            (to, from)
        } else {
            (from, to)
        }
    }

    /// The supply's position, as far as a loss looks at it.
    fn supply(&self, state: &[u8]) -> Option<usize> {
        let supply = self.network.supply?;
        let is_base = || state == self.network.base();
        match self.slip {
            Some(Slip::ToSideWithLine) => None,
            Some(Slip::TrialsOnToSide) if !is_base() => None,
            Some(Slip::BaseOnToSide) if is_base() => None,
            Some(Slip::SupplyIdAsPosition) => {
                Some(usize::from(self.network.buses[supply].id) % self.network.buses.len())
            }
            _ => Some(supply),
        }
    }

    /// The load that a live branch carries: "downstream" is the side of the second of its ends.
    fn load(&self, live: &[bool], (mut from, mut to): (usize, usize)) -> f64 {
        if self.slips(Slip::LoadsByTree) && self.network.supply.is_some() {
            return self.added_up(live, from, to);
        }
        if self.slips(Slip::SupplySide) {
            (from, to) = (to, from);
        }
        let barred = if self.slips(Slip::EntersFromBus) { None } else { Some(from) };
        let mut order = self.walk(live, to, barred, self.slips(Slip::DepthFirst)).0;
        match self.slip {
            Some(Slip::LoadsBackwards) => order.reverse(),
            Some(Slip::QueueOf254) => order.truncate(254),
            _ => (),
        }
        order.iter().fold(0.0, |load, &bus| load + self.network.buses[bus].pd)
    }

    /// Each bus of a tree with the sums of what hangs on it.
    fn added_up(&self, live: &[bool], before: usize, bus: usize) -> f64 {
        let ends = (0..live.len()).filter(|&k| live[k]).filter_map(|k| other_end(self.ends(k), bus));
        ends.filter(|&next| next != before)
            .fold(self.network.buses[bus].pd, |load, next| load + self.added_up(live, bus, next))
    }

    /// Breadth-first over live branches, neighbours by rising branch position.
    fn walk(&self, live: &[bool], start: usize, barred: Option<usize>, depth_first: bool) -> Walk {
        let mut reached = vec![false; self.network.buses.len()];
        let mut by = vec![None; reached.len()];
        let mut order = Vec::new();
        let mut waiting = VecDeque::from([start]);
        // a loss's walk alone bars a bus
        let narrow = self.slips(Slip::PositionsOfSevenBits) && barred.is_some();
        reached[start] = true;
        barred.into_iter().for_each(|bus| reached[bus] = true);
        while let Some(bus) = if depth_first { waiting.pop_back() } else { waiting.pop_front() } {
            order.push(bus);
            for (k, _) in live.iter().enumerate().filter(|(_, &live)| live) {
                let Some(next) = other_end(self.ends(k), bus) else { continue };
                if !reached[next] {
                    reached[next] = true;
                    by[next] = Some((bus, k));
                    waiting.push_back(if narrow { next % 128 } else { next });
                }
            }
        }
        (order, by)
    }

    /// The branches of the breadth-first path, none where there is no path or the buses are one.
    fn path(&self, live: &[bool], from: usize, to: usize) -> Vec<usize> {
        let by = self.walk(live, from, None, self.slips(Slip::PathDepthFirst)).1;
        let mut path = Vec::new();
        let mut at = to;
        while let Some((before, k)) = by[at] {
            path.push(k);
            at = before;
        }
        path.reverse();
        path
    }

    fn exchange(&self) -> Found {
        let most = self.network.max_iterations;
        let mut state = self.network.base();
        let mut current = self.loss(&state);
        let mut rounds = 0;
        while rounds < most {
            rounds += 1;
            let Some((next, loss)) = self.round(&state, current) else {
                rounds -= self.slips(Slip::LastRoundNotCounted) as u16;
                break;
            };
            (state, current) = (next, loss);
        }
        let converged = rounds < most || self.slips(Slip::ConvergedAtMax);
        Found(state, current, rounds, converged)
    }

    /// One round: "The last improving tie wins the round."
    fn round(&self, state: &[u8], current: f64) -> Option<(Vec<u8>, f64)> {
        let mut won: Option<(Vec<u8>, f64)> = None;
        for tie in 0..state.len() {
            let switch = &self.network.switches[tie];
            let operable = switch.can_operate || self.slips(Slip::LockedTies);
            let is_tie = switch.normally_open || self.slips(Slip::AnyOpenSwitch);
            if !(is_tie && operable && state[tie] == OPEN) {
                continue;
            }
            let (from_state, from_loss) = match &won {
                Some((state, loss)) if self.slips(Slip::StateMovesInsideRound) => (state.clone(), *loss),
                _ => (state.to_vec(), current),
            };
            let Some((trial, loss)) = self.trial(&from_state, from_loss, tie) else { continue };
            let first = won.is_none();
            let better = won.as_ref().is_none_or(|(_, best)| loss < *best);
            let wins = match self.slip {
                Some(Slip::BestTie) => better,
                Some(Slip::FirstTie) => first,
                _ => true,
            };
            if self.improves(loss, from_loss) && wins {
                won = Some((trial, loss));
            }
        }
        won
    }

    fn improves(&self, loss: f64, current: f64) -> bool {
        match self.slip {
            Some(Slip::MarginAsDifference) => current - loss > 1e-9,
            Some(Slip::NoMargin) => loss < current,
            _ => loss < current - 1e-9,
        }
    }

    /// "The first branch whose first operable section switch is closed and whose swap is radial is tried."
    fn trial(&self, state: &[u8], current: f64, tie: usize) -> Option<(Vec<u8>, f64)> {
        let (from, to) = self.ends(self.network.switches[tie].branch);
        let live = self.live(state);
        let mut path =
            if self.slips(Slip::PathFromToBus) { self.path(&live, to, from) } else { self.path(&live, from, to) };
        if self.slips(Slip::BranchOrderOnPath) {
            path.sort_unstable();
        }
        if self.slips(Slip::RankedByLoss) {
            let rank = |k: &usize| self.network.branches[*k].r * self.load(&live, self.ends(*k)).abs();
            path.sort_by(|a, b| rank(b).total_cmp(&rank(a)));
        }
        for k in path {
            let Some(section) = self.section(k).filter(|&i| state[i] == CLOSED) else { continue };
            let mut swapped = state.to_vec();
            (swapped[tie], swapped[section]) = (CLOSED, OPEN);
            let live = self.live_closed(&swapped, &[tie], Slip::ExchangeLiveBesideOpen);
            if !radial(self.network, &live) {
                continue;
            }
            let loss = self.loss_over(&swapped, live);
            if self.slips(Slip::NextSection) && !self.improves(loss, current) {
                continue;
            }
            return Some((swapped, loss));
        }
        None
    }

    fn section(&self, branch: usize) -> Option<usize> {
        let (ties_too, locked_too) = (self.slips(Slip::TiesAsSections), self.slips(Slip::LockedSections));
        let fits =
            |s: &super::Switch| s.branch == branch && (!s.normally_open || ties_too) && (s.can_operate || locked_too);
        match self.slip {
            Some(Slip::LastSection) => self.network.switches.iter().rposition(fits),
            _ => self.network.switches.iter().position(fits),
        }
    }

    fn tabu(&self) -> Found {
        let most = self.network.max_iterations;
        let mut state = self.network.base();
        let (mut best, mut best_loss) = (state.clone(), self.loss(&state));
        let mut barred: VecDeque<u16> = VecDeque::new();
        let mut rounds = 0;
        while rounds < most && !(rounds == 1 && self.slips(Slip::TabuOneRound)) {
            let Some((moved, next, loss)) = self.least_move(&state, best_loss, &barred) else { break };
            rounds += 1;
            state = next;
            if loss < best_loss || self.slips(Slip::TabuAnswersLastState) {
                (best, best_loss) = (state.clone(), loss);
            }
            barred.push_back(self.network.switches[moved].id);
            if barred.len() > 7 {
                barred.pop_front();
            }
        }
        let reported = if self.slips(Slip::TabuReportsRounds) { rounds } else { most };
        Found(best, best_loss, reported, true)
    }

    /// The least loss among the radial results of one toggle each; the earlier on a tie.
    fn least_move(&self, state: &[u8], best_ever: f64, barred: &VecDeque<u16>) -> Option<(usize, Vec<u8>, f64)> {
        let mut least: Option<(usize, Vec<u8>, f64)> = None;
        for (i, switch) in self.network.switches.iter().enumerate() {
            if !switch.can_operate && !self.slips(Slip::TabuLockedSwitches) {
                continue;
            }
            let mut toggled = state.to_vec();
            toggled[i] = if state[i] == OPEN { CLOSED } else { OPEN };
            let live = self.live_closed(&toggled, &[i], Slip::TabuLiveBesideOpen);
            let passed = self.slips(Slip::TabuPassesBesideOpen) && self.beside_open(state, i);
            if !radial(self.network, &live) || (passed && radial(self.network, &self.live(state))) {
                continue;
            }
            let loss = self.loss_over(&toggled, live);
            if barred.contains(&switch.id) && loss >= best_ever && !self.slips(Slip::TabuNothingBarred) {
                continue;
            }
            let wins = match (&least, self.slip) {
                (None, _) => true,
                (Some(_), Some(Slip::TabuFirstRadial)) => false,
                (Some((_, _, least)), Some(Slip::TabuLaterOnTie)) => loss <= *least,
                (Some((_, _, least)), _) => loss < *least,
            };
            if wins {
                least = Some((i, toggled, loss));
            }
        }
        least
    }

    /// Whether another switch on the branch of this one is open.
    fn beside_open(&self, state: &[u8], switch: usize) -> bool {
        let branch = self.network.switches[switch].branch;
        (0..state.len()).any(|i| i != switch && self.network.switches[i].branch == branch && state[i] == OPEN)
    }

    fn exhaustive(&self) -> Found {
        let ties = self.ties();
        let mut masks: Vec<usize> = (0..1 << ties.len()).collect();
        if self.slips(Slip::MasksFall) {
            masks.reverse();
        }
        let base_loss = self.loss(&self.network.base());
        let mut best = self.slips(Slip::BaseFirst).then(|| (self.network.base(), base_loss));
        let mut radial_states = 0;
        for mask in masks {
            let state = self.masked(&ties, mask);
            let live = self.live_closed(&state, &ties, Slip::ExhaustiveLiveBesideOpen);
            if !radial(self.network, &live) {
                radial_states += self.slips(Slip::CountsAllMasks) as u16;
                continue;
            }
            radial_states += 1;
            let loss = self.loss_over(&state, live);
            let wins = match (&best, self.slip) {
                (None, _) => true,
                (Some(_), Some(Slip::ExhaustiveFirstRadial)) => false,
                (Some((_, least)), Some(Slip::ExhaustiveLaterOnTie)) => loss <= *least,
                (Some((_, least)), _) => loss < *least,
            };
            if wins {
                best = Some((state, loss));
            }
        }
        let (best, loss) = best.unwrap_or((self.network.base(), base_loss));
        Found(best, loss, radial_states, true)
    }

    fn ties(&self) -> Vec<usize> {
        let toggles = |&i: &usize| {
            let switch = &self.network.switches[i];
            switch.normally_open && (switch.can_operate || !self.slips(Slip::SkipsLockedTies))
        };
        let mut ties: Vec<usize> = (0..self.network.switches.len()).filter(toggles).collect();
        if self.slips(Slip::MaskBitsFromLastTie) {
            ties.reverse();
        }
        ties
    }

    /// "Mask bit i closes the i-th tie."
    fn masked(&self, ties: &[usize], mask: usize) -> Vec<u8> {
        let mut state = self.network.base();
        for (bit, &tie) in ties.iter().enumerate() {
            if mask >> bit & 1 == 1 {
                state[tie] = CLOSED;
            }
        }
        state
    }
}

/// The 82 lines: "the operation list follows switch order".
pub fn operations(network: &Network, before: &[u8], after: &[u8]) -> String {
    let differing =
        network.switches.iter().zip(before.iter().zip(after)).filter(|(_, (before, after))| before != after);
    differing.map(|(switch, (_, &byte))| format!("82{:04X}{:02X}\n", switch.id, (byte != OPEN) as u8)).collect()
}

fn other_end(ends: (usize, usize), bus: usize) -> Option<usize> {
    match ends {
        (a, b) if a == bus => Some(b),
        (a, b) if b == bus => Some(a),
        _ => None,
    }
}
