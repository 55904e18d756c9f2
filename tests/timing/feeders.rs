//! The feeders that are timed: document 01's triangle, one of 33 buses, chains up to the largest feeder there may be, and one with two switches on a branch. Each has two
//! radial states, but for the one with every branch live; the first has the live branches of the base.

use crate::feeder::{triangle, Feeder, OPERABLE, TIE};

pub struct Timed {
    pub name: &'static str,
    pub feeder: Feeder,
    pub first: Vec<u8>,
    pub second: Vec<u8>,
}

pub fn all() -> Vec<Timed> {
    vec![small(), middle(), chains("64 buses", 64), chains("128 buses", 128), full(), colliding(), doubled()]
}

/// The largest feeder with every branch live: the most that labels are merged and branches looked at. The Rust, which tells neither branch nor islands, stops at
/// the number of branches. The two states are the same: there is no other.
pub fn all_live() -> Timed {
    let full = full();
    let closed = vec![0; full.first.len()];
    Timed { name: "256 buses, 512 live branches", first: closed.clone(), second: closed, ..full }
}

/// Stored texts that are repaired: one from which nothing is dropped, and one in which every second tie, a branch with its switch, goes from a bus to itself.
pub fn stored() -> Vec<(&'static str, Timed)> {
    let mut looped = full();
    let ties: Vec<u16> = looped.feeder.switches.iter().filter(|switch| switch.flags & TIE != 0).map(|switch| switch.branch).collect();
    for &branch in ties.iter().step_by(2) {
        let branch = &mut looped.feeder.branches[usize::from(branch)];
        branch.to = branch.from;
    }
    vec![("repairing a text", full()), ("repairing a text, 129 own loops", looped)]
}

/// Those whose plans are cut off.
pub fn cut() -> Vec<Timed> {
    vec![small(), middle(), full(), doubled()]
}

/// Where a supply is named, and how many times as long as the same call without it a loss call may then take: the base's radiality is tested, and one walk more
/// is made.
pub fn supplied() -> Vec<(&'static str, Timed, f64)> {
    let at = |mut timed: Timed, position: usize| {
        timed.feeder.supply = Some(timed.feeder.buses[position].id);
        timed
    };
    vec![
        ("supply at the first bus", at(middle(), 0), 2.0),
        ("supply in the middle", at(middle(), 16), 2.0),
        ("supply at the first bus", at(full(), 0), 1.15),
        ("supply in the middle", at(full(), 128), 1.15),
    ]
}

/// The same feeders for each search. The largest ones are searched for a round or two, since the Rust takes a second for each: by the exchange, which takes a loss for each
/// tie, and by tabu where switches lie beside open ones, for each of which it takes a loss. The exhaustive search wants at most ten ties.
pub fn searched() -> Vec<(&'static str, Timed)> {
    let with = |mut timed: Timed, method: u8, iterations: u16| {
        timed.feeder.method = method;
        timed.feeder.iterations = iterations;
        timed
    };
    vec![
        ("exchange", with(small(), 0, 100)),
        ("exchange", with(middle(), 0, 100)),
        ("exchange, 1 round", with(full(), 0, 1)),
        ("exchange, 2 rounds", with(doubled(), 0, 2)),
        ("tabu, 100 rounds", with(small(), 1, 100)),
        ("tabu, 100 rounds", with(middle(), 1, 100)),
        ("tabu, 100 rounds", with(full(), 1, 100)),
        ("tabu, 2 rounds", with(doubled(), 1, 2)),
        ("exhaustive, 1 tie", with(small(), 2, 100)),
        ("exhaustive, 5 ties", with(middle(), 2, 100)),
        ("exhaustive, 10 ties", with(with_ten_ties(full()), 2, 100)),
        ("exhaustive, 10 ties", with(with_ten_ties(doubled()), 2, 100)),
    ]
}

/// Searches that the Rust takes minutes for: the exchange until a round finds nothing, and tabu rounds with every tie out of service, or with a switch beside every tie.
pub fn long() -> Vec<(&'static str, Timed)> {
    let mut exchange = full();
    exchange.feeder.iterations = 1000;
    let mut tabu = full();
    tabu.feeder.method = 1;
    tabu.feeder.iterations = 1000;
    for i in (0..tabu.first.len()).filter(|&i| tabu.first[i] == 1) {
        let branch = tabu.feeder.switches[i].branch;
        tabu.feeder.branches[usize::from(branch)].status = 0;
    }
    let mut beside = doubled();
    beside.feeder.method = 1;
    beside.feeder.iterations = 1000;
    vec![
        ("exchange, to its end, 257 ties", exchange),
        ("exchange, 256 rounds, 257 ties: the longest", many_rounds()),
        ("tabu, 1,000 rounds, 257 ties out of service", tabu),
        ("tabu, 1,000 rounds, 128 ties", beside),
    ]
}

/// The longest exchange. Beside each of 255 sections lies a tie that loses less, so that each round but the last one improves, by the last open tie of the list; no round improves
/// without opening a section. It is a chain whose branches lead to its middle, so that each walk of a loss goes over the longer side. Two ties more lie beside the
/// section that is opened last.
fn many_rounds() -> Timed {
    let chain: Vec<(u16, u16)> = (1..256).map(|bus| if bus < 128 { (bus, bus + 1) } else { (bus + 1, bus) }).collect();
    let sections = chain.len();
    let ends = [&chain[..], &chain, &[chain[0], chain[0]]].concat();
    let mut feeder = feeder_of(256, &ends, sections, 100.0);
    feeder.iterations = 1000;
    for branch in sections..2 * sections {
        feeder.branches[branch].r = feeder.branches[branch - sections].r / 2.0;
    }
    let first = state(&feeder, |branch| branch < sections);
    let second = state(&feeder, |branch| sections <= branch && branch < 2 * sections);
    Timed { name: "256 buses", feeder, first, second }
}

/// From the eleventh tie on, branches are out of service and their switches closed.
fn with_ten_ties(mut timed: Timed) -> Timed {
    let ties: Vec<usize> = (0..timed.feeder.switches.len()).filter(|&i| timed.feeder.switches[i].flags & TIE != 0).collect();
    for &i in &ties[10..] {
        let switch = &mut timed.feeder.switches[i];
        switch.flags &= !TIE;
        timed.feeder.branches[usize::from(switch.branch)].status = 0;
        timed.first[i] = 0;
    }
    timed
}

fn small() -> Timed {
    Timed { name: "3 buses", feeder: triangle(), first: vec![0, 1], second: vec![1, 0] }
}

/// A trunk of 18 buses, laterals at buses 2, 3 and 6, and five ties: 37 branches, each with a switch.
fn middle() -> Timed {
    let mut ends: Vec<(u16, u16)> = (1..18).map(|bus| (bus, bus + 1)).collect();
    for (at, first, last) in [(2, 19, 22), (3, 23, 25), (6, 26, 33)] {
        ends.push((at, first));
        ends.extend((first..last).map(|bus| (bus, bus + 1)));
    }
    let sections = ends.len();
    ends.extend([(21, 8), (9, 15), (22, 12), (18, 33), (25, 29)]);
    let feeder = feeder_of(33, &ends, sections, 10.0);
    // Each closed tie is matched by an open branch of its loop.
    let opened: Vec<usize> = [(7, 8), (9, 10), (14, 15), (32, 33), (28, 29)]
        .iter()
        .map(|&pair| ends.iter().position(|&e| e == pair).expect("a listed branch"))
        .collect();
    let first = state(&feeder, |branch| branch < sections);
    let second = state(&feeder, |branch| !opened.contains(&branch));
    Timed { name: "33 buses", feeder, first, second }
}

/// Two chains through all buses without a common branch: from one to the other every live branch changes.
fn chains(name: &'static str, buses: u16) -> Timed {
    chains_and(name, buses, &[])
}

/// The largest feeder: two chains and two ties more.
fn full() -> Timed {
    chains_and("256 buses", 256, &[(1, 200), (50, 250)])
}

fn chains_and(name: &'static str, buses: u16, more: &[(u16, u16)]) -> Timed {
    let stride = |i: u16| i * (buses / 2 - 1) % buses + 1;
    let mut ends: Vec<(u16, u16)> = (1..buses).map(|bus| (bus, bus + 1)).collect();
    let sections = ends.len();
    ends.extend((0..buses - 1).map(|i| (stride(i), stride(i + 1))));
    let chains = ends.len();
    ends.extend(more);
    let feeder = feeder_of(buses, &ends, sections, 100.0);
    let first = state(&feeder, |branch| branch < sections);
    let second = state(&feeder, |branch| sections <= branch && branch < chains);
    Timed { name, feeder, first, second }
}

/// Two switches on each of 256 branches, the most there may be. 127 branches without a switch join the buses to 129 pieces; 128 sections make one chain of these, 128 ties another, so that
/// from one to the other all 512 switches move. Beside each tie, far behind it in the list, is a section: in the base it is closed, in the two states both are open.
fn doubled() -> Timed {
    let piece = |p: u16| if p < 127 { (2 * p + 1, 2 * p + 2) } else { (p + 128, p + 128) };
    let stride = |i: u16| piece(i * 64 % 129);
    let mut ends: Vec<(u16, u16)> = (0..127).map(piece).collect();
    let fixed = ends.len();
    ends.extend((0..128).map(|p| (piece(p).1, piece(p + 1).0)));
    let sections = ends.len();
    ends.extend((0..128).map(|i| (stride(i).1, stride(i + 1).0)));
    let mut feeder = unswitched(256, &ends, 100.0);
    for branch in fixed..ends.len() {
        feeder.switch(1000 + branch as u16, branch, OPERABLE | tie_from(sections, branch));
    }
    for branch in fixed..ends.len() {
        feeder.switch(2000 + branch as u16, branch, OPERABLE);
    }
    let first = state(&feeder, |branch| branch < sections);
    let second = state(&feeder, |branch| branch < fixed || sections <= branch);
    Timed { name: "256 buses, two switches on 256 branches", feeder, first, second }
}

/// The largest feeder with ids that all share a bucket of the code's rows (crates/ids), the switches two buckets: the worst that ids can be.
fn colliding() -> Timed {
    let bucket = |id: u32| id * 40503 % 65536 / 256;
    let ids: Vec<u16> = (0..=0xFFFF).filter(|&id| bucket(id) < 2).map(|id| id as u16).collect();
    let in_one: Vec<u16> = ids.iter().copied().filter(|&id| bucket(id.into()) == 0).collect();
    let mut timed = Timed { name: "256 buses, colliding ids", ..full() };
    let renamed = |id: u16| in_one[usize::from(id - 1)];
    timed.feeder.buses.iter_mut().for_each(|bus| bus.id = renamed(bus.id));
    for branch in &mut timed.feeder.branches {
        (branch.from, branch.to) = (renamed(branch.from), renamed(branch.to));
    }
    timed.feeder.switches.iter_mut().zip(&ids).for_each(|(switch, &id)| switch.id = id);
    timed
}

/// A switch on each branch, the ties normally open.
fn feeder_of(buses: u16, ends: &[(u16, u16)], sections: usize, base_mva: f64) -> Feeder {
    let mut feeder = unswitched(buses, ends, base_mva);
    for branch in 0..ends.len() {
        feeder.switch(1000 + branch as u16, branch, OPERABLE | tie_from(sections, branch));
    }
    feeder
}

/// Ties lie behind so many branches.
fn tie_from(sections: usize, branch: usize) -> u8 {
    if branch < sections {
        0
    } else {
        TIE
    }
}

/// Buses and branches, with loads and resistances that are no round numbers.
fn unswitched(buses: u16, ends: &[(u16, u16)], base_mva: f64) -> Feeder {
    let mut feeder = Feeder { base_mva, method: 0, iterations: 100, ..Feeder::default() };
    for bus in 1..=buses {
        feeder.bus(bus, if bus == 1 { 0.0 } else { 0.05 + f64::from(bus * 37 % 101) / 300.0 });
    }
    for (branch, &(from, to)) in ends.iter().enumerate() {
        feeder.branch(from, to, 0.001 + (branch * 53 % 97) as f64 / 7000.0);
    }
    feeder
}

/// The state in which exactly these branches are live.
fn state(feeder: &Feeder, live: impl Fn(usize) -> bool) -> Vec<u8> {
    feeder.switches.iter().map(|s| !live(s.branch.into()) as u8).collect()
}
