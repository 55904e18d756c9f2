//! Seeded feeders of every shape. Each is acceptable, whatever the seed: no branch goes from a bus to itself.

use crate::ends;
use crate::feeder::{Feeder, OPERABLE, TIE};
use crate::random::Random;
use crate::values::Values;
use std::collections::HashMap;

pub struct Shape {
    pub name: &'static str,
    pub make: fn(&mut Random) -> Feeder,
}

pub const SHAPES: [Shape; 15] = [
    Shape { name: "radial base", make: radial_base },
    Shape { name: "looped base", make: looped_base },
    Shape { name: "loop with ties out of service", make: loop_with_dead_ties },
    Shape { name: "base in pieces", make: base_in_pieces },
    Shape { name: "loops and pieces", make: loops_and_pieces },
    Shape { name: "parallels", make: parallels },
    Shape { name: "out of service", make: out_of_service },
    Shape { name: "locked and missing switches", make: locked_and_missing },
    Shape { name: "any branches at all", make: any_branches },
    Shape { name: "up to three buses", make: up_to_three_buses },
    Shape { name: "border of 1e-9", make: border_of_margin },
    Shape { name: "border of 1e-12", make: border_of_reduction },
    Shape { name: "33 buses", make: thirty_three_buses },
    Shape { name: "many rounds", make: many_rounds },
    Shape { name: "up to 64 buses", make: up_to_64_buses },
];

/// What a feeder is made of.
struct Mix {
    buses: usize,
    /// Which earlier bus a bus hangs on: the last, any, one of the last three, one of the first two.
    style: usize,
    /// Connected pieces of the base.
    pieces: usize,
    /// Normally open branches, between any two buses and between pieces.
    ties: usize,
    joins: usize,
    /// Further live branches between any two buses, and beside a listed one.
    loops: usize,
    parallel: usize,
    /// Chances in percent.
    dead: usize,
    dead_ties: usize,
    locked: usize,
    unswitched: usize,
    turned: usize,
}

impl Mix {
    fn plain(random: &mut Random, least: usize, most: usize) -> Self {
        let buses = random.between(least, most);
        Self {
            buses,
            style: random.below(4),
            pieces: 1,
            ties: random.between(1, 4),
            joins: 0,
            loops: 0,
            parallel: 0,
            dead: 0,
            dead_ties: 0,
            locked: 0,
            unswitched: 10,
            turned: random.pick(&[0, 0, 20, 50]),
        }
    }

    fn feeder(&self, random: &mut Random) -> Feeder {
        let values = Values::any(random);
        self.feeder_of(random, values)
    }

    fn feeder_of(&self, random: &mut Random, values: Values) -> Feeder {
        let mut feeder = Feeder { base_mva: values.base(random), ..Feeder::default() };
        let ids = bus_ids(random, self.buses);
        ids.iter().for_each(|&id| feeder.bus(id, values.load(random)));
        let mut ends = self.ends(random, &ids);
        random_order(random, &mut ends);
        for end in &mut ends {
            if random.percent(self.turned) {
                (end.from, end.to) = (end.to, end.from);
            }
            feeder.branch(end.from, end.to, values.resistance(random));
            let dead = random.percent(if end.tie { self.dead_ties } else { self.dead });
            feeder.branches.last_mut().expect("just listed").status = !dead as u8;
        }
        self.add_switches(random, &mut feeder, &ends);
        add_method(random, &mut feeder);
        feeder
    }

    fn ends(&self, random: &mut Random, ids: &[u16]) -> Vec<Ends> {
        let mut ends = self.forest(random, ids);
        for (count, tie) in [(self.ties, true), (self.loops, false), (self.joins, true)] {
            ends.extend((0..count).filter_map(|_| two_buses(random, ids)).map(|(from, to)| Ends { from, to, tie }));
        }
        for _ in 0..if ends.is_empty() { 0 } else { self.parallel } {
            let beside = random.pick(&ends);
            ends.push(Ends { tie: random.percent(60), ..beside });
        }
        ends
    }

    /// A forest over the buses, each branch from the earlier bus to the later.
    fn forest(&self, random: &mut Random, ids: &[u16]) -> Vec<Ends> {
        let mut ends = Vec::new();
        for i in self.pieces.min(ids.len()).max(1)..ids.len() {
            let parent = match self.style {
                0 => i - 1,
                1 => random.below(i),
                2 => i.saturating_sub(random.between(1, 3)),
                _ => random.below(2.min(i)),
            };
            ends.push(Ends { from: ids[parent], to: ids[i], tie: false });
        }
        ends
    }

    fn add_switches(&self, random: &mut Random, feeder: &mut Feeder, ends: &[Ends]) {
        let mut on: Vec<usize> = (0..ends.len()).filter(|&k| ends[k].tie || !random.percent(self.unswitched)).collect();
        random_order(random, &mut on);
        let ids = ids(random, on.len());
        for (&k, &id) in on.iter().zip(&ids) {
            let operable = if random.percent(self.locked) { 0 } else { OPERABLE };
            feeder.switch(id, k, operable | if ends[k].tie { TIE } else { 0 });
        }
    }
}

#[derive(Clone, Copy)]
struct Ends {
    from: u16,
    to: u16,
    tie: bool,
}

/// Any two buses, none where there is one alone. Where one is drawn twice the second is the next of the list.
fn two_buses(random: &mut Random, ids: &[u16]) -> Option<(u16, u16)> {
    let (from, to) = (random.below(ids.len()), random.below(ids.len()));
    let other = if from == to { (to + 1) % ids.len() } else { to };
    (ids.len() > 1).then(|| (ids[from], ids[other]))
}

/// As listed, or in any order.
fn random_order<T>(random: &mut Random, items: &mut [T]) {
    if random.percent(50) {
        random.shuffle(items);
    }
}

/// Distinct ids: rising from 0 or 1, falling from FFFF, or any.
fn ids(random: &mut Random, count: usize) -> Vec<u16> {
    match random.below(4) {
        0 => (0..count as u16).collect(),
        1 => (1..=count as u16).collect(),
        2 => (0..count as u16).map(|i| u16::MAX - i).collect(),
        _ => {
            let start = random.next() as u16;
            let step = random.next() as u16 | 1;
            (0..count as u16).map(|i| start.wrapping_add(i.wrapping_mul(step))).collect()
        }
    }
}

/// The forest's buses may stand anywhere in the list, the first one too.
fn bus_ids(random: &mut Random, count: usize) -> Vec<u16> {
    let mut ids = ids(random, count);
    random_order(random, &mut ids);
    ids
}

fn add_method(random: &mut Random, feeder: &mut Feeder) {
    feeder.method = random.pick(&[0, 0, 1, 2]);
    if feeder.method == 2 && feeder.ties() > 10 {
        feeder.method = 0;
    }
    let short = feeder.method != 1 || feeder.branches.len() < 8;
    feeder.iterations = match random.below(12) {
        0 => 0,
        1 => 1,
        2 => 2,
        3 => 3,
        4 | 5 if short => 1_000,
        6 => random.below(8) as u16,
        _ if feeder.method == 1 => random.pick(&[4, 10, 100]),
        _ => 100,
    };
}

fn radial_base(random: &mut Random) -> Feeder {
    Mix::plain(random, 3, 14).feeder(random)
}

fn looped_base(random: &mut Random) -> Feeder {
    let mix = Mix { loops: random.pick(&[1, 1, 1, 2]), dead: random.pick(&[0, 20]), ..Mix::plain(random, 2, 10) };
    mix.feeder(random)
}

/// From here an exchange with a tie out of service makes the base radial.
fn loop_with_dead_ties(random: &mut Random) -> Feeder {
    let mix = Mix { loops: 1, dead_ties: 80, unswitched: 20, ..Mix::plain(random, 3, 8) };
    let mut feeder = mix.feeder(random);
    (feeder.method, feeder.iterations) = (0, random.pick(&[0, 1, 2, 3, 100, 1_000]));
    feeder
}

fn base_in_pieces(random: &mut Random) -> Feeder {
    let mix = Mix {
        pieces: random.between(2, 4),
        joins: random.between(2, 6),
        ties: random.below(2),
        ..Mix::plain(random, 3, 9)
    };
    mix.feeder(random)
}

fn loops_and_pieces(random: &mut Random) -> Feeder {
    let mix = Mix {
        pieces: random.between(2, 3),
        joins: random.between(1, 4),
        loops: random.between(1, 2),
        ..Mix::plain(random, 3, 9)
    };
    mix.feeder(random)
}

fn parallels(random: &mut Random) -> Feeder {
    let mix = Mix { parallel: random.between(1, 3), pieces: random.pick(&[1, 1, 2]), ..Mix::plain(random, 1, 7) };
    mix.feeder(random)
}

fn out_of_service(random: &mut Random) -> Feeder {
    let mix = Mix {
        dead: random.pick(&[5, 20, 40]),
        dead_ties: random.pick(&[5, 40, 60]),
        loops: random.below(3),
        ..Mix::plain(random, 2, 10)
    };
    mix.feeder(random)
}

fn locked_and_missing(random: &mut Random) -> Feeder {
    let mix = Mix {
        locked: random.pick(&[20, 50, 80]),
        unswitched: random.pick(&[20, 50, 80]),
        pieces: random.pick(&[1, 1, 2]),
        loops: random.pick(&[0, 0, 1]),
        ..Mix::plain(random, 3, 12)
    };
    mix.feeder(random)
}

fn any_branches(random: &mut Random) -> Feeder {
    let buses = random.between(1, 8);
    let mix = Mix {
        pieces: buses,
        ties: random.below(5),
        loops: random.below(9),
        parallel: random.below(2),
        dead: 15,
        dead_ties: 30,
        locked: 25,
        unswitched: 25,
        turned: 50,
        buses,
        joins: 0,
        style: 0,
    };
    mix.feeder(random)
}

fn up_to_three_buses(random: &mut Random) -> Feeder {
    let buses = random.below(4);
    if buses == 0 {
        let mut feeder = Feeder { base_mva: Values::any(random).base(random), ..Feeder::default() };
        add_method(random, &mut feeder);
        return feeder;
    }
    let mix = Mix {
        pieces: random.between(1, buses),
        ties: random.below(3),
        loops: random.below(2),
        dead: 10,
        dead_ties: 10,
        locked: 10,
        ..Mix::plain(random, buses, buses)
    };
    mix.feeder(random)
}

/// A triangle whose base loses `base` and whose one exchange loses `swapped`, both exactly.
fn two_losses(base: f64, swapped: f64) -> Feeder {
    let mut feeder = Feeder { base_mva: 1.0, iterations: 5, ..Feeder::default() };
    [0.0, 0.0, 1.0].into_iter().enumerate().for_each(|(i, pd)| feeder.bus(i as u16 + 1, pd));
    feeder.branch(1, 2, base);
    feeder.branch(2, 3, 0.0);
    feeder.branch(1, 3, swapped);
    feeder.switch(1, 0, OPERABLE);
    feeder.switch(2, 2, OPERABLE | TIE);
    feeder
}

/// A few floats up or down.
fn near(random: &mut Random, value: f64) -> f64 {
    f64::from_bits(value.to_bits() + 2 - random.below(5) as u64)
}

/// The exchange's loss lies at, just above or just below current − 1e-9.
fn border_of_margin(random: &mut Random) -> Feeder {
    let powers = [1.0, 0.5, 3.0, 1e-3, 1e-6, 2e-9, 1.5e-9, 100.0, 999.0];
    let base = random.pick(&powers) * if random.percent(50) { 1.0 } else { 0.5 + random.unit() / 2.0 };
    let border = if base - 1e-9 > 0.0 { near(random, base - 1e-9) } else { 0.0 };
    two_losses(base, border)
}

/// The base's loss lies at, just above or just below 1e-12, and the answer's is another.
fn border_of_reduction(random: &mut Random) -> Feeder {
    let base = near(random, 1e-12);
    let mut feeder = Feeder { base_mva: 1.0, iterations: 3, ..Feeder::default() };
    feeder.bus(1, 0.0);
    feeder.bus(2, 1.0);
    feeder.branch(1, 2, base);
    if random.percent(50) {
        feeder.method = 1;
        feeder.branch(1, 2, 0.0);
        feeder.switch(1, 0, OPERABLE);
    } else {
        feeder.method = 2;
        feeder.bus(3, 1.0);
        feeder.branch(1, 3, random.unit() * 1e-11);
        feeder.switch(1, 1, TIE);
    }
    feeder
}

/// Ohms of the 32 sections and five ties of the 33-bus feeder of Baran and Wu 1989, and kilowatts of its buses from 2 on.
#[rustfmt::skip]
const SECTIONS: [(u16, u16, f64); 32] = [
    (1, 2, 0.0922), (2, 3, 0.493), (3, 4, 0.366), (4, 5, 0.3811), (5, 6, 0.819), (6, 7, 0.1872), (7, 8, 1.7114),
    (8, 9, 1.03), (9, 10, 1.044), (10, 11, 0.1966), (11, 12, 0.3744), (12, 13, 1.468), (13, 14, 0.5416),
    (14, 15, 0.591), (15, 16, 0.7463), (16, 17, 1.289), (17, 18, 0.732), (2, 19, 0.164), (19, 20, 1.5042),
    (20, 21, 0.4095), (21, 22, 0.7089), (3, 23, 0.4512), (23, 24, 0.898), (24, 25, 0.896), (6, 26, 0.203),
    (26, 27, 0.2842), (27, 28, 1.059), (28, 29, 0.8042), (29, 30, 0.5075), (30, 31, 0.9744), (31, 32, 0.3105),
    (32, 33, 0.341),
];
const TIES: [(u16, u16, f64); 5] = [(21, 8, 2.0), (9, 15, 2.0), (12, 22, 2.0), (18, 33, 0.5), (25, 29, 0.5)];
#[rustfmt::skip]
const KILOWATTS: [u16; 32] = [
    100, 90, 120, 60, 60, 200, 200, 60, 60, 45, 60, 60, 120, 60, 60, 60, 90, 90, 90, 90, 90, 90, 420, 420, 60, 60, 60,
    120, 200, 150, 210, 60,
];
/// 12.66 kV and 10 MVA.
const OHMS_PER_UNIT: f64 = 12.66 * 12.66 / 10.0;

/// The 33-bus feeder, with its loads scaled, its ties turned and its list of switches in another order.
fn thirty_three_buses(random: &mut Random) -> Feeder {
    let mut feeder = Feeder { base_mva: 10.0, method: random.pick(&[0, 0, 0, 1, 2]), ..Feeder::default() };
    feeder.iterations = random.pick(&[1, 2, 3, 100, 1_000]);
    feeder.bus(1, 0.0);
    for (i, &kilowatts) in KILOWATTS.iter().enumerate() {
        let other = 0.5 + random.unit();
        let scale = random.pick(&[1.0, 1.0, other]);
        feeder.bus(i as u16 + 2, f64::from(kilowatts) / 1_000.0 * scale);
    }
    for (from, to, ohms) in SECTIONS.into_iter().chain(TIES) {
        let turned = random.percent(5);
        let (from, to) = if turned { (to, from) } else { (from, to) };
        feeder.branch(from, to, ohms / OHMS_PER_UNIT);
    }
    let mut order: Vec<usize> = (0..37).collect();
    random_order(random, &mut order);
    for k in order {
        let locked = random.percent(3);
        feeder.switch(k as u16 + 1, k, if k < 32 { 0 } else { TIE } | if locked { 0 } else { OPERABLE });
    }
    feeder
}

/// Exchanges that go on for several rounds, so that plans have several pairs.
fn many_rounds(random: &mut Random) -> Feeder {
    let mix = Mix { ties: random.between(4, 9), unswitched: 0, ..Mix::plain(random, 8, 20) };
    let mut feeder = mix.feeder_of(random, Values::Plain);
    feeder.method = 0;
    feeder.iterations = random.pick(&[2, 3, 5, 100]);
    feeder
}

fn up_to_64_buses(random: &mut Random) -> Feeder {
    let mix = Mix {
        ties: random.between(2, 8),
        pieces: random.pick(&[1, 1, 1, 2]),
        loops: random.pick(&[0, 0, 1]),
        dead: random.pick(&[0, 0, 5]),
        dead_ties: 5,
        locked: 5,
        ..Mix::plain(random, 20, 64)
    };
    let mut feeder = mix.feeder(random);
    feeder.iterations = feeder.iterations.min(if feeder.method == 1 { 3 } else { 20 });
    feeder
}

/// 256 buses, 512 branches, 512 switches: the largest network of all, with a radial base. Ties beyond the operable ones
/// are locked or, for the exhaustive search, sections of branches out of service.
pub fn full_size(random: &mut Random, method: u8, operable: usize, iterations: u16) -> Feeder {
    let mix = Mix { ties: 257, unswitched: 0, style: random.below(3), ..Mix::plain(random, 256, 256) };
    let mut feeder = mix.feeder_of(random, Values::Plain);
    (feeder.method, feeder.iterations) = (method, iterations);
    limit_ties(&mut feeder, operable);
    feeder
}

/// The same with 384 branches, of which some 256 have two switches each.
pub fn full_size_of_two(random: &mut Random, method: u8, operable: usize, iterations: u16) -> Feeder {
    let mix = Mix { ties: 129, unswitched: 50, style: random.below(3), ..Mix::plain(random, 256, 256) };
    let feeder = mix.feeder_of(random, Values::Plain);
    let mut feeder = ends::all_with_two(random, feeder);
    (feeder.method, feeder.iterations) = (method, iterations);
    limit_ties(&mut feeder, operable);
    feeder
}

fn limit_ties(feeder: &mut Feeder, operable: usize) {
    let mut ties = 0;
    for switch in feeder.switches.iter_mut().filter(|s| s.flags & TIE != 0) {
        ties += 1;
        if ties > operable {
            switch.flags = if feeder.method == 2 { 0 } else { TIE };
            feeder.branches[usize::from(switch.branch)].status = (feeder.method != 2) as u8;
        }
    }
}

/// The largest network with one loop in its base, for tabu: it opens a switch of the loop and from there moves switches of
/// branches out of service.
pub fn full_size_with_loop(random: &mut Random, iterations: u16) -> Feeder {
    let mix = Mix {
        ties: 256,
        loops: 1,
        dead_ties: 5,
        unswitched: 0,
        style: random.below(3),
        ..Mix::plain(random, 256, 256)
    };
    let mut feeder = mix.feeder_of(random, Values::Plain);
    (feeder.method, feeder.iterations) = (1, iterations);
    feeder
}

/// The largest network in five pieces with ten ties between them, for the exhaustive search. The other ties are sections of
/// branches out of service.
pub fn full_size_in_pieces(random: &mut Random) -> Feeder {
    let mix = Mix { pieces: 5, ties: 261, unswitched: 0, style: 1, ..Mix::plain(random, 256, 256) };
    let mut feeder = mix.feeder_of(random, Values::Plain);
    (feeder.method, feeder.iterations) = (2, 0);
    let piece = pieces(&feeder);
    let mut ties = 0;
    for switch in feeder.switches.iter_mut().filter(|s| s.flags & TIE != 0) {
        let branch = &mut feeder.branches[usize::from(switch.branch)];
        if ties < 10 && piece[&branch.from] != piece[&branch.to] {
            ties += 1;
        } else {
            (switch.flags, branch.status) = (OPERABLE, 0);
        }
    }
    feeder
}

/// 256 connected buses with a live branch in the base that is drawn from a bus on which no other live one hangs: its loss walks from the other end and
/// bars that bus alone, so that 255 stand in the walk's queue, the most that a text can bring there. The styles of tree and the methods come in turn.
pub fn full_queue(random: &mut Random, number: usize) -> Feeder {
    let mix = Mix { style: number % 4, ties: random.between(1, 3), turned: 50, ..Mix::plain(random, 256, 256) };
    let values = random.pick(&[Values::Signed, Values::Signed, Values::Plain, Values::Spread]);
    let mut feeder = mix.feeder_of(random, values);
    (feeder.method, feeder.iterations) = ((number % 3) as u8, random.pick(&[0, 1, 2, 3]));
    let live = without_ties(&feeder);
    let ends = |k: usize| (feeder.branches[k].from, feeder.branches[k].to);
    let alone = |bus: u16| live.iter().filter(|&&k| ends(k).0 == bus || ends(k).1 == bus).count() == 1;
    if !live.iter().any(|&k| alone(ends(k).0)) {
        let last = live.iter().copied().find(|&k| alone(ends(k).1)).expect("a tree has such a bus");
        let branch = &mut feeder.branches[last];
        (branch.from, branch.to) = (branch.to, branch.from);
    }
    feeder
}

/// 1 to 256 buses, 256 in one of five, with a base that is mostly no tree: in turn in pieces, with loops, with both. The loops are rings and
/// parallels, and the methods come in turn too. At most ten ties.
pub fn loops_and_islands(random: &mut Random, number: usize) -> Feeder {
    const BUSES: [(usize, usize); 5] = [(1, 4), (5, 16), (17, 64), (65, 255), (256, 256)];
    let (in_pieces, looped) = (number % 3 != 1, number % 3 != 0);
    let (least, most) = BUSES[number / 3 % 5];
    let plain = Mix::plain(random, least, most);
    let pieces = random.pick(&[2, 2, 3, 5, plain.buses / 2, plain.buses]);
    let mix = Mix {
        pieces: if in_pieces { pieces } else { 1 },
        ties: random.below(4),
        joins: random.below(3),
        loops: if looped { random.pick(&[0, 1, 2, 5]) } else { 0 },
        parallel: if looped { random.below(4) } else { 0 },
        dead: random.pick(&[0, 0, 3]),
        dead_ties: 20,
        locked: 20,
        unswitched: random.pick(&[10, 50, 90]),
        turned: 50,
        ..plain
    };
    let mut feeder = mix.feeder(random);
    (feeder.method, feeder.iterations) = ((number / 15 % 3) as u8, random.pick(&[0, 1, 2, 3]));
    feeder
}

/// Positions of the branches without a tie.
fn without_ties(feeder: &Feeder) -> Vec<usize> {
    let tie = |k: usize| feeder.switches.iter().any(|s| usize::from(s.branch) == k && s.flags & TIE != 0);
    (0..feeder.branches.len()).filter(|&k| !tie(k)).collect()
}

/// For each bus the piece of the base that it is in.
fn pieces(feeder: &Feeder) -> HashMap<u16, u16> {
    let mut piece: HashMap<u16, u16> = feeder.buses.iter().map(|bus| (bus.id, bus.id)).collect();
    for branch in without_ties(feeder).into_iter().map(|k| &feeder.branches[k]) {
        let (a, b) = (piece[&branch.from], piece[&branch.to]);
        piece.values_mut().filter(|piece| **piece == a).for_each(|piece| *piece = b);
    }
    piece
}
