//! Branches from a bus to itself, for any feeder, and texts with them: fixed, drawn, with further faults. `feeder` refuses them, `repair` drops them.

use crate::feeder::{joined, triangle, BranchLine, Feeder, SwitchLine, OPERABLE, TIE};
use crate::random::Random;
use crate::shapes::{self, SHAPES};
use crate::{damage, ends, forms, limits};

const MOST: usize = 512;
const MOST_TIES: usize = 10;

/// A branch from bus `bus` to itself at that position: the switches on later ones move with them.
pub fn put_in(feeder: &mut Feeder, at: usize, bus: u16, status: u8) {
    feeder.branches.insert(at, BranchLine { from: bus, to: bus, r: 0.25, status });
    feeder.switches.iter_mut().filter(|s| usize::from(s.branch) >= at).for_each(|s| s.branch += 1);
}

/// The feeder with none, the first, the last, neighbours, some anywhere, or all of its branches from a bus to itself.
pub fn with_own_loops(random: &mut Random, mut feeder: Feeder) -> Feeder {
    let count = feeder.branches.len();
    let places = match random.below(9) {
        _ if feeder.buses.is_empty() => vec![],
        0 => vec![],
        1 => {
            feeder.branches.iter_mut().for_each(|branch| branch.to = branch.from);
            vec![count]
        }
        2 => vec![0],
        3 => vec![count],
        4 => vec![random.below(count + 1); random.between(2, 4)],
        _ => (0..random.between(1, 4)).map(|_| random.below(count + 1)).collect(),
    };
    let statuses = random.pick(&[[1, 1], [1, 0], [0, 0]]);
    for at in places.into_iter().filter(|_| count + 4 < MOST) {
        let bus = feeder.buses[random.below(feeder.buses.len())].id;
        put_in(&mut feeder, at, bus, random.pick(&statuses));
        for _ in 0..random.below(3) {
            put_switch(random, &mut feeder, at);
        }
    }
    feeder
}

/// A switch more on a branch, anywhere in the list: tie or section, locked or not. Mostly no tie more than the exhaustive search takes.
fn put_switch(random: &mut Random, feeder: &mut Feeder, branch: usize) {
    if feeder.switches.len() == MOST {
        return;
    }
    let mut id = random.below(100) as u16;
    while feeder.switches.iter().any(|s| s.id == id) {
        id = random.next() as u16;
    }
    let full = feeder.method == 2 && feeder.ties() >= MOST_TIES && !random.percent(5);
    let flags = random.pick(&[0, TIE, OPERABLE, OPERABLE | TIE]) & if full { OPERABLE } else { OPERABLE | TIE };
    feeder.switches.insert(random.below(feeder.switches.len() + 1), SwitchLine { id, branch: branch as u16, flags });
}

/// A feeder with own loops, half of the time with the 05 line, which mostly names a bus. A radial base is as likely as all others.
fn drawn_feeder(random: &mut Random) -> Feeder {
    let shape = if random.percent(50) { &SHAPES[0] } else { &SHAPES[random.below(SHAPES.len())] };
    let feeder = (shape.make)(random);
    let feeder = ends::mostly_two(random, feeder);
    let mut feeder = with_own_loops(random, feeder);
    let any = random.next() as u16;
    let named = if feeder.buses.is_empty() || random.percent(8) {
        any
    } else {
        feeder.buses[random.below(feeder.buses.len())].id
    };
    feeder.supply = random.percent(50).then_some(named);
    feeder
}

/// One text in four has a further fault.
pub fn drawn(random: &mut Random) -> Vec<u8> {
    let mut feeder = drawn_feeder(random);
    let behind = if random.percent(6) { random.pick(&limits::SURPLUS) } else { b"" };
    if random.percent(25) {
        random.pick(&FAULTS)(&mut feeder);
    }
    [&feeder.text(), behind].concat()
}

/// A copy of such a text with one to three damages.
pub fn damaged(random: &mut Random) -> Vec<u8> {
    let mut lines = damage::lines(drawn_feeder(random).text());
    damage::damage(random, &mut lines);
    lines.concat()
}

/// Any bytes at all; digits and line feeds; lines of the right form with any digits behind a head that may fit.
pub fn any_bytes(random: &mut Random) -> Vec<u8> {
    let length = random.pick(&[0, 1, 5, 40, 200, 1_000]) + random.below(40);
    match random.below(4) {
        0 => (0..length).map(|_| random.next() as u8).collect(),
        1 => (0..length).map(|_| random.pick(b"0123456789ABCDEF\n")).collect(),
        2 => (0..length).map(|_| random.pick(b"0123\n")).collect(),
        _ => any_lines(random),
    }
}

fn any_lines(random: &mut Random) -> Vec<u8> {
    let counts = [random.below(4), random.below(5), random.below(4)];
    let mut text =
        format!("01{:04X}{:04X}{:04X}3FF0000000000000{:02X}0064\n", counts[0], counts[1], counts[2], random.below(3));
    let mut field = |bound: usize| format!("{:04X}", random.below(bound));
    (0..counts[0]).for_each(|_| text += &format!("02{}3FF0000000000000\n", field(5)));
    (0..counts[1]).for_each(|_| text += &format!("03{}{}3FD00000000000000{}\n", field(4), field(4), &field(2)[3..]));
    (0..counts[2]).for_each(|_| text += &format!("04{}{}{}\n", field(9), field(counts[1].max(1)), &field(4)[2..]));
    if random.percent(40) {
        text += &format!("05{:04X}\n", random.below(4));
    }
    text.into_bytes()
}

/// Faults beside own loops: each does nothing where the feeder has none.
const FAULTS: [fn(&mut Feeder); 9] = [
    |feeder| own(feeder).into_iter().for_each(|k| (feeder.branches[k].from, feeder.branches[k].to) = (0xABCD, 0xABCD)),
    |feeder| own(feeder).into_iter().for_each(|k| feeder.branches[k].r = -1.0),
    |feeder| own(feeder).into_iter().for_each(|k| feeder.branches[k].status = 2),
    id_twice,
    |feeder| own(feeder).first().copied().into_iter().for_each(|k| switches_on(feeder, k, 3, 0)),
    |feeder| {
        feeder.method = 2;
        own(feeder).into_iter().for_each(|k| switches_on(feeder, k, 2, TIE));
        let last = feeder.branches.len().saturating_sub(1);
        (0..5).for_each(|back| switches_on(feeder, last.saturating_sub(back), 2, TIE));
    },
    |feeder| feeder.switches.iter_mut().last().into_iter().for_each(|s| s.flags = 4),
    |feeder| feeder.switches.iter_mut().last().into_iter().for_each(|s| s.branch = 512),
    |feeder| feeder.branches.iter_mut().last().into_iter().for_each(|branch| branch.to = 0xABCD),
];

fn own(feeder: &Feeder) -> Vec<usize> {
    (0..feeder.branches.len()).filter(|&k| feeder.branches[k].from == feeder.branches[k].to).collect()
}

/// An id twice, of which one is on an own loop.
fn id_twice(feeder: &mut Feeder) {
    let own = own(feeder);
    let dropped = feeder.switches.iter().position(|s| own.contains(&s.branch.into()));
    let kept = feeder.switches.iter().position(|s| !own.contains(&s.branch.into()));
    if let Some((dropped, kept)) = dropped.zip(kept) {
        feeder.switches[dropped].id = feeder.switches[kept].id;
    }
}

/// That many switches on a branch, with the ids 900 and up, behind the list.
fn switches_on(feeder: &mut Feeder, branch: usize, count: u16, flags: u8) {
    let first = 900 + feeder.switches.len() as u16;
    if branch < feeder.branches.len() {
        (first..first + count).for_each(|id| feeder.switch(id, branch, flags));
    }
}

/// The triangle of the change request: an own loop of bus 2 at line 6, its switch 12 at line 10.
pub fn triangle_with_own_loop() -> Feeder {
    let mut feeder = triangle();
    put_in(&mut feeder, 1, 2, 1);
    feeder.switches.insert(1, SwitchLine { id: 12, branch: 1, flags: OPERABLE });
    feeder
}

/// Without the 05 line, and with it at a listed bus and at another.
fn with_supplies(feeders: impl IntoIterator<Item = Feeder>) -> Vec<Vec<u8>> {
    let with = |feeder: Feeder| [None, Some(1), Some(9)].map(|supply| Feeder { supply, ..feeder.clone() }.text());
    feeders.into_iter().flat_map(with).collect()
}

pub fn fixed() -> Vec<Vec<u8>> {
    let mut texts = with_supplies(in_each_place());
    texts.extend(with_supplies(in_two_places()));
    texts.extend(with_supplies(bases()));
    texts.extend(with_supplies(nothing_left()));
    texts.extend(with_supplies(about_eleven_ties()));
    texts.extend(several_faults());
    texts.extend(with_line_behind());
    texts.extend(largest());
    texts
}

/// The triangle with an own loop in each place of its list, in service or not, with none, one and two switches of all flags.
fn in_each_place() -> Vec<Feeder> {
    const ON: [&[u8]; 8] = [&[], &[0], &[1], &[2], &[3], &[2, 2], &[1, 3], &[0, 1]];
    let mut feeders = Vec::new();
    for number in 0..4 * 2 * ON.len() {
        let (at, status, on) = (number % 4, number / 4 % 2, ON[number / 8]);
        let mut feeder = triangle();
        put_in(&mut feeder, at, 3, status as u8);
        on.iter().zip([12, 9]).for_each(|(&flags, id)| feeder.switch(id, at, flags));
        feeder.switches.rotate_right(number % 3);
        feeders.push(feeder);
    }
    feeders
}

/// Two own loops, neighbours among them, the first with two switches, the second with one; one parallel of each branch beside them.
fn in_two_places() -> Vec<Feeder> {
    let mut feeders = Vec::new();
    for (one, other) in (0..4).flat_map(|one| (0..5).map(move |other| (one, other))) {
        let mut feeder = triangle();
        put_in(&mut feeder, one, 1, 1);
        (feeder.switch(20, one, OPERABLE), feeder.switch(21, one, OPERABLE | TIE));
        put_in(&mut feeder, other, 2, 1);
        feeder.switch(22, other, 0);
        feeder.switches.rotate_left(one);
        let mut parallels = feeder.clone();
        let beside = parallels.branches[(one + other) % 5];
        parallels.branches.push(BranchLine { status: 0, from: beside.to, to: beside.from, ..beside });
        feeders.extend([feeder, parallels]);
    }
    feeders
}

/// Every base of the triangle that statuses and flags give, with an own loop that is live: 15 goes with it, or stays.
fn bases() -> Vec<Feeder> {
    let mut feeders = Vec::new();
    for number in 0..8 * 4 {
        let mut feeder = triangle_with_own_loop();
        [0, 2, 3].into_iter().enumerate().for_each(|(bit, k)| feeder.branches[k].status = (number >> bit & 1) as u8);
        [0, 2]
            .into_iter()
            .enumerate()
            .for_each(|(bit, i)| feeder.switches[i].flags = 2 | (number >> (3 + bit) & 1) as u8);
        feeders.push(feeder);
    }
    feeders
}

/// One bus and three, and nothing but own loops, with each method.
fn nothing_left() -> Vec<Feeder> {
    let mut feeders = Vec::new();
    for (method, buses, loops) in (0..3).flat_map(|m| [(m, 1, 1), (m, 1, 2), (m, 2, 1), (m, 3, 3), (m, 1, 6)]) {
        let ends: Vec<(u16, u16)> = (0..loops).map(|k| (k % buses + 1, k % buses + 1)).collect();
        let bare = Feeder { method, ..forms::joined(buses, &ends) };
        let mut switched = bare.clone();
        (0..loops).for_each(|k| switches_on(&mut switched, k.into(), 1 + k % 2, (k % 4) as u8));
        feeders.extend([bare, switched]);
    }
    feeders
}

/// Exhaustive, two buses: nine to eleven ties two by two on parallels and one or two on an own loop, before them, behind or among them; each method.
fn about_eleven_ties() -> Vec<Feeder> {
    let mut feeders = Vec::new();
    for number in 0..3 * 3 * 2 * 3 {
        let (ties, place, own, method) = (8 + number % 3, number / 3 % 3, 1 + number / 9 % 2, (number / 18) as u8);
        let mut feeder = Feeder { method, ..forms::joined(2, &[(1, 2); 7]) };
        (0..ties).for_each(|i| feeder.switch(i as u16, i / 2, OPERABLE | TIE));
        put_in(&mut feeder, place, 2, 1);
        for id in 0..own {
            let at = [0, ties / 2, feeder.switches.len()][place];
            feeder.switches.insert(at, SwitchLine { id: 40 + id as u16, branch: place as u16, flags: TIE });
        }
        feeders.push(feeder);
    }
    feeders
}

/// Each fault beside an own loop, in each place, alone and before a later line that is no line; with the 05 line too.
fn several_faults() -> Vec<Vec<u8>> {
    let mut texts = Vec::new();
    for fault in FAULTS {
        for (at, supply) in (0..4).flat_map(|at| [None, Some(1)].map(|supply| (at, supply))) {
            let mut feeder = Feeder { supply, ..triangle() };
            put_in(&mut feeder, at, 2, (at % 2) as u8);
            feeder.switch(12, at, OPERABLE | TIE);
            fault(&mut feeder);
            let mut lines = feeder.lines();
            texts.push(joined(&lines));
            lines.last_mut().expect("a head").replace_range(..2, "0G");
            texts.push(joined(&lines));
        }
    }
    texts
}

/// Lines behind the 05 line, where the dropping cures the base of 15 and where not; behind a text without it.
fn with_line_behind() -> Vec<Vec<u8>> {
    let mut looped = triangle_with_own_loop();
    looped.switches[2].flags = OPERABLE;
    let texts = with_supplies([triangle_with_own_loop(), looped]);
    texts.iter().flat_map(|text| limits::SURPLUS.map(|more| [&text[..], more].concat())).collect()
}

/// 256 buses, 512 branches, 512 switches: no own loop, the first, the last, one in three, all; lines too many behind; the longest text of all.
fn largest() -> Vec<Vec<u8>> {
    let random = &mut Random::new(1, "the largest repairs", 0);
    let full = shapes::full_size(random, 0, 10, 1);
    let of_two = shapes::full_size_of_two(random, 1, 10, 1);
    let mut texts = Vec::new();
    for feeder in [full, of_two] {
        let first = feeder.buses[0].id;
        for (step, from, to) in [(1, 0, 0), (1, 0, 1), (1, 383, 384), (3, 0, 512), (2, 1, 512), (1, 0, 512)] {
            let mut changed = feeder.clone();
            let some = changed.branches.iter_mut().take(to).skip(from).step_by(step);
            some.for_each(|branch| branch.to = branch.from);
            let with_line = Feeder { supply: Some(first), ..changed.clone() }.text();
            let behind = [&with_line[..], &[b'0'; 40]].concat();
            texts.extend([changed.text(), with_line, behind]);
        }
    }
    texts
}
