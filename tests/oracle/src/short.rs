//! Short inputs exhaustively: byte strings, texts one byte away from the triangle's, feeders with few buses and branches.

use crate::ends::triangle_of_four;
use crate::feeder::{triangle, Feeder, OPERABLE, TIE};
use crate::random::Random;

/// All strings of up to three bytes over a few.
pub fn strings() -> impl Iterator<Item = Vec<u8>> {
    const BYTES: [u8; 9] = [b'0', b'1', b'F', b'G', b'f', b'\n', b'\r', 0, 0xFF];
    let longer = |texts: &Vec<Vec<u8>>| -> Vec<Vec<u8>> {
        texts.iter().flat_map(|text| BYTES.map(|byte| [&text[..], &[byte]].concat())).collect()
    };
    let none = vec![vec![]];
    let one = longer(&none);
    let two = longer(&one);
    let three = longer(&two);
    [none, one, two, three].into_iter().flatten()
}

/// Every text that is the triangle's cut short, with one byte other, removed or put in; the same with the switch lines of that with two
/// switches on two of its branches.
pub fn one_byte_away() -> impl Iterator<Item = Vec<u8>> {
    let of_four = triangle_of_four();
    let before = of_four.lines()[..7].iter().map(|line| line.len() + 1).sum();
    changed(triangle().text(), 0).chain(changed(of_four.text(), before))
}

/// A text with what stands from a place on cut short or changed.
fn changed(text: Vec<u8>, from: usize) -> impl Iterator<Item = Vec<u8>> {
    const BYTES: [u8; 10] = [b'0', b'1', b'2', b'3', b'4', b'F', b'G', b'a', b'\n', b'\r'];
    let ends = text.clone();
    let prefixes = (from..text.len()).map(move |length| ends[..length].to_vec());
    let changed = (from..text.len()).flat_map(move |at| {
        let (before, after) = (text[..at].to_vec(), text[at + 1..].to_vec());
        let old = text[at];
        let mut changes = vec![[&before[..], &after].concat()];
        for byte in BYTES {
            changes.push([&before[..], &[byte], &after].concat());
            changes.push([&before[..], &[byte, old], &after].concat());
        }
        changes
    });
    prefixes.chain(changed)
}

/// Switches that a branch may have: none, or one with these flags; or two, with each flags.
const ON_BRANCH: [&[u8]; 21] = [
    &[],
    &[0],
    &[TIE],
    &[OPERABLE],
    &[BOTH],
    &[0, 0],
    &[0, TIE],
    &[0, OPERABLE],
    &[0, BOTH],
    &[TIE, 0],
    &[TIE, TIE],
    &[TIE, OPERABLE],
    &[TIE, BOTH],
    &[OPERABLE, 0],
    &[OPERABLE, TIE],
    &[OPERABLE, OPERABLE],
    &[OPERABLE, BOTH],
    &[BOTH, 0],
    &[BOTH, TIE],
    &[BOTH, OPERABLE],
    &[BOTH, BOTH],
];
const BOTH: u8 = TIE | OPERABLE;
const SEARCHES: [(u8, u16); 8] = [(0, 0), (0, 1), (0, 2), (0, 100), (1, 0), (1, 1), (1, 20), (2, 100)];

/// The first so many of the switches above: with one at most on a branch, or with two too.
pub const AT_MOST_ONE: usize = 5;
pub const AT_MOST_TWO: usize = ON_BRANCH.len();

/// How many feeders `numbered` tells apart: `branches` branches between any ends, in or out of service, each with any of so many switches.
pub fn how_many(buses: usize, branches: usize, switches: usize) -> usize {
    SEARCHES.len() * (buses * buses * 2 * switches).pow(branches as u32)
}

/// Feeder `number` of `buses` buses and `branches` branches; an odd number lists the switches from the last branch on. The second switches of branches
/// stand behind all first ones.
pub fn numbered(buses: usize, branches: usize, switches: usize, number: usize) -> Feeder {
    let mut rest = number;
    let mut next = |bound: usize| {
        let digit = rest % bound;
        rest /= bound;
        digit
    };
    let (method, iterations) = SEARCHES[next(SEARCHES.len())];
    let mut feeder = Feeder { base_mva: 1.0, method, iterations, ..Feeder::default() };
    (0..buses).for_each(|i| feeder.bus(i as u16, [0.5, 1.0, 2.0][i]));
    let mut seconds = Vec::new();
    for k in 0..branches {
        feeder.branch(next(buses) as u16, next(buses) as u16, [0.25, 0.4375, 0.1875][k]);
        feeder.branches[k].status = next(2) as u8;
        let on = ON_BRANCH[next(switches)];
        on.iter().take(1).for_each(|&flags| feeder.switch(10 + k as u16, k, flags));
        seconds.extend(on.iter().skip(1).map(|&flags| (20 - k as u16, k, flags)));
    }
    seconds.into_iter().for_each(|(id, k, flags)| feeder.switch(id, k, flags));
    if number % 2 == 1 {
        feeder.switches.reverse();
    }
    feeder
}

/// A drawn one of these feeders; one with a branch from a bus to itself is drawn again.
pub fn drawn(random: &mut Random, buses: usize, branches: usize, switches: usize) -> Feeder {
    let mut draw = || numbered(buses, branches, switches, random.below(how_many(buses, branches, switches)));
    let mut feeder = draw();
    while feeder.has_own_loop() {
        feeder = draw();
    }
    feeder
}

/// Every feeder of at most two buses and two branches with one switch at most on each, in the list above.
pub fn two_buses() -> impl Iterator<Item = Feeder> {
    let sizes = [(0, 0), (1, 0), (1, 1), (1, 2), (2, 0), (2, 1), (2, 2)];
    sizes.into_iter().flat_map(|(buses, branches)| {
        let count = how_many(buses, branches, AT_MOST_ONE);
        (0..count).map(move |number| numbered(buses, branches, AT_MOST_ONE, number))
    })
}

/// Every feeder of one branch that has two switches, and of those of two branches, with two switches on one at least, one in so many.
pub fn two_switches(step: usize) -> impl Iterator<Item = Feeder> {
    let sizes = [(1, 1, 1), (2, 1, 1), (1, 2, 61), (2, 2, step)];
    sizes.into_iter().flat_map(|(buses, branches, step)| {
        let numbers = (0..how_many(buses, branches, AT_MOST_TWO)).step_by(step);
        let feeders = numbers.map(move |number| numbered(buses, branches, AT_MOST_TWO, number));
        feeders.filter(move |feeder| has_two(feeder))
    })
}

fn has_two(feeder: &Feeder) -> bool {
    feeder.switches.iter().any(|one| feeder.switches.iter().filter(|s| s.branch == one.branch).count() > 1)
}

/// The triangle with every load out of −1, 0, 1 and every resistance out of 0, 1/2, 1, each method; two of three with a second switch
/// on each of the branches that have one, a section or, on the tie's, a tie.
pub fn triangle_values() -> impl Iterator<Item = Feeder> {
    (0..3usize.pow(7)).map(|number| {
        let digit = |place: u32| number / 3usize.pow(place) % 3;
        let mut feeder = Feeder { method: digit(6) as u8, iterations: 3, ..triangle() };
        for i in 0..3 {
            feeder.buses[i].pd = digit(i as u32) as f64 - 1.0;
            feeder.branches[i].r = digit(i as u32 + 3) as f64 / 2.0;
        }
        if number % 3 != number / 3 % 3 {
            feeder.switch(9, 2, if number % 5 == 0 { BOTH } else { OPERABLE });
            feeder.switches.rotate_right(number % 2);
            feeder.switch(8, 1, if number % 7 == 0 { 0 } else { OPERABLE });
            feeder.switches.rotate_right(number / 2 % 2);
        }
        feeder
    })
}
