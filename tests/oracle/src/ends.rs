//! A switch at each end: second switches for the branches of a feeder that has one at most on each, and fixed feeders with two on a branch.

use crate::feeder::{triangle, Feeder, SwitchLine, OPERABLE, TIE};
use crate::random::Random;

/// Of texts and questions with drawn feeders, so many in a hundred get second switches.
pub const SHARE: usize = 70;
/// The most switches, and ties for the exhaustive search.
const MOST: usize = 512;
const MOST_TIES: usize = 10;

/// The feeder, mostly with second switches.
pub fn mostly_two(random: &mut Random, feeder: Feeder) -> Feeder {
    if random.percent(SHARE) {
        with_two(random, feeder)
    } else {
        feeder
    }
}

/// The feeder with second switches on some or all of its branches that have one, and two on some that have none: two ties, tie and section, two
/// sections, locked or not, listed side by side or far apart. The base's live branches stay: where a branch in service is live, both are sections.
fn with_two(random: &mut Random, feeder: Feeder) -> Feeder {
    let chances = [random.pick(&[30, 60, 100]), random.pick(&[0, 20, 50])];
    let locked = random.pick(&[0, 0, 20, 60]);
    with_chances(random, feeder, chances, locked)
}

/// A second switch on every branch that has one, as far as the list has room, none of them locked.
pub fn all_with_two(random: &mut Random, feeder: Feeder) -> Feeder {
    with_chances(random, feeder, [100, 0], 0)
}

/// The chances, in percent, are those of branches with one switch and with none, and that a switch is locked.
fn with_chances(random: &mut Random, mut feeder: Feeder, chances: [usize; 2], locked: usize) -> Feeder {
    let places = random.below(4);
    for k in 0..feeder.branches.len() {
        let on: Vec<u8> = feeder.switches.iter().filter(|s| usize::from(s.branch) == k).map(|s| s.flags).collect();
        let more = match on[..] {
            [_] if random.percent(chances[0]) => 1,
            [] if random.percent(chances[1]) => 2,
            _ => 0,
        };
        for _ in 0..more {
            let dead = feeder.branches[k].status == 0 || on.iter().any(|flags| flags & TIE != 0);
            let tie = dead && random.percent(50) && (feeder.method != 2 || feeder.ties() < MOST_TIES);
            let operable = if random.percent(locked) { 0 } else { OPERABLE };
            put_in(random, &mut feeder, places, k, operable | if tie { TIE } else { 0 });
        }
    }
    feeder
}

/// A switch more, in a list that is full none: before all others, behind them, before or behind those of its branch, anywhere.
fn put_in(random: &mut Random, feeder: &mut Feeder, places: usize, branch: usize, flags: u8) {
    let list = &mut feeder.switches;
    if list.len() == MOST {
        return;
    }
    let mut id = list.last().map_or(1, |last| last.id.wrapping_add(1));
    while list.iter().any(|s| s.id == id) {
        id = random.next() as u16;
    }
    let first = list.iter().position(|s| usize::from(s.branch) == branch).unwrap_or(0);
    let at = match places {
        0 => list.len(),
        1 => 0,
        2 => list.len().min(first + random.below(2)),
        _ => random.below(list.len() + 1),
    };
    list.insert(at, SwitchLine { id, branch: branch as u16, flags });
}

/// Document 01's triangle with two switches on branch 2, both ties, and two on branch 1, of which the later is locked.
pub fn triangle_of_four() -> Feeder {
    let mut feeder = triangle();
    feeder.switches.clear();
    for (id, branch, flags) in [(12, 2, OPERABLE | TIE), (10, 1, OPERABLE), (11, 2, OPERABLE | TIE), (13, 1, 0)] {
        feeder.switch(id, branch, flags);
    }
    feeder
}

/// Texts about two and three switches on a branch.
pub fn texts() -> Vec<Vec<u8>> {
    let mut feeders = Vec::new();
    for (method, iterations) in [(0, 100), (0, 0), (0, 1), (1, 100), (1, 0), (2, 100)] {
        feeders.push(Feeder { method, iterations, ..triangle_of_four() });
        feeders.extend(triangles_of_two().map(|feeder| Feeder { method, iterations, ..feeder }));
    }
    feeders.extend(bus_behind_two());
    feeders.extend(two_exchanges());
    feeders.extend(thirds());
    feeders.extend(among_ties());
    feeders.extend(largest());
    feeders.iter().map(Feeder::text).collect()
}

/// The triangle with every second switch on the section's and on the tie's branch, before and behind the first.
fn triangles_of_two() -> impl Iterator<Item = Feeder> {
    (0..2 * 2 * 4).map(|number| {
        let (at, first, flags) = (number % 2, number / 2 % 2, (number / 4) as u8);
        let mut feeder = triangle();
        let branch = feeder.switches[first].branch;
        feeder
            .switches
            .insert(if at == 0 { first } else { feeder.switches.len() }, SwitchLine { id: 9, branch, flags });
        feeder
    })
}

/// A bus that feeds in hangs on the last of a row by a branch with two switches: with it the row loses less, so that tabu too would join it.
fn bus_behind_two() -> Vec<Feeder> {
    let mut feeders = Vec::new();
    for method in 0..3 {
        for (first, second) in [(3, 3), (3, 1), (1, 3), (1, 1), (3, 2), (2, 3), (3, 0), (0, 3), (1, 2)] {
            let mut feeder = Feeder { base_mva: 1.0, method, iterations: 4, ..Feeder::default() };
            [0.0, 1.0, -1.0].into_iter().enumerate().for_each(|(i, pd)| feeder.bus(i as u16 + 1, pd));
            feeder.branch(1, 2, 0.5);
            feeder.branch(2, 3, 0.125);
            feeder.switch(7, 1, first);
            feeder.switch(4, 0, OPERABLE);
            feeder.switch(5, 1, second);
            feeders.push(feeder);
        }
    }
    feeders
}

/// Three buses in a row, joined by a section and a tie each, and beside each a further section, locked or not, before all or behind: both ties are
/// exchanged, and a branch ranks by the first of its switches, moved or not.
fn two_exchanges() -> Vec<Feeder> {
    let mut feeders = Vec::new();
    for number in 0..2 * 2 * 2 * 4 {
        let (first, behind, on_sections, flags) = (number % 2, number / 2 % 2, number / 4 % 2, number / 8);
        let mut feeder = Feeder { base_mva: 1.0, iterations: 9, ..Feeder::default() };
        [0.0, 1.0, 1.0].into_iter().enumerate().for_each(|(i, pd)| feeder.bus(i as u16 + 1, pd));
        for (from, r) in [(1, 1.0), (1, 0.125), (2, 1.0), (2, 0.125)] {
            feeder.branch(from, from + 1, r);
        }
        let mut listed = vec![(11, 1, OPERABLE | TIE), (13, 3, OPERABLE | TIE), (10, 0, OPERABLE), (12, 2, OPERABLE)];
        listed[..2].rotate_left(first);
        let second = |bit: usize| if flags >> bit & 1 == 1 { OPERABLE } else { 0 };
        let seconds = [(20, 3 - on_sections, second(0)), (21, 1 - on_sections, second(1))];
        listed.splice(if behind == 1 { 4..4 } else { 0..0 }, seconds);
        listed.into_iter().for_each(|(id, branch, flags)| feeder.switch(id, branch, flags));
        feeders.push(feeder);
    }
    feeders
}

/// A third switch in every place of the list, alone, with an id twice, with a branch that is not there, with flags without a meaning.
fn thirds() -> Vec<Feeder> {
    let mut feeders = Vec::new();
    for at in 0..=4 {
        for (id, branch, flags) in [(14, 2, 2), (14, 1, 1), (12, 2, 2), (13, 1, 0), (14, 3, 2), (14, 2, 4), (14, 0, 3)]
        {
            let mut feeder = triangle_of_four();
            feeder.switches.insert(at, SwitchLine { id, branch, flags });
            feeders.push(feeder);
        }
    }
    feeders
}

/// Exhaustive, two buses: nine to twelve ties, two on each branch or in one place three.
fn among_ties() -> Vec<Feeder> {
    let mut feeders = Vec::new();
    for ties in 9..=12u16 {
        for third in [None, Some(2), Some(9), Some(10), Some(11)] {
            let mut feeder = Feeder { base_mva: 1.0, method: 2, ..Feeder::default() };
            (1..=2).for_each(|id| feeder.bus(id, 1.0));
            (0..6).for_each(|_| feeder.branch(1, 2, 0.5));
            for i in 0..ties {
                let branch = if third == Some(i) { 0 } else { usize::from(i) / 2 };
                feeder.switch(i, branch, OPERABLE | TIE);
            }
            feeders.push(feeder);
        }
    }
    feeders
}

/// 256 branches with two switches each, side by side and as far apart as can be; in a row of 256 buses with a tie between its ends, all closed but the tie.
fn largest() -> Vec<Feeder> {
    let mut feeders = Vec::new();
    for (method, apart, locked) in [(0, false, false), (0, true, false), (1, true, false), (2, true, true)] {
        let mut feeder = Feeder { base_mva: 1.0, method, iterations: 3, ..Feeder::default() };
        (0..256).for_each(|id| feeder.bus(id, 0.1));
        (0..255).for_each(|id| feeder.branch(id, id + 1, 0.01));
        feeder.branch(0, 255, 0.001);
        for i in 0..512 {
            let branch = if apart { i % 256 } else { i / 2 };
            let tie = if branch == 255 && i > 256 { TIE } else { 0 };
            feeder.switch(i as u16, branch, tie | if locked && i % 3 == 0 { 0 } else { OPERABLE });
        }
        feeders.push(feeder);
    }
    feeders
}
