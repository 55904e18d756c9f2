//! Feeders for document 02's Point 5, each with the islands and the branch of its best state. The base is the best state but where the
//! name says otherwise.

use crate::feeder::{Feeder, OPERABLE, TIE};
use crate::reckoning::form::NO_BRANCH;

pub type Named = (&'static str, Feeder, [u16; 2]);

/// Buses with ids from 1 and these branches; nothing is searched.
pub fn joined(buses: u16, ends: &[(u16, u16)]) -> Feeder {
    let mut feeder = Feeder { base_mva: 1.0, ..Feeder::default() };
    (1..=buses).for_each(|id| feeder.bus(id, 1.0));
    ends.iter().for_each(|&(from, to)| feeder.branch(from, to, 0.5));
    feeder
}

pub fn named() -> Vec<Named> {
    [islands(), loops(), loops_and_islands(), not_live(), two_on_a_branch(), of_256_buses()]
        .into_iter()
        .flatten()
        .collect()
}

fn islands() -> Vec<Named> {
    vec![
        ("two buses without a branch: islands 1", joined(2, &[]), [1, NO_BRANCH]),
        ("five buses in three pieces: islands 2", joined(5, &[(2, 1), (5, 4)]), [2, NO_BRANCH]),
    ]
}

fn loops() -> Vec<Named> {
    let ring = [(1, 2), (2, 3), (1, 3)];
    vec![
        ("parallels before a ring: loop 1", joined(3, &[&[(2, 1)], &ring[..]].concat()), [0, 1]),
        ("parallels behind a ring: loop 2", joined(3, &[&ring[..], &[(2, 1)]].concat()), [0, 2]),
        (
            "a ring far from the first bus, listed before one at it: loop 2",
            joined(5, &[(3, 4), (4, 5), (3, 5), (1, 2), (2, 3), (1, 2)]),
            [0, 2],
        ),
        ("a ring whose branches are listed against a walk: loop 2", joined(3, &[(2, 3), (1, 2), (1, 3)]), [0, 2]),
    ]
}

fn loops_and_islands() -> Vec<Named> {
    vec![
        ("a ring and a bus apart: loop 2, islands 1", joined(4, &[(1, 2), (2, 3), (1, 3)]), [1, 2]),
        ("a ring in the second piece: loop 3, islands 1", joined(5, &[(1, 2), (3, 4), (4, 5), (3, 5)]), [1, 3]),
        ("one branch fewer than buses, parallels: loop 1, islands 1", joined(3, &[(1, 2), (1, 2)]), [1, 1]),
    ]
}

/// Branches that are open or out of service neither close nor join; the best state counts and not the base.
fn not_live() -> Vec<Named> {
    let mut dead = joined(3, &[(1, 2), (2, 3), (1, 3)]);
    dead.branches[2].status = 0;
    let mut open = joined(3, &[(1, 2), (2, 3), (1, 3)]);
    open.switch(1, 2, TIE);
    let mut both = joined(3, &[(1, 2), (1, 2), (2, 3)]);
    both.switch(1, 1, TIE);
    both.branches[2].status = 0;
    let mut tie = Feeder { method: 2, ..joined(2, &[(1, 2)]) };
    tie.switch(1, 0, OPERABLE | TIE);
    let mut section = Feeder { method: 1, iterations: 1, ..joined(2, &[(1, 2), (1, 2)]) };
    section.switch(1, 0, OPERABLE);
    vec![
        ("a ring whose last branch is out of service: a tree", dead, [0, NO_BRANCH]),
        ("a ring whose last branch is open: a tree", open, [0, NO_BRANCH]),
        ("a parallel open, a branch out of service: islands 1", both, [1, NO_BRANCH]),
        ("an island that the exhaustive search joins: a tree", tie, [0, NO_BRANCH]),
        ("parallels of which tabu opens one: a tree", section, [0, NO_BRANCH]),
    ]
}

/// A ring whose last branch has two switches, and two buses joined by a branch with two, with these flags in the order of the list.
fn two_on_a_branch() -> Vec<Named> {
    let ring = |first, second| {
        let mut feeder = joined(3, &[(1, 2), (2, 3), (1, 3)]);
        (feeder.switch(2, 2, first), feeder.switch(1, 2, second));
        feeder
    };
    let apart = |method, first, second| {
        let mut feeder = Feeder { method, iterations: 1, ..joined(2, &[(1, 2)]) };
        (feeder.switch(2, 0, first), feeder.switch(1, 0, second));
        feeder
    };
    vec![
        ("a ring with two closed switches on its last branch: loop 2", ring(OPERABLE, 0), [0, 2]),
        ("the first of them open: a tree", ring(TIE, OPERABLE), [0, NO_BRANCH]),
        ("the second of them open: a tree", ring(OPERABLE, TIE), [0, NO_BRANCH]),
        ("both open: a tree", ring(TIE, TIE), [0, NO_BRANCH]),
        ("two ties on the one branch, which the exhaustive search closes: a tree", apart(2, TIE, TIE), [0, NO_BRANCH]),
        (
            "two ties on it, of which tabu closes none: islands 1",
            apart(1, OPERABLE | TIE, OPERABLE | TIE),
            [1, NO_BRANCH],
        ),
    ]
}

fn of_256_buses() -> Vec<Named> {
    let row: Vec<(u16, u16)> = (1..256).map(|bus| (bus, bus + 1)).collect();
    let mut last = joined(256, &[&row[..], &[(7, 8); 257]].concat());
    last.branches[255..511].iter_mut().for_each(|branch| branch.status = 0);
    let backwards: Vec<(u16, u16)> = row.iter().rev().map(|&(from, to)| (to, from)).collect();
    let ring = |row: &[(u16, u16)], closing| joined(256, &[row, &[closing]].concat());
    vec![
        ("256 buses without a branch: islands 255", joined(256, &[]), [255, NO_BRANCH]),
        ("512 parallels at the last of 256: loop 1, islands 254", ring(&[(256, 255); 511], (255, 256)), [254, 1]),
        ("a row of 256, a loop at position 511", last, [0, 511]),
        ("a ring of 256: loop 255", ring(&row, (256, 1)), [0, 255]),
        ("a ring of 256, listed backwards: loop 255", ring(&backwards, (256, 1)), [0, 255]),
        ("a ring of the first 255 of 256: loop 254, islands 1", ring(&row[..254], (1, 255)), [1, 254]),
        ("a ring of the last three of 256: loop 2, islands 253", ring(&row[253..], (256, 254)), [253, 2]),
        ("parallels at the last of 256: loop 1, islands 254", ring(&row[254..], (255, 256)), [254, 1]),
    ]
}
