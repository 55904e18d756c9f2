//! Texts with the 05 line: fixed ones about its limits, seeded feeders with a supply, damaged copies.

use crate::cases::{named, seeded, Case, Cases, Size};
use crate::feeder::{head_line, joined, supply_line, triangle, Feeder};
use crate::random::Random;
use crate::reckoning::{judge, reader};
use crate::{damage, ends, limits, shapes, short};

/// How the name of each kind begins.
pub const LINE: &str = "05 line: ";

pub fn cases(size: Size, seed: u64) -> Cases {
    let counts = size.with_line;
    let every_shape = shapes::SHAPES.iter().flat_map(move |shape| {
        (0..counts.each_shape).map(move |number| {
            let random = &mut Random::new(seed, shape.name, number);
            Case { kind: "05 line: every shape", text: feeder(random, shape.make).text() }
        })
    });
    let cases = named("05 line: limits", fixed().into_iter())
        .chain(seeded("05 line: feeders of up to 3 buses", counts.few_buses, seed, few_buses))
        .chain(every_shape)
        .chain(seeded("05 line: damaged copies", counts.damaged, seed, damage::damaged_with_line))
        .chain(full_size(counts.full, seed));
    Box::new(cases)
}

/// A feeder with the line at any bus; one in twenty names another id. Its base is radial where one of twenty draws has such a
/// base, but for one in ten, which is the first drawn.
pub fn feeder(random: &mut Random, make: fn(&mut Random) -> Feeder) -> Feeder {
    let mut feeder = make(random);
    for _ in 0..if random.percent(10) { 0 } else { 20 } {
        if radial_base(&feeder) {
            break;
        }
        feeder = make(random);
    }
    let mut feeder = ends::mostly_two(random, feeder);
    let any = random.next() as u16;
    let listed = !feeder.buses.is_empty() && !random.percent(5);
    feeder.supply = Some(if listed { feeder.buses[random.below(feeder.buses.len())].id } else { any });
    feeder
}

/// A shape that has radial bases: the second to the fifth have none.
pub fn any_shape(random: &mut Random) -> fn(&mut Random) -> Feeder {
    let number = random.below(shapes::SHAPES.len() - 4);
    shapes::SHAPES[if number == 0 { 0 } else { number + 4 }].make
}

fn radial_base(feeder: &Feeder) -> bool {
    let network = reader::read(&feeder.text()).expect("a feeder without the line is acceptable");
    judge::tree(&network, &network.live(&network.base()))
}

fn few_buses(random: &mut Random) -> Vec<u8> {
    let any = |random: &mut Random| {
        let (buses, branches) = random.pick(&[(1, 0), (2, 0), (2, 1), (2, 2), (3, 2), (3, 3), (3, 3), (3, 3)]);
        let switches = random.pick(&[short::AT_MOST_ONE, short::AT_MOST_TWO, short::AT_MOST_TWO]);
        short::drawn(random, buses, branches, switches)
    };
    feeder(random, any).text()
}

/// The largest feeders of all with a radial base, each method.
fn full_size(count: usize, seed: u64) -> impl Iterator<Item = Case> + Send {
    const KIND: &str = "05 line: 256 buses, 512 branches, 512 switches";
    const SEARCHES: [(u8, usize, u16); 6] =
        [(0, 4, 1_000), (1, 10, 100), (2, 10, 1), (0, 20, 3), (1, 257, 2), (0, 257, 1)];
    (0..count).map(move |number| {
        let random = &mut Random::new(seed, KIND, number);
        let (method, operable, iterations) = SEARCHES[number % SEARCHES.len()];
        let mut feeder = shapes::full_size(random, method, operable, iterations);
        feeder.supply = Some(feeder.buses[random.below(256)].id);
        Case { kind: KIND, text: feeder.text() }
    })
}

fn fixed() -> Vec<Vec<u8>> {
    let mut texts = Vec::new();
    texts.extend(triangles());
    texts.extend(forms());
    texts.extend(places());
    texts.extend(ids());
    texts.extend(bases());
    texts.extend(several_faults());
    texts.extend(one_byte_away());
    texts.extend(chains());
    texts.extend(long_texts());
    texts
}

/// Document 01's triangle with each method, turned, looped, and its small relatives: the supply at each bus and at none.
fn triangles() -> Vec<Vec<u8>> {
    let feeders = limits::triangle_feeders();
    let with = |id| feeders.iter().map(move |feeder| Feeder { supply: Some(id), ..feeder.clone() }.text());
    [1, 2, 3, 9].into_iter().flat_map(with).collect()
}

/// The triangle and what stands behind it.
fn behind(last: &[u8]) -> Vec<u8> {
    [&triangle().text(), last].concat()
}

/// Lines of every length from 0 to 40, ended and unended; of other kinds; odd, in lower case, with other characters.
fn forms() -> Vec<Vec<u8>> {
    let mut lasts: Vec<String> = Vec::new();
    for filler in ["0", "1", "F"] {
        let digits = format!("05000{}", filler.repeat(35));
        lasts.extend((0..=40).map(|length| digits[..length].to_string()));
    }
    let kinds = (0..=0x10).chain([0x50, 0x55, 0x81, 0x8F, 0xFF]);
    lasts.extend(kinds.map(|kind| format!("{kind:02X}0001")));
    lasts.extend(
        ["05000a", "0500 1", "05 0001", " 050001", "050001 ", "05-001", "050001\r", "0x0001"].map(String::from),
    );
    lasts.iter().flat_map(|last| [behind(last.as_bytes()), behind(format!("{last}\n").as_bytes())]).collect()
}

/// The line before each line, in place of each, twice and three times, with more behind it, and where a line is missing.
fn places() -> Vec<Vec<u8>> {
    let good = triangle().lines();
    let mut texts = Vec::new();
    for id in [1, 9] {
        let line = supply_line(id);
        for at in 0..=good.len() {
            let mut before = good.clone();
            before.insert(at, line.clone());
            let twice = [&before[..], &[line.clone()]].concat();
            let thrice = [&twice[..], &[supply_line(2)]].concat();
            texts.extend([joined(&before), joined(&twice), joined(&thrice)]);
        }
        for at in 0..good.len() {
            let mut instead = good.clone();
            instead[at] = line.clone();
            let cut = [&good[..at], &[line.clone()]].concat();
            texts.extend([joined(&instead), joined(&cut)]);
        }
        texts.extend(limits::SURPLUS.iter().map(|more| behind(&[format!("{line}\n").as_bytes(), more].concat())));
    }
    for counts in [[3, 3, 1], [3, 3, 3], [3, 2, 2], [3, 4, 2], [2, 3, 2], [4, 3, 2], [0, 0, 0]] {
        let mut lines = Feeder { supply: Some(1), ..triangle() }.lines();
        lines[0] = head_line(counts, 1.0, 0, 100);
        texts.extend([joined(&lines), joined(&[lines[0].clone(), supply_line(1)])]);
    }
    texts
}

/// Ids about those that are listed, 0 and 65,535 listed or not.
fn ids() -> Vec<Vec<u8>> {
    let mut texts = Vec::new();
    for renamed in [1, 0, 10, 0xFFFF] {
        let mut feeder = triangle();
        feeder.buses[0].id = renamed;
        (feeder.branches[0].from, feeder.branches[2].from) = (renamed, renamed);
        let with = |id| Feeder { supply: Some(id), ..feeder.clone() }.text();
        texts.extend([0, 1, 2, 3, 4, 9, 10, 11, 0xFFFE, 0xFFFF].map(with));
    }
    texts
}

/// Every base of the triangle that statuses and flags give, with a listed bus and with another.
fn bases() -> Vec<Vec<u8>> {
    let mut texts = Vec::new();
    for number in 0..8 * 16 {
        for id in [2, 9] {
            let mut feeder = Feeder { supply: Some(id), ..triangle() };
            for (k, branch) in feeder.branches.iter_mut().enumerate() {
                branch.status = (number >> k & 1) as u8;
            }
            feeder.switches[0].flags = number >> 3 & 3;
            feeder.switches[1].flags = number >> 5 & 3;
            texts.push(feeder.text());
        }
    }
    texts
}

/// Faults of an earlier line, of the 05 line and of a line behind it.
fn several_faults() -> Vec<Vec<u8>> {
    const LINES: [&str; 7] = ["050001", "050009", "05G001", "0500", "060001", "0500011", "05000100"];
    let mut texts = Vec::new();
    for line in LINES {
        for (at, others) in limits::FAULTY {
            for other in others {
                let mut changed = [&triangle().lines()[..], &[line.to_string()]].concat();
                changed[at] = other.to_string();
                texts.push(joined(&changed));
            }
        }
        for more in ["0G", "00", "050001", "04000C000002", ""] {
            texts.push(behind(format!("{line}\n{more}\n").as_bytes()));
            texts.push(behind(format!("{line}\n{more}").as_bytes()));
        }
        let long = "0".repeat(37);
        texts.push(behind(format!("{line}\n{long}").as_bytes()));
        texts.push(behind(format!("{long}\n{line}\n").as_bytes()));
    }
    texts
}

/// The triangle turned with the line at bus 1, a byte of the line other, removed or put in, or the line cut short.
fn one_byte_away() -> Vec<Vec<u8>> {
    const BYTES: &[u8] = b"0123456789AFGa\n\r \0";
    let mut feeder = Feeder { supply: Some(1), ..triangle() };
    (feeder.branches[0].from, feeder.branches[0].to) = (2, 1);
    let text = feeder.text();
    let mut texts = Vec::new();
    for at in text.len() - 7..text.len() {
        let (before, after) = (&text[..at], &text[at + 1..]);
        texts.extend([before.to_vec(), [before, after].concat()]);
        for &byte in BYTES {
            texts.push([before, &[byte], after].concat());
            texts.push([before, &[byte], &text[at..]].concat());
        }
    }
    texts
}

/// 256 buses in a row, the supply at an end, in the middle, at the other end; a star.
fn chains() -> Vec<Vec<u8>> {
    let chain = |supply| Feeder { supply: Some(supply), ..limits::row(256, 255, 255) };
    let mut star = chain(7);
    (0..).zip(&mut star.branches).for_each(|(k, branch)| (branch.from, branch.to) = (k + 1, 0));
    [chain(0), chain(1), chain(128), chain(255), star].iter().map(Feeder::text).collect()
}

/// The longest acceptable text, 27,436 bytes, and texts beyond it.
fn long_texts() -> Vec<Vec<u8>> {
    let random = &mut Random::new(1, "long texts", 0);
    let mut full = shapes::full_size(random, 1, 10, 1_000);
    full.supply = Some(full.buses[200].id);
    let text = full.text();
    let with = |more: &[u8]| [&text[..], more].concat();
    let unlisted = (0..=u16::MAX).find(|id| full.buses.iter().all(|bus| bus.id != *id));
    vec![
        text.clone(),
        Feeder { supply: unlisted, ..full.clone() }.text(),
        text[..text.len() - 1].to_vec(),
        with(b"0\n"),
        with(b"050001\n"),
        with(&[b'0'; 36]),
        with(&[b'0'; 37]),
        with(&[b'0'; 38]),
        with(&[b'0'; 200_000]),
        with(&[b'\n'; 200_000]),
        [&text[..text.len() - 1], &[b'0'; 100_000]].concat(),
        [&text[..text.len() - 7], &[b'0'; 100_000]].concat(),
    ]
}
