//! Fixed texts: both sides of every limit, the refusal table's examples, document 01's triangle and its relatives, and
//! lines with several faults at once.

use crate::ends;
use crate::feeder::{head_line, joined, triangle, BranchLine, Feeder, OPERABLE, TIE};
use crate::random::Random;
use crate::shapes::full_size;

pub fn texts() -> Vec<Vec<u8>> {
    let mut texts = Vec::new();
    texts.extend(triangles());
    texts.extend(counts());
    texts.extend(floats());
    texts.extend(meanings());
    texts.extend(lines_too_few_or_many());
    texts.extend(characters());
    texts.extend(several_faults());
    texts.extend(ids_and_positions());
    texts.extend(out_of_service());
    texts.extend(tie_counts());
    texts.extend(parallel_ties());
    texts.extend(ends::texts());
    texts.extend(long_texts());
    texts
}

/// The triangle of document 01 with each method and number of rounds, turned, and its small relatives.
fn triangles() -> Vec<Vec<u8>> {
    triangle_feeders().iter().map(Feeder::text).collect()
}

pub fn triangle_feeders() -> Vec<Feeder> {
    let mut feeders = Vec::new();
    for (method, iterations) in [(0, 100), (0, 0), (0, 1), (0, 2), (0, 3), (1, 100), (1, 0), (2, 100), (2, 0)] {
        feeders.push(Feeder { method, iterations, ..triangle() });
        let mut turned = Feeder { method, iterations, ..triangle() };
        (turned.branches[0].from, turned.branches[0].to) = (2, 1);
        feeders.push(turned);
        let mut all_closed = Feeder { method, iterations, ..triangle() };
        all_closed.switches[1].flags = OPERABLE;
        feeders.push(all_closed);
    }
    feeders.extend(small_relatives());
    feeders
}

/// No bus; one bus; its own loop; two buses with one branch, with two, with none.
fn small_relatives() -> Vec<Feeder> {
    let mut feeders = Vec::new();
    for method in 0..3 {
        let empty = Feeder { base_mva: 1.0, method, iterations: 100, ..Feeder::default() };
        let with_buses = |count: u16| {
            let mut feeder = empty.clone();
            (1..=count).for_each(|id| feeder.bus(id, f64::from(id)));
            feeder
        };
        let with_branches = |count: u16, ends: &[(u16, u16)]| {
            let mut feeder = with_buses(count);
            ends.iter().for_each(|&(from, to)| feeder.branch(from, to, 0.5));
            feeder
        };
        feeders.extend([
            empty.clone(),
            with_buses(1),
            with_branches(1, &[(1, 1)]),
            with_branches(2, &[(1, 2)]),
            with_branches(2, &[(1, 2), (1, 2)]),
            with_branches(2, &[(1, 2), (2, 1)]),
            with_buses(2),
        ]);
    }
    feeders
}

/// `buses` buses in a row, `branches` branches (parallels where there are more), `switches` switches on the first ones.
pub fn row(buses: usize, branches: usize, switches: usize) -> Feeder {
    let mut feeder = Feeder { base_mva: 1.0, method: 0, iterations: 1, ..Feeder::default() };
    (0..buses).for_each(|i| feeder.bus(i as u16, 0.1));
    for k in 0..branches {
        let from = k % buses.saturating_sub(1).max(1);
        feeder.branch(from as u16, (from + 1).min(buses - 1) as u16, 0.01);
    }
    (0..switches).for_each(|i| feeder.switch(i as u16, i, OPERABLE));
    feeder
}

/// Buses, branches and switches about their limits.
#[rustfmt::skip]
const ROWS: [(usize, usize, usize); 12] = [
    (256, 255, 0), (257, 255, 0), (255, 254, 254), (256, 512, 0), (256, 513, 0), (2, 511, 0), (2, 512, 512),
    (2, 512, 513), (2, 513, 512), (256, 511, 511), (257, 513, 513), (1, 0, 0),
];
/// Counts of heads that stand alone.
#[rustfmt::skip]
const HEADS: [[usize; 3]; 8] = [
    [257, 0, 0], [0, 513, 0], [0, 0, 513], [0xFFFF, 0, 0], [0, 0xFFFF, 0], [0, 0, 0xFFFF], [0, 1, 0], [0, 0, 1],
];

fn counts() -> Vec<Vec<u8>> {
    let rows = ROWS.into_iter().map(|(buses, branches, switches)| row(buses, branches, switches).text());
    let mut texts: Vec<Vec<u8>> = rows.collect();
    for iterations in [0, 1, 999, 1_000, 1_001, 0xFFFF] {
        texts.push(Feeder { iterations, ..triangle() }.text());
    }
    for counts in HEADS {
        texts.push(joined(&[head_line(counts, 1.0, 0, 0)]));
        texts.push(joined(&[head_line(counts, 1.0, 3, 0)]));
        texts.push(joined(&[head_line(counts, 0.0, 0, 0)]));
    }
    texts
}

const ENDS: [f64; 10] = [0.001, 1_000_000.0, -1_000_000.0, 1_000.0, -0.001, -1_000.0, 0.0, -0.0, 1.0, -1.0];
/// Subnormals, the greatest float, infinity, signalling and quiet NaN.
#[rustfmt::skip]
const MAGNITUDES: [u64; 9] = [
    1, 0x000F_FFFF_FFFF_FFFF, 0x0010_0000_0000_0000, 0x7FEF_FFFF_FFFF_FFFF, 0x7FF0_0000_0000_0000,
    0x7FF0_0000_0000_0001, 0x7FF7_FFFF_FFFF_FFFF, 0x7FF8_0000_0000_0000, 0x7FFF_FFFF_FFFF_FFFF,
];

/// Each end of each range with its neighbours, and everything that is no number.
fn floats() -> Vec<Vec<u8>> {
    let around = |end: f64| [end.to_bits().wrapping_sub(1), end.to_bits(), end.to_bits().wrapping_add(1)];
    let mut bits: Vec<u64> = ENDS.into_iter().flat_map(around).collect();
    bits.extend(MAGNITUDES.into_iter().flat_map(|magnitude| [magnitude, magnitude | 1 << 63]));
    let mut texts = Vec::new();
    for value in bits.into_iter().map(f64::from_bits) {
        let mut with_load = triangle();
        with_load.buses[1].pd = value;
        let mut with_resistance = triangle();
        with_resistance.branches[1].r = value;
        texts.extend([Feeder { base_mva: value, ..triangle() }.text(), with_load.text(), with_resistance.text()]);
    }
    texts
}

/// Every method, status and flags byte.
fn meanings() -> Vec<Vec<u8>> {
    let mut texts = Vec::new();
    for byte in 0..=255 {
        texts.push(Feeder { method: byte, ..triangle() }.text());
        let mut with_status = triangle();
        with_status.branches[2].status = byte;
        texts.push(with_status.text());
        let mut with_flags = triangle();
        with_flags.switches[0].flags = byte;
        texts.push(with_flags.text());
    }
    texts
}

/// What may stand behind the last line.
#[rustfmt::skip]
pub const SURPLUS: [&[u8]; 16] = [
    b"\n", b"\n\n", b"0", b"0\n", b"00", b"00\n", b"G\n", b"GG\n", b"GG", b" ", b"\r\n", b"04000C000002\n",
    b"04000C000002", b"05000A\n", b"0400\n\n", b"\0",
];

fn lines_too_few_or_many() -> Vec<Vec<u8>> {
    let lines = triangle().lines();
    let whole = triangle().text();
    let mut texts: Vec<Vec<u8>> = (0..lines.len()).map(|count| joined(&lines[..count])).collect();
    texts.extend(SURPLUS.iter().map(|more| [&whole[..], more].concat()));
    for kind in ["00", "01", "02", "03", "04", "05", "FF", "10"] {
        for line in 0..lines.len() {
            let mut changed = lines.clone();
            changed[line].replace_range(..2, kind);
            texts.push(joined(&changed));
        }
    }
    texts
}

/// Lines of every length from 0 to 40 and of 36 and 37 characters of any kind, ended and unended, in each place.
fn characters() -> Vec<Vec<u8>> {
    let lines = triangle().lines();
    let mut texts = Vec::new();
    for line in 0..=lines.len() {
        let before = joined(&lines[..line]);
        for length in 0..=40 {
            for filler in [b'0', b'G', b'a'] {
                let filled = [&before[..], &vec![filler; length]].concat();
                texts.push([&filled[..], b"\n"].concat());
                texts.push(filled);
            }
        }
    }
    for ending in [&b"\r\n"[..], b"\r", b" \n", b"", b"0\n", b"00\n"] {
        for line in 0..lines.len() {
            let (before, after) = (joined(&lines[..line]), joined(&lines[line + 1..]));
            texts.push([&before, lines[line].as_bytes(), ending, &after].concat());
        }
        texts.push(lines.iter().flat_map(|line| [line.as_bytes(), ending].concat()).collect());
    }
    texts.push(triangle().text().to_ascii_lowercase());
    texts
}

/// Lines of the triangle with all their faults at once, then with fewer.
#[rustfmt::skip]
pub const FAULTY: [(usize, &[&str]); 4] = [
    (0, &["0101010003000200000000000000000303E9", "0101010003000200000000000000000003E8",
        "010003000300020000000000000000000064"]),
    (2, &["0200017FF0000000000000", "0200013FF0000000000000", "0200027FF0000000000000"]),
    (5, &["03000900097FF000000000000002", "03000900097FF000000000000001", "03000900093FDC00000000000001",
        "03000100037FF000000000000002"]),
    (8, &["04000A000104", "04000A000304", "04000A000303", "04000A000103", "04000B000103", "04000A000203"]),
];

/// The lines above, alone and before a later line with a lower number.
fn several_faults() -> Vec<Vec<u8>> {
    let good = triangle().lines();
    let mut texts = Vec::new();
    for (line, others) in FAULTY {
        for other in others {
            let mut changed = good.clone();
            changed[line] = other.to_string();
            texts.push(joined(&changed));
            for later in line + 1..good.len() {
                let mut twice = changed.clone();
                twice[later] = "0G".to_string();
                texts.push(joined(&twice));
            }
        }
    }
    texts
}

fn ids_and_positions() -> Vec<Vec<u8>> {
    let mut feeders = Vec::new();
    for id in [0, 1, 2, 3, 4, 9, 10, 11, 0xFFFF] {
        for bus in 0..3 {
            let mut feeder = triangle();
            feeder.buses[bus].id = id;
            feeders.push(feeder);
        }
        for branch in 0..3 {
            let (mut from, mut to) = (triangle(), triangle());
            (from.branches[branch].from, to.branches[branch].to) = (id, id);
            feeders.extend([from, to]);
        }
        for switch in 0..2 {
            let (mut named, mut placed) = (triangle(), triangle());
            (named.switches[switch].id, placed.switches[switch].branch) = (id, id);
            feeders.extend([named, placed]);
        }
    }
    feeders.iter().map(Feeder::text).collect()
}

/// A branch out of service is judged as any other: behind one bus, a to bus or a from bus that is not listed, a resistance
/// out of its range.
fn out_of_service() -> Vec<Vec<u8>> {
    let one_branch = |(from, to, r)| {
        let mut feeder = Feeder { base_mva: 1.0, ..Feeder::default() };
        feeder.bus(1, 0.0);
        feeder.branches.push(BranchLine { from, to, r, status: 0 });
        feeder.text()
    };
    [(1, 9, 0.0), (9, 1, 0.0), (1, 1, -1.0), (1, 1, 0.0)].map(one_branch).into()
}

/// Nine to twelve ties, locked or not, among sections, with each method.
fn tie_counts() -> Vec<Vec<u8>> {
    let mut texts = Vec::new();
    for ties in 9..=12 {
        for method in 0..3 {
            for locked in [0, 1, ties] {
                let mut feeder = row(3, 14, 0);
                (feeder.method, feeder.iterations) = (method, 2);
                for k in 0..14 {
                    let tie = (2..2 + ties).contains(&k);
                    let operable = if tie && k < 2 + locked { 0 } else { OPERABLE };
                    feeder.switch(k as u16, k, operable | if tie { TIE } else { 0 });
                }
                texts.push(feeder.text());
            }
        }
    }
    texts
}

/// Ties of one resistance side by side, and no other branch: of equal losses the first mask's state is answered, with the
/// first tie of the list closed.
fn parallel_ties() -> Vec<Vec<u8>> {
    let on_branches = |positions: &[usize]| {
        let mut feeder = Feeder { base_mva: 1.0, method: 2, iterations: 1, ..Feeder::default() };
        (1..=2).for_each(|id| feeder.bus(id, 1.0));
        positions.iter().for_each(|_| feeder.branch(1, 2, 0.5));
        (10..).zip(positions).for_each(|(id, &branch)| feeder.switch(id, branch, OPERABLE | TIE));
        feeder.text()
    };
    [&[0, 1][..], &[1, 0], &[0, 1, 2]].map(on_branches).into()
}

/// Texts beyond any buffer that fits the longest accepted one.
fn long_texts() -> Vec<Vec<u8>> {
    let full = full_size(&mut Random::new(1, "long texts", 0), 1, 10, 1_000).text();
    let head = &full[..37];
    vec![
        [&full[..], b"0\n"].concat(),
        [&full[..], b"04"].concat(),
        [&full[..], &full].concat(),
        full[..full.len() - 1].to_vec(),
        vec![b'0'; 200_000],
        vec![b'\n'; 200_000],
        vec![b'G'; 30_000],
        [head, &vec![b'0'; 200_000]].concat(),
        [&full[..], &vec![b'0'; 200_000]].concat(),
        [&full[..], &vec![b'\n'; 200_000]].concat(),
        [&full[..full.len() - 1], &vec![b'0'; 100_000]].concat(),
    ]
}
