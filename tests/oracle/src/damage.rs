//! Damaged copies of good texts: bytes, lines, endings, counts and fields.

use crate::random::Random;
use crate::shapes::SHAPES;
use crate::{ends, supplied};

type Damage = fn(&mut Random, &mut Vec<Vec<u8>>);

/// Each works on the lines of a text, line feeds included.
#[rustfmt::skip]
const DAMAGES: [Damage; 23] = [
    other_byte, other_digit, lower_case, byte_removed, byte_put_in, line_dropped, line_doubled, lines_swapped,
    carriage_return, no_last_line_feed, line_made_long, surplus_line, count_changed, method_or_iterations, float_changed,
    id_repeated, field_copied, cut_short, line_feed_put_in, line_of_another_kind, branch_of_another_switch, more_ties,
    switch_added,
];

/// The shapes of small feeders stand first.
const GOOD: usize = 10;

/// A good text with one to three damages. Some stay acceptable.
pub fn damaged(random: &mut Random) -> Vec<u8> {
    let feeder = (SHAPES[random.below(GOOD)].make)(random);
    let mut lines = lines(ends::mostly_two(random, feeder).text());
    damage(random, &mut lines);
    lines.concat()
}

/// A text with the 05 line, the damages half of the time to that line alone.
pub fn damaged_with_line(random: &mut Random) -> Vec<u8> {
    let shape = &SHAPES[random.below(GOOD)];
    let mut before = lines(supplied::feeder(random, shape.make).text());
    let kept = if random.percent(50) { before.len() - 1 } else { 0 };
    let mut rest = before.split_off(kept);
    damage(random, &mut rest);
    [before.concat(), rest.concat()].concat()
}

pub fn lines(text: Vec<u8>) -> Vec<Vec<u8>> {
    text.split_inclusive(|&c| c == b'\n').map(<[u8]>::to_vec).collect()
}

pub fn damage(random: &mut Random, lines: &mut Vec<Vec<u8>>) {
    for _ in 0..random.pick(&[1, 1, 1, 2, 3]) {
        if !lines.is_empty() {
            random.pick(&DAMAGES)(random, lines);
        }
    }
}

/// A line, the later ones as likely as the first.
fn any_line<'a>(random: &mut Random, lines: &'a mut [Vec<u8>]) -> &'a mut Vec<u8> {
    let at = random.below(lines.len());
    &mut lines[at]
}

fn any_place(random: &mut Random, line: &[u8]) -> usize {
    random.below(line.len().max(1))
}

fn other_byte(random: &mut Random, lines: &mut Vec<Vec<u8>>) {
    let line = any_line(random, lines);
    let at = any_place(random, line);
    if let Some(byte) = line.get_mut(at) {
        *byte = random.next() as u8;
    }
}

fn any_digit(random: &mut Random) -> u8 {
    random.pick(b"0123456789ABCDEF")
}

fn other_digit(random: &mut Random, lines: &mut Vec<Vec<u8>>) {
    let line = any_line(random, lines);
    let at = any_place(random, line);
    if let Some(byte) = line.get_mut(at) {
        *byte = any_digit(random);
    }
}

fn lower_case(random: &mut Random, lines: &mut Vec<Vec<u8>>) {
    any_line(random, lines).make_ascii_lowercase();
}

fn byte_removed(random: &mut Random, lines: &mut Vec<Vec<u8>>) {
    let line = any_line(random, lines);
    let at = any_place(random, line);
    if at < line.len() {
        line.remove(at);
    }
}

fn byte_put_in(random: &mut Random, lines: &mut Vec<Vec<u8>>) {
    let line = any_line(random, lines);
    let at = any_place(random, line);
    let byte = if random.percent(50) { any_digit(random) } else { random.next() as u8 };
    line.insert(at, byte);
}

fn line_dropped(random: &mut Random, lines: &mut Vec<Vec<u8>>) {
    lines.remove(random.below(lines.len()));
}

fn line_doubled(random: &mut Random, lines: &mut Vec<Vec<u8>>) {
    let at = random.below(lines.len());
    lines.insert(at, lines[at].clone());
}

fn lines_swapped(random: &mut Random, lines: &mut Vec<Vec<u8>>) {
    let (a, b) = (random.below(lines.len()), random.below(lines.len()));
    lines.swap(a, b);
}

/// One line with CR LF, or all.
fn carriage_return(random: &mut Random, lines: &mut Vec<Vec<u8>>) {
    let all = random.percent(30);
    let one = random.below(lines.len());
    for (i, line) in lines.iter_mut().enumerate() {
        if (all || i == one) && line.last() == Some(&b'\n') {
            line.insert(line.len() - 1, b'\r');
        }
    }
}

fn no_last_line_feed(_: &mut Random, lines: &mut Vec<Vec<u8>>) {
    if let Some(b'\n') = lines.last().and_then(|line| line.last()) {
        lines.last_mut().and_then(Vec::pop);
    }
}

fn line_made_long(random: &mut Random, lines: &mut Vec<Vec<u8>>) {
    let length = random.pick(&[2, 35, 36, 37, 38, 80, 300]);
    let byte = random.pick(b"0FGa");
    let line = any_line(random, lines);
    while line.len() <= length {
        line.insert(line.len().saturating_sub(1), byte);
    }
}

fn surplus_line(random: &mut Random, lines: &mut Vec<Vec<u8>>) {
    let surplus: [&[u8]; 9] =
        [b"\n", b"0\n", b"00\n", b"GG\n", b"00", b"0", b"020001", b"04FFFF000002\n", b"0200FF0000000000000000\n"];
    lines.push(random.pick(&surplus).to_vec());
}

/// Digits of the head or of any other line set to a number.
fn put(line: &mut [u8], at: usize, digits: &str) {
    if let Some(field) = line.get_mut(at..at + digits.len()) {
        field.copy_from_slice(digits.as_bytes());
    }
}

fn count_changed(random: &mut Random, lines: &mut Vec<Vec<u8>>) {
    let at = random.pick(&[2, 6, 10]);
    let field = lines[0].get(at..at + 4).and_then(|digits| std::str::from_utf8(digits).ok());
    let count = field.and_then(|digits| u16::from_str_radix(digits, 16).ok()).unwrap_or(0);
    let other = random.pick(&[count.wrapping_add(1), count.wrapping_sub(1), 0, 0x100, 0x101, 0x200, 0x201, 0xFFFF]);
    put(&mut lines[0], at, &format!("{other:04X}"));
}

fn method_or_iterations(random: &mut Random, lines: &mut Vec<Vec<u8>>) {
    if random.percent(50) {
        put(&mut lines[0], 30, random.pick(&["00", "01", "02", "03", "FF"]));
    } else {
        put(&mut lines[0], 32, random.pick(&["0000", "0001", "03E8", "03E9", "FFFF"]));
    }
}

/// No numbers, zeros, least subnormals, and each range's ends with the next float outside.
#[rustfmt::skip]
const FLOATS: [&str; 15] = [
    "7FF0000000000000", "FFF0000000000000", "7FF8000000000001", "FFF0000000000001", "8000000000000000",
    "0000000000000001", "8000000000000001", "412E848000000000", "412E848000000001", "C12E848000000000",
    "C12E848000000001", "408F400000000000", "408F400000000001", "3F50624DD2F1A9FC", "3F50624DD2F1A9FB",
];

fn float_changed(random: &mut Random, lines: &mut Vec<Vec<u8>>) {
    let digits = random.pick(&FLOATS);
    let line = any_line(random, lines);
    let at = match line.get(..2) {
        Some(b"01") => 14,
        Some(b"02") => 6,
        _ => 10,
    };
    put(line, at, digits);
}

/// The first four digits behind the kind of one line, in another: ids twice, ends not listed.
fn id_repeated(random: &mut Random, lines: &mut Vec<Vec<u8>>) {
    field_between(random, lines, 2, 2);
}

fn field_copied(random: &mut Random, lines: &mut Vec<Vec<u8>>) {
    let (from, to) = (random.pick(&[2, 6]), random.pick(&[2, 6]));
    field_between(random, lines, from, to);
}

fn field_between(random: &mut Random, lines: &mut [Vec<u8>], from: usize, to: usize) {
    let (a, b) = (random.below(lines.len()), random.below(lines.len()));
    if let Some(digits) = lines[a].get(from..from + 4).and_then(|field| String::from_utf8(field.to_vec()).ok()) {
        put(&mut lines[b], to, &digits);
    }
}

/// The branch position of one switch line, in another.
fn branch_of_another_switch(random: &mut Random, lines: &mut Vec<Vec<u8>>) {
    let switches = lines.iter().position(|line| line.starts_with(b"04")).unwrap_or(0);
    field_between(random, &mut lines[switches..], 6, 6);
}

/// A copy of a switch line with another id, counted in the head: the second on its branch, or the third.
fn switch_added(random: &mut Random, lines: &mut Vec<Vec<u8>>) {
    let switches: Vec<usize> = (0..lines.len()).filter(|&at| lines[at].starts_with(b"04")).collect();
    if switches.is_empty() {
        return;
    }
    let mut line = lines[random.pick(&switches)].clone();
    put(&mut line, 2, &format!("{:04X}", random.next() as u16));
    lines.insert(random.pick(&switches) + random.below(2), line);
    put(&mut lines[0], 10, &format!("{:04X}", switches.len() + 1));
}

/// Nearly every switch normally open, operable or not, with the exhaustive method.
fn more_ties(random: &mut Random, lines: &mut Vec<Vec<u8>>) {
    put(&mut lines[0], 30, "02");
    for line in lines.iter_mut().filter(|line| line.starts_with(b"04")) {
        let flags = if random.percent(5) { "02" } else { random.pick(&["01", "03"]) };
        put(line, 10, flags);
    }
}

fn cut_short(random: &mut Random, lines: &mut Vec<Vec<u8>>) {
    let text = lines.concat();
    let length = random.below(text.len() + 1);
    *lines = vec![text[..length].to_vec()];
}

fn line_feed_put_in(random: &mut Random, lines: &mut Vec<Vec<u8>>) {
    let line = any_line(random, lines);
    let at = any_place(random, line);
    line.insert(at, b'\n');
}

fn line_of_another_kind(random: &mut Random, lines: &mut Vec<Vec<u8>>) {
    let kind = random.pick(&["00", "01", "02", "03", "04", "05", "81"]);
    put(any_line(random, lines), 0, kind);
}
