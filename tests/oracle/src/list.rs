//! The fixed list: texts of every shape and method with their expected outputs, and for each mistake of `wrong` some
//! texts that show it. An entry is a line of eight hexadecimal digits, the text's length and the output's length (u16
//! each), then the text, then the output.

use crate::cases::{set, Case, Size, FULL_QUEUE, LOOPS_AND_ISLANDS, OWN_LOOPS};
use crate::compare::Tally;
use crate::expected::{expected, Expected};
use crate::supplied;
use crate::wrong::{self, Mistake};

/// How many texts are kept of a kind (evenly chosen; fewer with the 05 line, and of kinds which are long), for each mistake and
/// of each refusal number.
const OF_A_KIND: usize = 35;
const OF_A_KIND_WITH_LINE: usize = 12;
const OF_A_FULL_QUEUE: usize = 8;
const OF_LOOPS_AND_ISLANDS: usize = 15;
const OF_OWN_LOOPS: usize = 12;
const FOR_A_MISTAKE: usize = 3;
const OF_A_REFUSAL: usize = 10;
/// Texts that are longer need a length of more than 16 bits in a program that replays the list.
const LONGEST: usize = 0x7FFF;

pub fn list(seed: u64) -> Vec<u8> {
    let size = Size::named("small").expect("a size");
    let all: Vec<Case> = set(size, seed).filter(|case| case.text.len() <= LONGEST).collect();
    let mut tally = Tally::default();
    let mut unseen: Vec<(Mistake, usize)> = wrong::all().into_iter().map(|mistake| (mistake, 0)).collect();
    let mut refusals = [0; 18];
    let mut list = Vec::new();
    for (case, evenly) in all.iter().zip(evenly_chosen(&all)) {
        let right = expected(&case.text);
        if shows_a_mistake(&mut unseen, &case.text, &right) || evenly || rare(&mut refusals, &right) {
            let output = right.output();
            list.extend(format!("{:04X}{:04X}\n", case.text.len(), output.len()).bytes());
            list.extend(&case.text);
            list.extend(output.bytes());
            tally.add(case.kind, &right);
        }
    }
    let unseen: Vec<String> = unseen.iter().map(|(mistake, seen)| format!("{}: {seen}", mistake.name())).collect();
    assert!(unseen.is_empty(), "fewer than {FOR_A_MISTAKE} texts show {}", unseen.join(", "));
    eprint!("{}\n{} entries, {} bytes\n", tally.lines(), tally.total(), list.len());
    list
}

/// Of each kind so many, the first among them.
fn evenly_chosen(all: &[Case]) -> Vec<bool> {
    let of_kind = |kind: &str| all.iter().filter(|case| case.kind == kind).count();
    let mut kind = ("", 1, 0);
    all.iter()
        .map(|case| {
            if case.kind != kind.0 {
                let most = match case.kind {
                    FULL_QUEUE => OF_A_FULL_QUEUE,
                    LOOPS_AND_ISLANDS => OF_LOOPS_AND_ISLANDS,
                    kind if kind.starts_with(supplied::LINE) => OF_A_KIND_WITH_LINE,
                    kind if kind.starts_with(OWN_LOOPS) => OF_OWN_LOOPS,
                    _ => OF_A_KIND,
                };
                kind = (case.kind, of_kind(case.kind).div_ceil(most), 0);
            }
            kind.2 += 1;
            (kind.2 - 1) % kind.1 == 0
        })
        .collect()
}

fn rare(refusals: &mut [usize], right: &Expected) -> bool {
    let Expected::Refused(refusal) = right else { return false };
    let count = &mut refusals[usize::from(refusal.number)];
    *count += 1;
    *count <= OF_A_REFUSAL
}

fn shows_a_mistake(unseen: &mut Vec<(Mistake, usize)>, text: &[u8], right: &Expected) -> bool {
    let mut shows = false;
    unseen.retain_mut(|(mistake, seen)| {
        if mistake.output_beside(text, right) != right.output() {
            *seen += 1;
            shows = true;
        }
        *seen < FOR_A_MISTAKE
    });
    shows
}

/// The text and the output of entry `number`, counted from 1.
pub fn print_entry(list: &[u8], number: usize) -> bool {
    let mut rest = list;
    for _ in 1..number {
        rest = entry(rest).map_or(&[], |(_, _, after)| after);
    }
    match entry(rest) {
        Some((text, output, _)) => {
            println!("{}-- expected\n{}", String::from_utf8_lossy(text), String::from_utf8_lossy(output));
            true
        }
        None => crate::fail("there is no such entry"),
    }
}

fn entry(list: &[u8]) -> Option<(&[u8], &[u8], &[u8])> {
    let length = |at: usize| usize::from_str_radix(std::str::from_utf8(list.get(at..at + 4)?).ok()?, 16).ok();
    let (text, output) = (length(0)?, length(4)?);
    let contents = list.get(9..)?;
    Some((contents.get(..text)?, contents.get(text..text + output)?, &contents[text + output..]))
}
