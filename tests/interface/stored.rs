//! Stored texts by hand: document 01's triangle with a branch from bus 2 to itself behind its branch 0 and switch 12 on it, and one bus with its own loop.

use crate::reckoning::Refusal;
use crate::{compare, in_room, lent, library, numbers, records, Checks, FRAMES_LENGTH};

const BUSES: &str = "0200010000000000000000\n0200023FF0000000000000\n0200034000000000000000\n";
const OWN_LOOP: &str = "03000200023FD000000000000001\n";
const BRANCH_0: &str = "03000100023FD000000000000001\n";
const OTHERS: &str = "03000200033FDC00000000000001\n03000100033FC800000000000001\n";
const STORED_SWITCHES: &str = "04000A000202\n04000C000102\n04000B000303\n";
const SUPPLY: &str = "050001\n";
const ONE_BUS: &str = "3FF0000000000000000064\n0200010000000000000000\n";
const DROPPED: &str = "87000601\n87000A02\n";

fn stored(switches: &str, supply: &str) -> String {
    format!("010003000400033FF0000000000000000064\n{BUSES}{BRANCH_0}{OWN_LOOP}{OTHERS}{switches}{supply}")
}

fn triangle(supply: &str) -> String {
    format!("010003000300023FF0000000000000000064\n{BUSES}{BRANCH_0}{OTHERS}04000A000102\n04000B000203\n{supply}")
}

/// The stored text, the line of its own loop, and what the repair writes or refuses it with.
pub fn worked(checks: &mut Checks) -> bool {
    let closed = STORED_SWITCHES.replace("B000303", "B000302");
    let twice = STORED_SWITCHES.replace("000C", "000A");
    let one_bus = |branches: u8, rest: &str| format!("010001000{branches}0000{ONE_BUS}{rest}");
    let cases: [(String, u16, Result<String, (u8, u16)>); 7] = [
        (stored(STORED_SWITCHES, ""), 6, Ok(triangle("") + DROPPED)),
        (stored(STORED_SWITCHES, SUPPLY), 6, Ok(triangle(SUPPLY) + DROPPED)),
        (stored(&closed, SUPPLY), 6, Err((15, 12))),
        (stored(&closed, &SUPPLY.repeat(2)), 6, Err((15, 12))),
        (stored(STORED_SWITCHES, &SUPPLY.repeat(2)), 6, Err((2, 13))),
        (stored(&twice, ""), 6, Err((7, 10))),
        (one_bus(1, "03000100013FD000000000000001\n"), 3, Ok(one_bus(0, "87000301\n"))),
    ];
    cases.into_iter().all(|(text, place, repair)| refused(checks, text.as_bytes(), place) && repaired(checks, text.as_bytes(), repair))
}

/// 17 at the own loop, of the text and of its records.
fn refused(checks: &mut Checks, text: &[u8], place: u16) -> bool {
    let expected = || Err(Refusal { number: 17, place });
    let bytes = records::of_digits(text);
    lent(checks, "answer", text, FRAMES_LENGTH, expected(), numbers, |out| library::answer_text(text, out))
        && lent(checks, "write", text, FRAMES_LENGTH, expected(), numbers, |out| library::write_text(&bytes, out))
        && compare(checks, "base", text, expected().map(|(value, _)| value), numbers, library::base_state(text, &mut []))
}

/// In slices that are exactly full, longer, one byte short and of no byte; a refusal of the text comes first.
fn repaired(checks: &mut Checks, text: &[u8], repair: Result<String, (u8, u16)>) -> bool {
    let written = repair.map(String::into_bytes).map_err(|(number, place)| Refusal { number, place });
    let length = written.as_ref().map_or(1, Vec::len);
    let valued = written.map(|written| (written.len() as u64, written));
    [length, FRAMES_LENGTH, length - 1, 0].into_iter().all(|room| {
        lent(checks, "repair", text, room, in_room(room, valued.clone()), numbers, |out| library::repair_text(text, out))
    })
}
