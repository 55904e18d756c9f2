//! A switch at each end, by hand: document 01's triangle with switches 12 and 11 on branch 2 and 10 and 13 on branch 1, in the order 12, 10, 11, 13, of which 13 is locked.

use crate::reckoning::Refusal;
use crate::{compare, lent, library, numbers, Checks};

const BUSES_AND_BRANCHES: &str = "0200010000000000000000\n0200023FF0000000000000\n0200034000000000000000\n\
    03000100023FD000000000000001\n03000200033FDC00000000000001\n03000100033FC800000000000001\n";
const SWITCHES: &str = "04000C000203\n04000A000102\n04000B000203\n04000D000100\n";
/// 4 MW before and after.
const BASE_KEPT: &str = "8101401000000000000040100000000000000000000000000000";
const TREE: u64 = 65_535;

/// The states, a byte for each of 12, 10, 11, 13: as the plan begins, as it ends, and with 13 opened too.
const BEGAN: &[u8] = &[1, 0, 1, 0];
const ENDED: &[u8] = &[0, 1, 0, 0];
const BOTH_OPENED: &[u8] = &[0, 1, 0, 1];

fn text(count: usize, method: u8, switches: &str) -> Vec<u8> {
    format!("0100030003{count:04X}3FF0000000000000{method:02X}0064\n{BUSES_AND_BRANCHES}{switches}").into_bytes()
}

fn refusal((number, place): (u8, u16)) -> Refusal {
    Refusal { number, place }
}

pub fn worked(checks: &mut Checks) -> bool {
    let four = text(4, 0, SWITCHES);
    plans(checks, &four) && cuts(checks, &four) && forms(checks, &four) && thirds(checks) && searches(checks)
}

/// In slices that are exactly full, longer, and one byte short.
fn plans(checks: &mut Checks, four: &[u8]) -> bool {
    let operable = text(4, 0, &SWITCHES.replace("D000100", "D000102"));
    let locked = text(4, 0, "04000C000201\n04000A000100\n04000B000203\n04000D000100\n");
    let (operable, locked) = (&operable[..], &locked[..]);
    let cases: [(&[u8], &[u8], &[u8], usize, Result<&str, (u8, u16)>); 10] = [
        (four, BEGAN, ENDED, 19, Ok("8602000C000B01000A\n")),
        (four, BEGAN, ENDED, 20, Ok("8602000C000B01000A\n")),
        (four, BEGAN, ENDED, 18, Err((13, 0))),
        (four, ENDED, BEGAN, 19, Ok("8601000A02000C000B\n")),
        (four, &[0, 0, 1, 0], ENDED, 15, Ok("8601000B01000A\n")),
        (four, BEGAN, BOTH_OPENED, 0, Err((12, 13))),
        (four, &[0, 0, 0, 0], BOTH_OPENED, 0, Err((11, 0))),
        (operable, BEGAN, BOTH_OPENED, 23, Ok("8602000C000B02000A000D\n")),
        (operable, BEGAN, BOTH_OPENED, 22, Err((13, 0))),
        (locked, BEGAN, ENDED, 64, Err((12, 12))),
    ];
    let mut cases = cases.into_iter();
    cases.all(|(text, present, wanted, room, expected)| {
        let expected = expected.map(|lines| (1, lines.as_bytes().to_vec())).map_err(refusal);
        lent(checks, "plan", text, room, expected, numbers, |out| library::plan(text, present, wanted, out))
    })
}

/// Each switch is a move.
fn cuts(checks: &mut Checks, four: &[u8]) -> bool {
    let moves = ["82000C01\n", "82000B01\n", "82000A00\n"];
    let back = ["82000A01\n", "82000B00\n", "82000C00\n"];
    let resumed = (0..=3).all(|count| {
        let (mut remaining, mut undone) = (vec![0; 9 * (3 - count)], vec![0; 9 * count]);
        let answer = library::resume(four, BEGAN, ENDED, count as u64, &mut remaining, &mut undone);
        let right = remaining == moves[count..].concat().as_bytes() && undone == back[3 - count..].concat().as_bytes();
        if !right {
            println!("interface: Rust: resume: both ends, other moves at {count}");
        }
        right && compare(checks, "resume", four, Ok(3 - count as u64), numbers, answer)
    });
    let refused = [(ENDED, 4, (16, 0)), (BOTH_OPENED, u64::MAX, (12, 13))];
    resumed
        && refused.into_iter().all(|(wanted, count, right)| {
            let answer = library::resume(four, BEGAN, wanted, count, &mut [0; 27], &mut [0; 27]);
            compare(checks, "resume", four, Err(refusal(right)), numbers, answer)
        })
}

/// At each count of moves: a tree, a tree, the loop of three branches, a tree.
fn forms(checks: &mut Checks, four: &[u8]) -> bool {
    let points: [(&[u8], u64); 4] = [(BEGAN, TREE), (&[0, 0, 1, 0], TREE), (&[0, 0, 0, 0], 2), (ENDED, TREE)];
    points.into_iter().all(|(state, form)| compare(checks, "form", four, Ok(form), numbers, library::form(four, state)))
}

/// A fifth switch, the third on branch 2.
fn thirds(checks: &mut Checks) -> bool {
    let cases = [("04000E000202\n", (8, 12)), ("04000C000202\n", (7, 12)), ("04000E000302\n", (6, 12))];
    cases.into_iter().all(|(fifth, right)| {
        let text = text(5, 0, &format!("{SWITCHES}{fifth}"));
        compare(checks, "base", &text, Err(refusal(right)), numbers, library::base_state(&text, &mut [0; 8]))
    })
}

/// One round, converged; 100 rounds; three radial states. Each answers the base.
fn searches(checks: &mut Checks) -> bool {
    [1, 100, 3].into_iter().zip(0..).all(|(rounds, method)| {
        let (text, printed) = (text(4, method, SWITCHES), format!("{BASE_KEPT}{rounds:04X}01\n840000FFFF\n"));
        let expected = Ok((printed.len() as u64, printed.into_bytes()));
        lent(checks, "answer", &text, 70, expected, numbers, |out| library::answer_text(&text, out))
    })
}
