//! The README's example in Rust: tables of three buses, their branches and their switches become document 01's triangle text, which is answered.

#![allow(dead_code)]

mod library;

use std::process::ExitCode;

/// Rows as an estate has them: bus id and load in MW; a branch's ends and r in per unit; switch id, branch position and flags.
const BUSES: [(u16, f64); 3] = [(1, 0.0), (2, 1.0), (3, 2.0)];
const BRANCHES: [(u16, u16, f64); 3] = [(1, 2, 0.25), (2, 3, 0.4375), (1, 3, 0.1875)];
const SWITCHES: [(u16, u16, u8); 2] = [(10, 1, 2), (11, 2, 3)];

/// Room for every text, and for every answer.
const FRAMES_LENGTH: usize = 27436;
const TEXT_LENGTH: usize = 8511;

/// The head says: base 1 MVA, branch exchange, at most 100 rounds.
fn records() -> Vec<u8> {
    let u16s = |numbers: &[u16]| numbers.iter().flat_map(|number| number.to_be_bytes()).collect::<Vec<u8>>();
    let counts = [BUSES.len(), BRANCHES.len(), SWITCHES.len()].map(|count| count as u16);
    let mut bytes = [&[1], &u16s(&counts)[..], &1.0f64.to_be_bytes(), &[0], &u16s(&[100])].concat();
    BUSES.iter().for_each(|(id, pd)| bytes.extend([&[2], &u16s(&[*id])[..], &pd.to_be_bytes()].concat()));
    BRANCHES.iter().for_each(|(from, to, r)| bytes.extend([&[3], &u16s(&[*from, *to])[..], &r.to_be_bytes(), &[1]].concat()));
    SWITCHES.iter().for_each(|(id, branch, flags)| bytes.extend([&[4], &u16s(&[*id, *branch])[..], &[*flags]].concat()));
    bytes
}

fn main() -> ExitCode {
    let (mut text, mut lines) = ([0; FRAMES_LENGTH], [0; TEXT_LENGTH]);
    let made = library::write_text(&records(), &mut text);
    if made.number != 0 {
        println!("refused with {} at line {}", made.number, made.place);
        return ExitCode::FAILURE;
    }
    let text = &text[..made.value as usize];
    let answer = library::answer_text(text, &mut lines);
    print!("{}{}", String::from_utf8_lossy(text), String::from_utf8_lossy(&lines[..answer.value as usize]));
    ExitCode::SUCCESS
}
