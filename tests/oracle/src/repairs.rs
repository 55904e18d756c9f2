//! What `repair` is to print, by the reckoning on lines, beside what the reader of new texts says; the texts that it is tried on.

use crate::cases::{named, seeded, set, Cases, Size, REPAIRED};
use crate::compare::Right;
use crate::loops;
use crate::reckoning::reader;
use crate::reckoning::repair::{repaired, repaired_with, Repaired, Slip};
use crate::reckoning::Refusal;

/// Bytes of the longest text with a 05 line: no repair is longer.
const LONGEST: usize = 27_436;

pub struct Expected {
    answer: Result<Repaired, Refusal>,
    results: Vec<(String, usize)>,
}

pub fn expected(text: &[u8]) -> Expected {
    let (new, answer) = (reader::read(text).err(), repaired(text));
    if let Some(fault) = fault_of_reckonings(text, new, &answer) {
        panic!("{fault}:\n{}", String::from_utf8_lossy(text));
    }
    let results = results(text, new, &answer);
    Expected { answer, results }
}

/// What must hold between the two reckonings whatever the text: where a new text is accepted the repair is the text; where it is refused otherwise
/// than by 17, so is the repair; what a repair leaves is accepted, and repaired once more it stays.
fn fault_of_reckonings(text: &[u8], new: Option<Refusal>, answer: &Result<Repaired, Refusal>) -> Option<&'static str> {
    let holds = match (new, answer) {
        (None, Ok(left)) => left.told.is_empty() && left.text.as_bytes() == text,
        (Some(new), Ok(left)) => {
            let again = repaired(left.text.as_bytes());
            let stays = again.is_ok_and(|again| again.told.is_empty() && again.text == left.text);
            let first = format!("87{:04X}01\n", new.place);
            let accepted = reader::read(left.text.as_bytes()).is_ok() && left.output().len() <= LONGEST;
            new.number == 17 && left.told.first() == Some(&first) && accepted && stays
        }
        (Some(new), Err(stored)) if new.number == 17 => stored.number != 17 && stored.place > new.place,
        (new, Err(stored)) => new == Some(*stored),
    };
    (!holds).then_some("the reckoning on lines and the reader contradict one another")
}

fn results(text: &[u8], new: Option<Refusal>, answer: &Result<Repaired, Refusal>) -> Vec<(String, usize)> {
    let told =
        |reason: &str| answer.as_ref().map_or(0, |left| left.told.iter().filter(|line| line[6..] == *reason).count());
    let (branches, switches) = (told("01\n"), told("02\n"));
    let with_line = text.split(|&c| c == b'\n').any(|line| line.len() == 6 && line.starts_with(b"05"));
    let line = if with_line { ", with the 05 line" } else { "" };
    let uncured = repaired_with(text, Some(Slip::FifteenBeforeDropping)).is_err_and(|refusal| refusal.number == 15);
    let behind = if new.is_some_and(|new| new.number == 17) { " behind an own loop" } else { "" };
    let result = match answer {
        Err(refusal) => format!("refused {}{behind}", refusal.number),
        Ok(_) if new.is_none() => format!("nothing to drop{line}"),
        Ok(_) => REPAIRED[with_line as usize].to_string(),
    };
    let more = [
        (REPAIRED[2].to_string(), (answer.is_ok() && uncured) as usize),
        (
            "repaired: no branch is left".to_string(),
            answer.as_ref().is_ok_and(|left| branches > 0 && &left.text[6..10] == "0000") as usize,
        ),
        ("dropped branches".to_string(), branches),
        ("dropped switches".to_string(), switches),
    ];
    [(result, 1)].into_iter().chain(more).filter(|(_, count)| *count > 0).collect()
}

impl Right for Expected {
    fn count(&self) -> usize {
        1
    }

    fn output(&self) -> String {
        match &self.answer {
            Ok(left) => left.output(),
            Err(refusal) => refusal.line(),
        }
    }

    fn fault(&self, output: &[u8]) -> Option<String> {
        let text = match &self.answer {
            Ok(left) => &left.text,
            Err(_) => "",
        };
        if !output.starts_with(text.as_bytes()) {
            return Some("what is left of the text is not the reckoning's".to_string());
        }
        let same = output == self.output().as_bytes();
        (!same).then(|| "the 87 lines, or the 8F line, are not the reckoning's".to_string())
    }

    fn results(&self) -> Vec<(String, usize)> {
        self.results.clone()
    }
}

/// Texts that the program is tried on: fixed ones, drawn and damaged ones with own loops, any bytes at all; of the other texts one in so many.
pub fn cases(size: Size, seed: u64) -> Cases {
    let counts = size.repairs;
    let others = set(size, seed).step_by(counts.step);
    let cases = named("repair: fixed", loops::fixed().into_iter())
        .chain(seeded("repair: drawn", counts.drawn, seed, loops::drawn))
        .chain(seeded("repair: damaged copies", counts.damaged, seed, loops::damaged))
        .chain(seeded("repair: any bytes", counts.any_bytes, seed, loops::any_bytes))
        .chain(named("repair: other texts of the set", others.map(|case| case.text)));
    Box::new(cases)
}
