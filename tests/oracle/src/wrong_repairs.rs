//! Repairs with one mistake each, to see that a set of texts tells them from a right one.

use crate::cases::Cases;
use crate::compare::Right;
use crate::reckoning::repair::{repaired_with, Repaired, Slip};
use crate::reckoning::Refusal;
use crate::repairs::expected;

pub fn named(name: &str) -> Slip {
    let found = Slip::ALL.into_iter().find(|slip| format!("{slip:?}") == name);
    found.unwrap_or_else(|| {
        let names: Vec<String> = Slip::ALL.iter().map(|slip| format!("{slip:?}")).collect();
        crate::fail(&format!("the mistakes are {}", names.join(", ")))
    })
}

pub fn output(slip: Slip, text: &[u8]) -> String {
    repaired_with(text, Some(slip)).as_ref().map_or_else(|refusal: &Refusal| refusal.line(), Repaired::output)
}

/// For each mistake the first text that shows it; false if one is never seen.
pub fn all_caught(cases: Cases) -> bool {
    let mut unseen = Slip::ALL.to_vec();
    for (number, case) in cases.enumerate() {
        let right = expected(&case.text);
        unseen.retain(|&slip| {
            let wrong = output(slip, &case.text);
            let seen = wrong != right.output() && right.fault(wrong.as_bytes()).is_some();
            if seen {
                println!("text {number:6}  {:24} {}", format!("{slip:?}"), case.kind);
            }
            !seen
        });
    }
    unseen.iter().for_each(|slip| println!("NEVER SEEN   {slip:?}"));
    println!("{} mistakes in a repair, {} never seen", Slip::ALL.len(), unseen.len());
    unseen.is_empty()
}
