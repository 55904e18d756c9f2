//! An independent reckoning, written from the sentences of document 01 and of document 02's Points 2, 4, 5, 6 and 7; it shares no code with the original or with the crates.
//! `reader` gives the verdict on any byte string, `plan` the planner's answer, `resume` that for a plan cut off, `form` what the live branches of a
//! state are, `judge` looks at these by another method, `searches` steps through document 01's searches, `repair` drops the lines of branches from a bus to
//! itself.

pub mod form;
pub mod judge;
pub mod plan;
pub mod reader;
pub mod repair;
pub mod resume;
pub mod searches;

/// A refusal: a number and a place.
#[derive(Debug, Clone, Copy, PartialEq, Eq)]
pub struct Refusal {
    pub number: u8,
    pub place: u16,
}

impl Refusal {
    /// The line that `feeder` prints.
    pub fn line(self) -> String {
        format!("8F{:02X}{:04X}\n", self.number, self.place)
    }
}

#[derive(Debug, Clone)]
pub struct Bus {
    pub id: u16,
    pub pd: f64,
}

/// The ends are positions in the list of buses.
#[derive(Debug, Clone)]
pub struct Branch {
    pub from: usize,
    pub to: usize,
    pub r: f64,
    pub in_service: bool,
}

#[derive(Debug, Clone)]
pub struct Switch {
    pub id: u16,
    pub branch: usize,
    pub normally_open: bool,
    pub can_operate: bool,
}

/// An accepted network.
#[derive(Debug, Clone, Default)]
pub struct Network {
    pub base_mva: f64,
    pub method: u8,
    pub max_iterations: u16,
    pub buses: Vec<Bus>,
    pub branches: Vec<Branch>,
    pub switches: Vec<Switch>,
    /// Position of the supply bus, where a 05 line names one.
    pub supply: Option<usize>,
}

/// A state's bytes: document 01's 00 closed, 01 open.
pub const CLOSED: u8 = 0;
pub const OPEN: u8 = 1;

impl Network {
    /// Document 01: "The base opens exactly the normally open switches."
    pub fn base(&self) -> Vec<u8> {
        self.switches.iter().map(|s| if s.normally_open { OPEN } else { CLOSED }).collect()
    }

    /// Document 01: "A branch is live when its status is 01 and no open switch is on it", however many are on it.
    pub fn live(&self, state: &[u8]) -> Vec<bool> {
        let mut live: Vec<bool> = self.branches.iter().map(|b| b.in_service).collect();
        for (switch, &byte) in self.switches.iter().zip(state) {
            if byte == OPEN {
                live[switch.branch] = false;
            }
        }
        live
    }

    /// Whether some branch has two switches.
    pub fn has_two_on_branch(&self) -> bool {
        let mut on = vec![0; self.branches.len()];
        self.switches.iter().for_each(|switch| on[switch.branch] += 1);
        on.contains(&2)
    }
}
