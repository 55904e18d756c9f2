//! Document 02, Point 5: what the live branches of a state are. No bus gets a label: each branch asks for a way between its ends
//! over the live branches before it, and pieces are found by spreading.

use super::plan::reached;
use super::Network;

#[derive(Debug, Clone, Copy, PartialEq, Eq)]
pub enum Form {
    Tree,
    Loop { branch: u16, islands: u16 },
    Islands(u16),
}

/// The branch field where no loop is.
pub const NO_BRANCH: u16 = 0xFFFF;

impl Form {
    /// The islands and the branch of the 84 line.
    pub fn fields(self) -> [u16; 2] {
        match self {
            Form::Tree => [0, NO_BRANCH],
            Form::Loop { branch, islands } => [islands, branch],
            Form::Islands(islands) => [islands, NO_BRANCH],
        }
    }

    /// As it is counted.
    pub fn name(self) -> &'static str {
        match self {
            Form::Tree => "a tree",
            Form::Loop { islands: 0, .. } => "a loop, no islands",
            Form::Loop { .. } => "a loop and islands",
            Form::Islands(_) => "islands, no loop",
        }
    }
}

/// The 84 line.
pub fn line([islands, branch]: [u16; 2]) -> String {
    format!("84{islands:04X}{branch:04X}\n")
}

/// Bytes of the 81 line.
pub const ANSWER_LENGTH: usize = 59;

/// The lines of a search with the 84 line, which follows the 81 line.
pub fn with_form(search: &str, fields: [u16; 2]) -> String {
    let (first, moved) = search.split_at(ANSWER_LENGTH);
    format!("{first}{}{moved}", line(fields))
}

/// Both as one number: the islands in its upper half.
pub fn number([islands, branch]: [u16; 2]) -> u32 {
    u32::from(islands) << 16 | u32::from(branch)
}

/// "A loop goes before islands, and then the count comes with it."
pub fn form(network: &Network, live: &[bool]) -> Form {
    let closing = (0..live.len()).find(|&k| closes(network, live, k));
    match (closing, islands(network, live)) {
        (Some(branch), islands) => Form::Loop { branch: branch as u16, islands },
        (None, 0) => Form::Tree,
        (None, islands) => Form::Islands(islands),
    }
}

/// Whether a branch is live and the live ones before it join its ends.
pub fn closes(network: &Network, live: &[bool], k: usize) -> bool {
    let branch = &network.branches[k];
    live[k] && reached(network, &live[..k], branch.from)[branch.to]
}

/// Whether a live branch before it has its ends, in either order.
pub fn parallel(network: &Network, live: &[bool], k: usize) -> bool {
    let ends = |k: usize| (network.branches[k].from, network.branches[k].to);
    let (from, to) = ends(k);
    (0..k).any(|j| live[j] && (ends(j) == (from, to) || ends(j) == (to, from)))
}

/// "Connected pieces minus one, 0 for no buses."
pub fn islands(network: &Network, live: &[bool]) -> u16 {
    let mut seen = vec![false; network.buses.len()];
    let mut pieces: u16 = 0;
    while let Some(start) = seen.iter().position(|&bus| !bus) {
        pieces += 1;
        seen.iter_mut().zip(reached(network, live, start)).for_each(|(seen, reached)| *seen |= reached);
    }
    pieces.saturating_sub(1)
}
