//! Document 02's Point 2 over the original, which has no supply: its loss of the records with each live branch written away from
//! the supply. The side of a branch is found by labels of the pieces that the others join, not by a walk.

use crate::driver::{Answer, Original};
use crate::reckoning::searches::Searches;
use crate::reckoning::{judge, Network};

/// The records with the live branches of a radial state written from the supply's side to the other; as they are where no supply
/// is named.
pub fn drawn(network: &Network, state: &[u8]) -> Network {
    let mut drawn = network.clone();
    let Some(supply) = network.supply else { return drawn };
    let live = network.live(state);
    let mut rest = live.clone();
    for k in (0..live.len()).filter(|&k| live[k]) {
        rest[k] = false;
        let labels = judge::labels(network, &rest);
        rest[k] = true;
        let branch = &mut drawn.branches[k];
        let holds = |end: usize| labels[end] == labels[supply];
        assert_ne!(holds(branch.from), holds(branch.to), "a live branch of a tree has one end on the supply's side");
        if holds(branch.to) {
            (branch.from, branch.to) = (branch.to, branch.from);
        }
    }
    drawn
}

/// The original's loss of a state; with a supply, of a radial one, as drawn.
pub fn loss(network: &Network, state: &[u8]) -> f64 {
    Original::new(&drawn(network, state)).loss(state)
}

/// The original's search; with a supply document 01's steps with the loss above. `check::agree` holds these very steps to the
/// original's searches where no supply is named.
pub fn solve(network: &Network) -> Answer {
    match network.supply {
        None => Original::new(network).solve(),
        Some(_) => stepped(network),
    }
}

/// Document 01's steps with the loss above.
pub fn stepped(network: &Network) -> Answer {
    let loss = |state: &[u8]| loss(network, state);
    let steps = Searches::with_loss(network, &loss);
    let answer = steps.solve();
    Answer { lines: steps.lines(&answer), best: answer.best }
}
