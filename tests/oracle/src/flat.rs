//! The original's sensitivities at flat voltage: all compare equal, so its stable sort keeps the path's order.

use crate::driver;
use original::network::bus::{Bus, BusType};
use original::network::reconfiguration::compute_branch_loss_sensitivity;
use original::network::topology::PowerNetwork;
use std::cmp::Ordering;

#[rustfmt::skip]
const RESISTANCES: [f64; 12] = [
    0.0, -0.0, 5e-324, f64::MIN_POSITIVE, 1e-160, 1e-9, 3.162_277_66e-8, 3.162_277_67e-8, 0.1, 1.0, 999.9, 1_000.0,
];
#[rustfmt::skip]
const REACTANCES: [f64; 14] = [
    0.0, -0.0, 5e-324, 1e-160, 3.162_277_66e-8, 3.162_277_67e-8, -0.4, 0.4, 1_000.0, 1e154, 1e200, f64::MAX,
    f64::INFINITY, f64::NAN,
];
const BASES: [f64; 3] = [0.001, 1.0, 1_000_000.0];

/// Every r of the range's corners with every x that a driver might give, own loops and out-of-service branches too.
pub fn all_equal() -> bool {
    let mut ranks = 0;
    let mut unequal = 0;
    for base_mva in BASES {
        let values = sensitivities(base_mva);
        for a in &values {
            for b in &values {
                ranks += 1;
                unequal += (order(*a, *b) != Ordering::Equal) as usize;
            }
        }
    }
    println!("{ranks} comparisons of sensitivities at flat voltage, {unequal} not equal");
    unequal == 0
}

/// As the original's sort compares them.
fn order(a: f64, b: f64) -> Ordering {
    b.partial_cmp(&a).unwrap_or(Ordering::Equal)
}

fn sensitivities(base_mva: f64) -> Vec<f64> {
    let mut network = PowerNetwork::new(base_mva);
    network.buses = vec![Bus::new(1, BusType::PQ), Bus::new(2, BusType::PQ)];
    for r in RESISTANCES {
        for x in REACTANCES {
            for (to, status) in [(2, true), (1, true), (2, false)] {
                let mut branch = driver::branch(1, to, r, status);
                branch.x = x;
                network.branches.push(branch);
            }
        }
    }
    compute_branch_loss_sensitivity(&network, &[1.0, 1.0], &[0.0, 0.0])
}
