//! The original's `solve`, `verify_radiality` and `evaluate_config` on the records of an accepted text.

use crate::reckoning::{Network, OPEN};
use original::network::branch::Branch;
use original::network::bus::{Bus, BusType};
use original::network::reconfiguration::{
    verify_radiality, NetworkConfiguration, NetworkReconfiguration, ReconfigAlgorithm, ReconfigConfig, ReconfigResult,
    Switch, SwitchAction,
};
use original::network::topology::PowerNetwork;
use original::units::Power;

/// The reactance of every branch: the text has none, and `flat.rs` shows that none matters.
pub const REACTANCE: f64 = 0.0;

pub struct Original {
    pub network: PowerNetwork,
    pub solver: NetworkReconfiguration,
}

pub struct Answer {
    /// The 81 line and the 82 lines.
    pub lines: String,
    pub best: Vec<u8>,
}

impl Original {
    pub fn new(records: &Network) -> Self {
        let mut network = PowerNetwork::new(records.base_mva);
        network.buses = records.buses.iter().map(|b| bus(b.id, b.pd)).collect();
        let id = |position: usize| records.buses[position].id;
        network.branches = records.branches.iter().map(|b| branch(id(b.from), id(b.to), b.r, b.in_service)).collect();
        let switches = records.switches.iter().map(|s| Switch {
            id: s.id.into(),
            branch_idx: s.branch,
            normally_open: s.normally_open,
            can_operate: s.can_operate,
        });
        let config = ReconfigConfig {
            switches: switches.collect(),
            max_iterations: records.max_iterations.into(),
            algorithm: algorithm(records.method),
            ..ReconfigConfig::default()
        };
        Self { network, solver: NetworkReconfiguration::new(config) }
    }

    pub fn solve(&self) -> Answer {
        let result = self.solver.solve(&self.network).expect("the original answers every accepted text");
        let best = &result.best_configuration;
        let bytes = self.solver.config.switches.iter().map(|s| best.open_switches.contains(&s.id) as u8).collect();
        assert_eq!(best.is_radial, verify_radiality(&self.network, best, &self.solver.config.switches));
        Answer { lines: lines(&result), best: bytes }
    }

    pub fn radial(&self, state: &[u8]) -> bool {
        verify_radiality(&self.network, &self.configuration(state), &self.solver.config.switches)
    }

    pub fn loss(&self, state: &[u8]) -> f64 {
        self.solver.evaluate_config(&self.network, &self.configuration(state)).expect("every open switch is listed")
    }

    pub fn configuration(&self, state: &[u8]) -> NetworkConfiguration {
        let switches = || self.solver.config.switches.iter().zip(state);
        NetworkConfiguration {
            open_switches: switches().filter(|(_, &byte)| byte == OPEN).map(|(s, _)| s.id).collect(),
            closed_switches: switches().filter(|(_, &byte)| byte != OPEN).map(|(s, _)| s.id).collect(),
            is_radial: false,
            n_islands: 0,
        }
    }
}

fn bus(id: u16, pd: f64) -> Bus {
    Bus { pd: Power(pd), ..Bus::new(id.into(), BusType::PQ) }
}

pub fn branch(from: u16, to: u16, r: f64, status: bool) -> Branch {
    Branch {
        from_bus: from.into(),
        to_bus: to.into(),
        r,
        x: REACTANCE,
        b: 0.0,
        rate_a: 0.0,
        rate_b: 0.0,
        rate_c: 0.0,
        tap: 0.0,
        shift: 0.0,
        status,
    }
}

fn algorithm(method: u8) -> ReconfigAlgorithm {
    match method {
        0 => ReconfigAlgorithm::BranchExchange,
        1 => ReconfigAlgorithm::TabuSearch,
        _ => ReconfigAlgorithm::Exhaustive,
    }
}

fn lines(result: &ReconfigResult) -> String {
    let mut lines = format!(
        "81{:02X}{:016X}{:016X}{:016X}{:04X}{:02X}\n",
        result.best_configuration.is_radial as u8,
        result.base_losses_mw.to_bits(),
        result.optimized_losses_mw.to_bits(),
        result.loss_reduction_pct.to_bits(),
        result.n_iterations,
        result.converged as u8
    );
    for operation in &result.switch_operations {
        let byte = match operation.action {
            SwitchAction::Open => 0,
            SwitchAction::Close => 1,
        };
        lines += &format!("82{:04X}{byte:02X}\n", operation.switch_id);
    }
    lines
}
