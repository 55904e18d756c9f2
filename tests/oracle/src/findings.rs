//! Where the original's comments are not what its code does, each with a small text that shows it, and what the original
//! does with records that document 01 refuses. Every entry is run and held against the output noted here.

use crate::driver::branch;
use crate::expected::expected;
use crate::feeder::{triangle, Feeder, OPERABLE, TIE};
use original::network::bus::{Bus, BusType};
use original::network::reconfiguration::{
    verify_radiality, NetworkConfiguration, NetworkReconfiguration, ReconfigAlgorithm, ReconfigConfig, Switch,
};
use original::network::topology::PowerNetwork;
use original::units::Power;

struct Finding {
    says: &'static str,
    does: &'static str,
    feeder: Feeder,
    prints: &'static str,
}

/// Whether every finding still shows.
pub fn print() -> bool {
    let mut good = true;
    for (number, finding) in on_texts().iter().enumerate() {
        let text = finding.feeder.text();
        let output = expected(&text).output();
        println!("**{}.** Comment: {}. Code: {}.", number + 1, finding.says, finding.does);
        println!("```\n{}```\nprints\n```\n{output}```\n", String::from_utf8_lossy(&text));
        if output != finding.prints {
            println!("NOT AS NOTED:\n{}", finding.prints);
            good = false;
        }
    }
    for (name, noted, observed) in on_records() {
        println!("- {name}: {observed}");
        if noted != observed {
            println!("NOT AS NOTED: {noted}");
            good = false;
        }
    }
    good
}

/// Buses with ids from 1 and these loads.
fn with_buses(method: u8, iterations: u16, loads: &[f64]) -> Feeder {
    let mut feeder = Feeder { base_mva: 1.0, method, iterations, ..Feeder::default() };
    loads.iter().enumerate().for_each(|(i, &pd)| feeder.bus(i as u16 + 1, pd));
    feeder
}

/// Bus 1 feeds bus 2 (1 MW) over branches of these resistances side by side.
fn side_by_side(method: u8, iterations: u16, resistances: &[f64], switches: &[(usize, u8)]) -> Feeder {
    let mut feeder = with_buses(method, iterations, &[0.0, 1.0]);
    resistances.iter().for_each(|&r| feeder.branch(1, 2, r));
    switches.iter().enumerate().for_each(|(i, &(k, flags))| feeder.switch(i as u16 + 1, k, flags));
    feeder
}

fn on_texts() -> Vec<Finding> {
    [of_solve(), of_exchange(), of_a_round(), of_tabu_and_exhaustive(), of_loss(), of_ends()]
        .into_iter()
        .flatten()
        .collect()
}

fn of_solve() -> Vec<Finding> {
    vec![
        Finding {
            says: "solve: \"Returns an error if the base configuration is infeasible (non-radial or disconnected)\"; is_radial: \"forms a tree (no cycles)\"",
            does: "any base is answered; a base without a cycle that isn't connected is not radial",
            feeder: with_buses(0, 100, &[0.0, 0.0]),
            prints: "8100000000000000000000000000000000000000000000000000000101\n840001FFFF\n",
        },
        Finding {
            says: "converged: \"Whether the algorithm converged within `max_iterations`\"",
            does: "the exchange that ends for want of an improvement in its last allowed round has not converged",
            feeder: with_buses(0, 1, &[]),
            prints: "8101000000000000000000000000000000000000000000000000000100\n840000FFFF\n",
        },
        Finding {
            says: "n_iterations: \"Number of iterations (or SA steps) actually performed\"",
            does: "the tabu search reports max_iterations, though it ended in its first round",
            feeder: with_buses(1, 100, &[]),
            prints: "8101000000000000000000000000000000000000000000000000006401\n840000FFFF\n",
        },
        Finding {
            says: "the same, and max_iterations: \"Maximum number of outer iterations\"",
            does: "the exhaustive search reports its number of radial states and heeds no maximum",
            feeder: with_buses(2, 0, &[]),
            prints: "8101000000000000000000000000000000000000000000000000000101\n840000FFFF\n",
        },
        Finding {
            says: "switch_operations: \"List of switch operations that transform the base config to the best\"",
            does: "in switch order: carried out one by one it may open before it closes (document 01's triangle)",
            feeder: triangle(),
            prints: "810140100000000000003FF00000000000004052C00000000000000201\n840000FFFF\n82000A00\n82000B01\n8601000B01000A\n",
        },
    ]
}

fn of_exchange() -> Vec<Finding> {
    let triangle_of = |resistances: [f64; 3]| {
        let mut feeder = with_buses(0, 100, &[0.0, 1.0, 1.0]);
        [(1, 2), (2, 3), (1, 3)].iter().zip(resistances).for_each(|(&(from, to), r)| feeder.branch(from, to, r));
        feeder.switch(1, 0, OPERABLE);
        feeder.switch(2, 1, OPERABLE);
        feeder.switch(3, 2, OPERABLE | TIE);
        feeder
    };
    vec![
        Finding {
            says: "BranchExchange: \"open the highest-loss branch in the created loop\"; branch_exchange_step, 3: \"Find the branch in the loop with the highest loss sensitivity\"",
            does: "at flat voltage every sensitivity is zero and the sort keeps the path's order: branch 0 (it loses 0.8) is opened for a loss of 1.4; branch 1 (it loses 1) would give 0.3",
            feeder: triangle_of([0.2, 1.0, 0.1]),
            prints: "81013FFCCCCCCCCCCCCD3FF6666666666666403638E38E38E390000201\n840000FFFF\n82000100\n82000301\n86010003010001\n",
        },
        Finding {
            says: "\"Take the first improving exchange and break (Merlin-Back style)\"; BranchExchange: \"(fast, locally optimal)\"",
            does: "the break comes after the first radial exchange, improving or not: opening branch 1 would take the loss from 1 to 0.5, it is not tried, and the answer is one exchange away from a better state",
            feeder: triangle_of([0.0, 1.0, 0.5]),
            prints: "81013FF00000000000003FF00000000000000000000000000000000101\n840000FFFF\n",
        },
    ]
}

fn of_a_round() -> Vec<Finding> {
    let mut dead_tie = side_by_side(0, 100, &[1.0, 0.5, 0.0], &[(0, OPERABLE), (2, OPERABLE | TIE)]);
    dead_tie.branches[2].status = 0;
    vec![
        Finding {
            says: "branch_exchange_step, 4: \"apply the exchange and return\"; best_improvement",
            does: "all ties are tried and the last improving one wins, neither the first nor the best: tie 3 (loss 0.75) goes before tie 2 (0.5)",
            feeder: side_by_side(0, 1, &[1.0, 0.5, 0.75], &[(0, OPERABLE), (1, OPERABLE | TIE), (2, OPERABLE | TIE)]),
            prints: "81013FF00000000000003FE80000000000004039000000000000000100\n840000FFFF\n82000100\n82000301\n86010003010001\n",
        },
        Finding {
            says: "branch_exchange_step, 1: \"Temporarily close it → creates one loop in the graph\"; find_loop_branches_closed_tie: \"the unique loop\"",
            does: "a tie out of service makes no loop, yet a path between its ends is walked: from a base with one loop the exchange closes the dead tie and opens a section",
            feeder: dead_tie,
            prints: "81013FF80000000000003FE00000000000004050AAAAAAAAAAAA000201\n840000FFFF\n82000100\n82000201\n",
        },
        Finding {
            says: "branch_exchange_step, 4: \"If opening that branch (and closing the tie) reduces total losses\"",
            does: "a reduction of 1e-9 MW or less doesn't count",
            feeder: side_by_side(0, 100, &[1e-9, 0.0], &[(0, OPERABLE), (1, OPERABLE | TIE)]),
            prints: "81013E112E0BE826D6953E112E0BE826D6950000000000000000000101\n840000FFFF\n",
        },
    ]
}

fn of_tabu_and_exhaustive() -> Vec<Finding> {
    let section_and_tie = [(0, OPERABLE), (1, OPERABLE | TIE)];
    let mut locked = with_buses(2, 0, &[0.0, 1.0]);
    locked.branch(1, 2, 0.5);
    locked.switch(1, 0, TIE);
    let mut in_pieces = with_buses(2, 0, &[0.0, 1.0, 1.0]);
    in_pieces.branch(1, 2, 1.0);
    in_pieces.branch(1, 3, 1.0);
    in_pieces.switch(1, 1, OPERABLE | TIE);
    vec![
        Finding {
            says: "enumerate_radial_configs: \"choosing exactly one switch to open from each fundamental loop\"; Exhaustive: \"enumerate all radial spanning trees\"; of a section switch: \"include in open set if bit not set\"",
            does: "only normally open switches are toggled, no section is ever opened: the tree with the tie closed and the section open is never looked at",
            feeder: side_by_side(2, 0, &[1.0, 0.5], &section_and_tie),
            prints: "81013FF00000000000003FF00000000000000000000000000000000101\n840000FFFF\n",
        },
        Finding {
            says: "TabuSearch: \"deterministic local search escaping local minima\"",
            does: "one toggle of a live branch leaves no tree: from a radial base the answer is the base, whatever there is to gain",
            feeder: side_by_side(1, 100, &[1.0, 0.5], &section_and_tie),
            prints: "81013FF00000000000003FF00000000000000000000000000000006401\n840000FFFF\n",
        },
        Finding {
            says: "Switch::can_operate: \"`false` means the switch is locked out (cannot be operated)\"",
            does: "the exhaustive search closes locked ties",
            feeder: locked,
            prints: "810100000000000000003FE00000000000000000000000000000000101\n840000FFFF\n82000101\n",
        },
        Finding {
            says: "loss_reduction_pct: \"Percentage reduction in losses\"; best_configuration: \"The optimal switch configuration found\"",
            does: "from a base that isn't radial the exhaustive search's answer may lose more than the base: the reduction is negative",
            feeder: in_pieces,
            prints: "81013FF00000000000004000000000000000C059000000000000000101\n840000FFFF\n82000101\n",
        },
    ]
}

fn of_loss() -> Vec<Finding> {
    let mut turned = with_buses(0, 0, &[0.0, 1.0]);
    turned.branch(2, 1, 0.5);
    vec![
        Finding {
            says: "compute_losses_estimate: \"For each energised branch: P_loss ≈ R × (P²_load_downstream / V²_nominal)\"",
            does: "downstream is the to side, whichever end the supply is at: here bus 1 without load, so nothing is lost",
            feeder: turned,
            prints: "8101000000000000000000000000000000000000000000000000000000\n840000FFFF\n",
        },
        Finding {
            says: "downstream_load_mw: \"not traversing back through `parent_bus` (to avoid double-counting in loops)\"",
            does: "in a loop each branch carries the whole load: two branches side by side lose twice what one loses, not half",
            feeder: side_by_side(0, 0, &[0.5, 0.5], &[]),
            prints: "81003FF00000000000003FF00000000000000000000000000000000000\n8400000001\n",
        },
    ]
}

fn of_ends() -> Vec<Finding> {
    let mut against = with_buses(0, 0, &[0.0, 0.0, 1.0]);
    against.branch(1, 2, 0.5);
    against.branch(3, 2, 0.0);
    vec![
        Finding {
            says: "compute_losses_estimate: \"(directed: from→to of the branch defines feeder flow direction)\"",
            does: "the map goes both ways: the load of bus 3 reaches branch 0 against the direction of branch 1",
            feeder: against,
            prints: "81013FE00000000000003FE00000000000000000000000000000000000\n840000FFFF\n",
        },
        Finding {
            says: "branch_exchange_solve: \"to completion\"",
            does: "it ends at max_iterations, here before its first round, whatever there is to gain",
            feeder: side_by_side(0, 0, &[1.0, 0.5], &[(0, OPERABLE), (1, OPERABLE | TIE)]),
            prints: "81013FF00000000000003FF00000000000000000000000000000000000\n840000FFFF\n",
        },
        Finding {
            says: "converged: \"Whether the algorithm converged within `max_iterations`\"",
            does: "tabu and the exhaustive search have always converged, tabu with no round at all too",
            feeder: with_buses(1, 0, &[]),
            prints: "8101000000000000000000000000000000000000000000000000000001\n840000FFFF\n",
        },
        Finding {
            says: "loss_reduction_pct: \"(base − opt) / base × 100\"",
            does: "it is 0 when the base loses 1e-12 MW or less: here all of it is saved",
            feeder: side_by_side(1, 1, &[1e-12, 0.0], &[(0, OPERABLE)]),
            prints: "81013D719799812DEA1100000000000000000000000000000000000101\n840000FFFF\n82000100\n",
        },
    ]
}

type RecordFinding = (&'static str, &'static str, String);

/// What the original does with records that document 01 refuses, or with items that it drops.
fn on_records() -> Vec<RecordFinding> {
    let mut findings = vec![
        ("three buses without a branch (two islands beside the main one), n_islands", "1", islands(&[1, 2, 3], &[])),
        ("a bus with a branch to itself (no islands), n_islands", "1", islands(&[1], &[(1, 1)])),
        ("the same with 1 MW and r 0.5: verify_radiality, loss", "false, 0.5", own_loop()),
        ("buses 1 and 2, a branch from 1 to an unlisted 9: verify_radiality", "true", unlisted_end()),
        ("the same: degree and neighbors of 9", "1, [1]", unlisted_neighbors()),
        ("a bus id twice, with 1 MW and with 5 MW: loss of a branch to it, verify_radiality", "1, false", bus_twice()),
        ("two switches of one id on branches 0 and 1, the id open: live branches 0, 1", "false, true", id_twice()),
        ("a switch on a branch position not below the count, open: loss as without it", "true", no_such_branch()),
        ("eleven ties, exhaustive", "invalid parameter", eleven_ties()),
        ("base_mva 0: loss", "NaN", base_zero()),
        ("a total load of 1e-13 MW: reserve_margin", "inf", small_load()),
    ];
    findings.extend(on_floats());
    findings.extend(on_three_switches());
    findings
}

/// A section and beside it a tie that loses nothing: the losses of base and answer, and the reduction.
fn on_floats() -> [RecordFinding; 3] {
    [
        (
            "a section beside a tie that loses nothing, exchange, a NaN load: losses, reduction",
            "NaN, NaN, 0",
            exchanged(f64::NAN, 1.0),
        ),
        ("the same with a NaN resistance of the section", "NaN, NaN, 0", exchanged(1.0, f64::NAN)),
        ("the same with an infinite resistance of the section", "inf, 0, NaN", exchanged(1.0, f64::INFINITY)),
    ]
}

fn on_three_switches() -> [RecordFinding; 2] {
    let switches = || vec![switch(1, 0, false), switch(2, 0, false), switch(3, 1, true), switch(4, 0, false)];
    let mut network = network(&[1, 2], &[(1, 2), (1, 2)], 1.0);
    network.branches[0].r = 1.0;
    let radial = [vec![3], vec![1, 3], vec![2, 3], vec![3, 4]]
        .map(|open| verify_radiality(&network, &opening(open), &switches()).to_string());
    let result = solver(ReconfigAlgorithm::BranchExchange, switches()).solve(&network);
    let operations = result.map_or(vec![], |result| result.switch_operations);
    let moved: Vec<String> =
        operations.iter().map(|operation| format!("{:?} {}", operation.action, operation.switch_id)).collect();
    [
        (
            "switches 1, 2 and 4 on a branch, beside it a tie 3: radial with 3 open, 1 and 3, 2 and 3, 4 and 3",
            "true, false, false, false",
            radial.join(", "),
        ),
        ("the same, exchange: operations", "Open 1, Close 3", moved.join(", ")),
    ]
}

fn network(ids: &[usize], ends: &[(u16, u16)], base_mva: f64) -> PowerNetwork {
    let mut network = PowerNetwork::new(base_mva);
    network.buses = ids.iter().map(|&id| Bus { pd: Power(1.0), ..Bus::new(id, BusType::PQ) }).collect();
    network.branches = ends.iter().map(|&(from, to)| branch(from, to, 0.0, true)).collect();
    network
}

fn switch(id: usize, branch_idx: usize, normally_open: bool) -> Switch {
    Switch { id, branch_idx, normally_open, can_operate: true }
}

fn solver(algorithm: ReconfigAlgorithm, switches: Vec<Switch>) -> NetworkReconfiguration {
    NetworkReconfiguration::new(ReconfigConfig { switches, algorithm, ..ReconfigConfig::default() })
}

fn opening(open_switches: Vec<usize>) -> NetworkConfiguration {
    NetworkConfiguration { open_switches, closed_switches: vec![], is_radial: false, n_islands: 0 }
}

fn islands(ids: &[usize], ends: &[(u16, u16)]) -> String {
    let result = solver(ReconfigAlgorithm::BranchExchange, vec![]).solve(&network(ids, ends, 1.0));
    result.map_or("an error".to_string(), |result| result.best_configuration.n_islands.to_string())
}

fn own_loop() -> String {
    let mut network = network(&[1], &[(1, 1)], 1.0);
    network.branches[0].r = 0.5;
    let loss = solver(ReconfigAlgorithm::BranchExchange, vec![]).evaluate_config(&network, &opening(vec![]));
    format!("{}, {}", verify_radiality(&network, &opening(vec![]), &[]), loss.unwrap_or(f64::NAN))
}

fn unlisted_end() -> String {
    verify_radiality(&network(&[1, 2], &[(1, 9)], 1.0), &opening(vec![]), &[]).to_string()
}

fn unlisted_neighbors() -> String {
    let network = network(&[1, 2], &[(1, 9)], 1.0);
    format!("{}, {:?}", network.degree(9), network.neighbors(9))
}

fn bus_twice() -> String {
    let mut network = network(&[1, 2, 2], &[(1, 2)], 1.0);
    network.buses[2].pd = Power(5.0);
    network.branches[0].r = 1.0;
    let loss = solver(ReconfigAlgorithm::BranchExchange, vec![]).evaluate_config(&network, &opening(vec![]));
    format!("{}, {}", loss.unwrap_or(f64::NAN), verify_radiality(&network, &opening(vec![]), &[]))
}

/// A tree of one branch tells which of the two is live.
fn id_twice() -> String {
    let switches = vec![switch(1, 0, true), switch(1, 1, true)];
    let live = |ends: [(u16, u16); 2]| verify_radiality(&network(&[1, 2], &ends, 1.0), &opening(vec![1]), &switches);
    format!("{}, {}", live([(1, 2), (1, 1)]), live([(1, 1), (1, 2)]))
}

fn no_such_branch() -> String {
    let network = network(&[1, 2], &[(1, 2)], 1.0);
    let solver = solver(ReconfigAlgorithm::BranchExchange, vec![switch(1, 7, true)]);
    let losses = [vec![1], vec![]].map(|open| solver.evaluate_config(&network, &opening(open)).unwrap_or(f64::NAN));
    (losses[0] == losses[1]).to_string()
}

fn eleven_ties() -> String {
    let switches = (0..11).map(|i| switch(i, i, true)).collect();
    match solver(ReconfigAlgorithm::Exhaustive, switches).solve(&network(&[1], &[], 1.0)) {
        Err(original::error::OxiGridError::InvalidParameter(_)) => "invalid parameter".to_string(),
        _ => "something else".to_string(),
    }
}

fn base_zero() -> String {
    let network = network(&[1, 2], &[(1, 2)], 0.0);
    let loss = solver(ReconfigAlgorithm::BranchExchange, vec![]).evaluate_config(&network, &opening(vec![]));
    loss.map_or("an error".to_string(), |loss| loss.to_string())
}

fn small_load() -> String {
    let mut network = network(&[1], &[], 1.0);
    network.buses[0].pd = Power(1e-13);
    network.reserve_margin().to_string()
}

fn exchanged(load: f64, r: f64) -> String {
    let mut network = network(&[1, 2], &[(1, 2), (1, 2)], 1.0);
    network.buses[1].pd = Power(load);
    network.branches[0].r = r;
    let switches = vec![switch(1, 0, false), switch(2, 1, true)];
    match solver(ReconfigAlgorithm::BranchExchange, switches).solve(&network) {
        Ok(result) => {
            format!("{}, {}, {}", result.base_losses_mw, result.optimized_losses_mw, result.loss_reduction_pct)
        }
        Err(_) => "an error".to_string(),
    }
}
