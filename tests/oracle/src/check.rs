//! Document 01's worked examples on the original, those of document 02's Points 2, 4, 5, 6 and 7, and document 01's steps against the original.

use crate::cases::{Case, Cases};
use crate::compare::{Right, Tally};
use crate::driver::Original;
use crate::ends::triangle_of_four;
use crate::expected::{expected, Expected};
use crate::feeder::{triangle, Feeder, OPERABLE, TIE};
use crate::forms::{self, joined};
use crate::loops::triangle_with_own_loop;
use crate::reckoning::form::{self, Form};
use crate::reckoning::resume::Move;
use crate::reckoning::searches::Searches;
use crate::reckoning::{judge, plan, reader, resume, Network, Refusal, CLOSED, OPEN};
use crate::shapes::SHAPES;
use crate::{repairs, supply};

/// Document 01's lines, document 02's "840000FFFF for the triangle", and the frame 86 in place of 83.
pub const TRIANGLE: &str =
    "810140100000000000003FF00000000000004052C00000000000000201\n840000FFFF\n82000A00\n82000B01\n8601000B01000A\n";

/// The triangle's five lines, the section Triangle's marked cases, the refusal table's examples, the 05 line's, and the forms of states.
pub fn worked_examples() -> bool {
    let mut failed = 0;
    let mut check = |name: &str, holds: bool| {
        println!("{}  {name}", if holds { "ok    " } else { "FAILED" });
        failed += !holds as usize;
    };
    check(
        "triangle prints document 01's lines, the 84 line and the 86 line",
        expected(&triangle().text()).output() == TRIANGLE,
    );
    for (name, feeder, state, form, loss) in states() {
        let network = network(&feeder);
        let radial = Original::new(&network).radial(&state) == (form == Form::Tree);
        let formed = form::form(&network, &network.live(&state)) == form;
        check(name, radial && formed && loss.is_none_or(|loss| supply::loss(&network, &state) == loss));
    }
    for (name, feeder, fields) in forms::named() {
        let output = expected(&feeder.text()).output();
        check(name, output.split_inclusive('\n').nth(1).is_some_and(|second| second == form::line(fields)));
    }
    for (name, feeder, line) in searches() {
        check(name, expected(&feeder.text()).output().starts_with(&line));
    }
    for (name, text, line) in refusals() {
        check(name, expected(&text).output() == line);
    }
    for (name, feeder, output) in supplies() {
        check(name, expected(&feeder).output() == output);
    }
    for (name, text, new, stored) in own_loops() {
        check(name, expected(&text).output() == new && repairs::expected(&text).output() == stored);
    }
    for (name, found, line) in plan_refusals() {
        check(name, found.is_err_and(|refusal| refusal.line() == line));
    }
    check("a set without two switches on a branch is too small", Tally::default().too_few(&[("none", 1)]).len() == 1);
    for (name, holds) in cut_plans().into_iter().chain(two_on_a_branch()) {
        check(name, holds);
    }
    failed == 0
}

fn network(feeder: &Feeder) -> Network {
    reader::read(&feeder.text()).expect("a worked example is acceptable")
}

type StateCase = (&'static str, Feeder, Vec<u8>, Form, Option<f64>);

/// The marked cases on states: what the live branches are, and the loss where document 01 gives one.
fn states() -> Vec<StateCase> {
    let turned = turned_triangle();
    let supplied = |supply, feeder: Feeder| Feeder { supply: Some(supply), ..feeder };
    let closed_by = |branch| Form::Loop { branch, islands: 0 };
    vec![
        ("no buses: a tree, loss 0", joined(0, &[]), vec![], Form::Tree, Some(0.0)),
        ("one bus: a tree", joined(1, &[]), vec![], Form::Tree, None),
        ("two buses, one branch: a tree", joined(2, &[(1, 2)]), vec![], Form::Tree, None),
        ("two parallel: loop 1", joined(2, &[(1, 2), (1, 2)]), vec![], closed_by(1), None),
        ("triangle base loss 4", triangle(), vec![0, 1], Form::Tree, Some(4.0)),
        ("exchanged 1", triangle(), vec![1, 0], Form::Tree, Some(1.0)),
        ("all closed: loop 2, loss 5.6875", triangle(), vec![0, 0], closed_by(2), Some(5.6875)),
        ("branch 0 turned: base loss 1.75", turned.clone(), vec![0, 1], Form::Tree, Some(1.75)),
        ("supply 1: base loss 4", supplied(1, triangle()), vec![0, 1], Form::Tree, Some(4.0)),
        ("branch 0 turned, supply 1: base loss 4", supplied(1, turned.clone()), vec![0, 1], Form::Tree, Some(4.0)),
        ("supply 2: base loss 1.75", supplied(2, triangle()), vec![0, 1], Form::Tree, Some(1.75)),
        ("branch 0 turned, supply 3: base loss 0.4375", supplied(3, turned), vec![0, 1], Form::Tree, Some(0.4375)),
    ]
}

/// Document 01's triangle with branch 0 drawn the other way.
fn turned_triangle() -> Feeder {
    let mut turned = triangle();
    (turned.branches[0].from, turned.branches[0].to) = (2, 1);
    turned
}

/// Texts with the 05 line and what is printed.
fn supplies() -> Vec<(&'static str, Vec<u8>, &'static str)> {
    let with = |supply, feeder: Feeder| Feeder { supply: Some(supply), ..feeder }.text();
    let empty = Feeder { base_mva: 1.0, ..Feeder::default() };
    let mut looped = triangle();
    looped.switches[1].flags = OPERABLE;
    let stays = "81013FDC0000000000003FDC0000000000000000000000000000000101\n840000FFFF\n";
    vec![
        ("branch 0 turned, supply 1: the triangle's lines", with(1, turned_triangle()), TRIANGLE),
        ("supply 3: base loss 0.4375, nothing is moved", with(3, triangle()), stays),
        ("14: supply 9 of buses 1 to 3", with(9, triangle()), "8F0E000A\n"),
        ("14: no buses", with(1, empty), "8F0E0002\n"),
        ("15: triangle all closed", with(1, looped.clone()), "8F0F000A\n"),
        ("14 before 15", with(9, looped), "8F0E000A\n"),
        ("2: a second 05 line", [with(1, triangle()), b"050001\n".to_vec()].concat(), "8F02000B\n"),
    ]
}

/// The marked cases on searches, with the beginning of the output.
fn searches() -> Vec<(&'static str, Feeder, String)> {
    let line = |best: f64, iterations: u16, converged: u8| {
        let reduction: f64 = (4.0 - best) / 4.0 * 100.0;
        let bits = [4.0f64.to_bits(), best.to_bits(), reduction.to_bits()];
        format!("8101{:016X}{:016X}{:016X}{iterations:04X}{converged:02X}\n840000FFFF\n", bits[0], bits[1], bits[2])
    };
    let with = |method, iterations| Feeder { method, iterations, ..triangle() };
    vec![
        ("exchange with 0 rounds: base, 0, not converged", with(0, 0), line(4.0, 0, 0)),
        ("exchange with 1: loss 1, 1, not", with(0, 1), line(1.0, 1, 0)),
        ("exchange with 2: 2, not", with(0, 2), line(1.0, 2, 0)),
        ("exchange with 3: 2, converged", with(0, 3), line(1.0, 2, 1)),
        ("exhaustive: base, count 1", with(2, 100), line(4.0, 1, 1)),
        ("tabu with 100: base, 100, converged", with(1, 100), line(4.0, 100, 1)),
    ]
}

/// The examples of rows 1 to 9, and the passing side of the two limits that document 01 spells out.
fn refusals() -> Vec<(&'static str, Vec<u8>, &'static str)> {
    let changed = |change: fn(&mut Feeder)| {
        let mut feeder = triangle();
        change(&mut feeder);
        feeder.text()
    };
    let none_lost = "8101000000000000000000000000000000000000000000000000000101\n840000FFFF\n";
    let not_radial = "8100000000000000000000000000000000000000000000000000000000\n8400FFFFFF\n";
    vec![
        ("1: 0G", b"0G\n".to_vec(), "8F010001\n"),
        ("2: empty text, line 1", vec![], "8F020001\n"),
        ("3: status 02", changed(|f| f.branches[0].status = 2), "8F030005\n"),
        ("4: 0101 buses", buses(0x101), "8F040001\n"),
        ("256 buses pass", buses(0x100), not_radial),
        ("5: pd 7FF0000000000000", changed(|f| f.buses[0].pd = f64::INFINITY), "8F050002\n"),
        ("6: end 0009 of buses 1 to 3", changed(|f| f.branches[1].to = 9), "8F060006\n"),
        ("7: bus 0001 again", changed(|f| f.buses[1].id = 1), "8F070003\n"),
        ("8: three switches on 0000", three_on_branch(14), "8F08000A\n"),
        ("7 before 8: a third with an id twice", three_on_branch(10), "8F07000A\n"),
        ("8 before 9: the eleventh tie as a third", eleventh_on(0), "8F080014\n"),
        ("9: the eleventh tie", eleventh_on(5), "8F090014\n"),
        ("9: eleven ties", ties(11), "8F09001A\n"),
        ("17: one bus, own loop", joined(1, &[(1, 1)]).text(), "8F110003\n"),
        ("ten ties pass", ties(10), none_lost),
    ]
}

type OwnLoopCase = (&'static str, Vec<u8>, &'static str, String);

/// Document 02's Point 7: what `feeder` and what `repair` print.
fn own_loops() -> Vec<OwnLoopCase> {
    let seventeen = "8F110006\n";
    let with = |supply, change: fn(&mut Feeder)| {
        let mut feeder = Feeder { supply, ..triangle_with_own_loop() };
        change(&mut feeder);
        feeder.text()
    };
    let left = |supply| {
        let text = Feeder { supply, ..triangle() }.text();
        String::from_utf8(text).expect("digits") + "87000601\n87000A02\n"
    };
    let line = |line: &str| line.to_string();
    let unchanged = String::from_utf8(triangle().text()).expect("digits");
    let one_bus = "010001000000003FF0000000000000000000\n0200013FF0000000000000\n87000301\n";
    vec![
        ("repair: the triangle", with(None, |_| ()), seventeen, left(None)),
        ("repair: its 05 line stays", with(Some(1), |_| ()), seventeen, left(Some(1))),
        ("repair: out of service", with(None, |f| f.branches[1].status = 0), seventeen, left(None)),
        ("repair: 15 stays", with(Some(1), |f| f.switches[2].flags = OPERABLE), seventeen, line("8F0F000C\n")),
        ("repair: 14", with(Some(9), |_| ()), seventeen, line("8F0E000C\n")),
        ("repair: one bus", joined(1, &[(1, 1)]).text(), "8F110003\n", line(one_bus)),
        ("repair: 3 of an own loop", with(None, |f| f.branches[1].status = 2), "8F030006\n", line("8F030006\n")),
        ("repair: 5 of an own loop", with(None, |f| f.branches[1].r = -1.0), "8F050006\n", line("8F050006\n")),
        ("repair: 6 of an own loop", with(None, unlisted), "8F060006\n", line("8F060006\n")),
        (
            "repair: an id twice, one to be dropped",
            with(None, |f| f.switches[2].id = 12),
            seventeen,
            line("8F07000B\n"),
        ),
        ("repair: a third switch to be dropped", with(None, thirds), seventeen, line("8F08000B\n")),
        ("repair: nothing to drop", triangle().text(), TRIANGLE, unchanged),
    ]
}

fn unlisted(feeder: &mut Feeder) {
    (feeder.branches[1].from, feeder.branches[1].to) = (9, 9);
}

fn thirds(feeder: &mut Feeder) {
    feeder.switches.iter_mut().for_each(|switch| switch.branch = 1);
}

fn buses(count: u16) -> Vec<u8> {
    let mut feeder = Feeder { base_mva: 1.0, method: 0, iterations: 0, ..Feeder::default() };
    (0..count).for_each(|id| feeder.bus(id, 0.0));
    feeder.text()
}

/// The triangle with all its switches and one more, of that id, on branch 0.
fn three_on_branch(id: u16) -> Vec<u8> {
    let mut feeder = triangle();
    feeder.switch(id, 0, OPERABLE);
    feeder.switches.iter_mut().for_each(|s| s.branch = 0);
    feeder.text()
}

/// Two buses with six branches between them, ten ties two by two, and an eleventh on that branch, exhaustive.
fn eleventh_on(branch: usize) -> Vec<u8> {
    let mut feeder = Feeder { base_mva: 1.0, method: 2, iterations: 0, ..Feeder::default() };
    (1..=2).for_each(|id| feeder.bus(id, 0.0));
    (0..6).for_each(|_| feeder.branch(1, 2, 0.0));
    (0..10).for_each(|i| feeder.switch(i, usize::from(i) / 2, TIE));
    feeder.switch(10, branch, TIE);
    feeder.text()
}

/// Two buses joined by that many normally open branches and one more, exhaustive.
fn ties(count: u16) -> Vec<u8> {
    let mut feeder = Feeder { base_mva: 1.0, method: 2, iterations: 0, ..Feeder::default() };
    (1..=2).for_each(|id| feeder.bus(id, 0.0));
    (0..=count).for_each(|_| feeder.branch(1, 2, 0.0));
    (0..count).for_each(|k| feeder.switch(k, k.into(), TIE));
    feeder.text()
}

type PlanCase = (&'static str, Result<Vec<plan::Pair>, Refusal>, &'static str);

/// The examples of rows 10 to 13 with both places, and their order.
fn plan_refusals() -> Vec<PlanCase> {
    let open = network(&triangle());
    let mut with_lock = triangle();
    with_lock.switches[0].flags = 0;
    let locked = network(&with_lock);
    let (base, exchanged, closed, bad) = ([0, 1], [1, 0], [0, 0], [2, 0]);
    vec![
        ("10: present state 02", plan::plan(&open, &bad, &base, 99), "8F0A0000\n"),
        ("10: wanted state 02, present not radial", plan::plan(&open, &closed, &bad, 99), "8F0A0001\n"),
        ("11: present, triangle all closed", plan::plan(&open, &closed, &base, 99), "8F0B0000\n"),
        ("11: wanted, triangle all closed", plan::plan(&locked, &base, &closed, 0), "8F0B0001\n"),
        ("12: switch 10 locked", plan::plan(&locked, &base, &exchanged, 0), "8F0C000A\n"),
        ("13: no room for a pair", plan::plan(&open, &base, &exchanged, 14), "8F0D0000\n"),
    ]
}

/// Document 02's Point 4 on the triangle, whose plan closes switch 11 and opens switch 10; moves that the judge must refuse.
fn cut_plans() -> Vec<(&'static str, bool)> {
    let network = network(&triangle());
    let (base, exchanged) = ([CLOSED, OPEN], [OPEN, CLOSED]);
    let moves = resume::moves(&plan::plan(&network, &base, &exchanged, 15).expect("the triangle has a plan"));
    let lists = |count| {
        let lines = |lists: [Vec<Move>; 2]| lists.map(|list| resume::lines(&network, &list).replace('\n', " "));
        resume::resume(&moves, count).map(lines)
    };
    let listed = |count, remaining: &str, back: &str| lists(count).is_ok_and(|lists| lists == [remaining, back]);
    let refused = |count| lists(count).is_err_and(|refusal| refusal.line() == "8F100000\n");
    let fault = |moves: &[Move]| judge::fault_of_moves(&network, &base, &exchanged, moves).unwrap_or_default();
    let [closing, opening] = moves[..] else { return vec![("the triangle's plan has two moves", false)] };
    vec![
        ("no move done: all remain", listed(0, "82000B01 82000A00 ", "")),
        ("one done, the loop is closed: open 10, or open 11", listed(1, "82000A00 ", "82000B00 ")),
        ("both done: close 10, open 11", listed(2, "", "82000A01 82000B00 ")),
        ("16: 3 of 2 moves", refused(3)),
        ("16: 65,536 and 2^64 - 1 of 2 moves", refused(1 << 16) && refused(u64::MAX)),
        ("the judge passes the two moves", fault(&moves).is_empty()),
        ("the judge: opened first", fault(&[opening, closing]) == "1 moves done: a bus is cut off"),
        ("the judge: not opened", fault(&[closing]).ends_with("finishing does not reach the wanted live branches")),
        ("the judge: two pairs", two_pairs([0, 1, 2, 3]).is_none()),
        (
            "the judge: both closings first",
            two_pairs([0, 2, 1, 3])
                .is_some_and(|fault| fault == "1 moves done: the live branches are not one fewer than the buses"),
        ),
        (
            "the judge: openings exchanged",
            two_pairs([0, 3, 2, 1]).is_some_and(|fault| fault == "2 moves done: a bus is cut off"),
        ),
    ]
}

/// Document 02's Point 6: the triangle with two ties, 12 and 11, on branch 2, and on branch 1 section 10 and the locked section 13.
fn two_on_a_branch() -> Vec<(&'static str, bool)> {
    let with = |method| Feeder { method, ..triangle_of_four() };
    let network = network(&with(0));
    let (base, exchanged, both) = ([1, 0, 1, 0], [0, 1, 0, 0], [0, 1, 0, 1]);
    let plan = |wanted: &[u8], room| plan::plan(&network, &base, wanted, room);
    let pairs = plan(&exchanged, 19).unwrap_or_default();
    let moves = resume::moves(&pairs);
    let listed = |moves: &[Move]| resume::lines(&network, moves).replace('\n', " ");
    let back = resume::resume(&moves, 3).map(|[_, back]| listed(&back));
    let form_after = |count: usize| {
        let mut state = base;
        moves[..count].iter().for_each(|one| state[one.switch] = one.byte);
        form::form(&network, &network.live(&state))
    };
    let looped = Form::Loop { branch: 2, islands: 0 };
    let refused = |found: Result<Vec<plan::Pair>, Refusal>, line| found.is_err_and(|refusal| refusal.line() == line);
    let stays = |method, end: &str| {
        let answer = format!("8101401000000000000040100000000000000000000000000000{end}\n840000FFFF\n");
        expected(&with(method).text()).output() == answer
    };
    let mut fifth = with(0);
    fifth.switch(14, 2, OPERABLE);
    vec![
        (
            "two ties of one branch are closed, one of two sections opened",
            plan::lines(&network, &pairs) == "8602000C000B01000A\n",
        ),
        ("its three moves", listed(&moves) == "82000C01 82000B01 82000A00 "),
        ("its moves back", back == Ok("82000A01 82000B00 82000C00 ".to_string())),
        (
            "a tree but at count 2, there a loop",
            [0, 1, 2, 3].map(form_after) == [Form::Tree, Form::Tree, looped, Form::Tree],
        ),
        ("the judge passes its moves", judge::fault_of_moves(&network, &base, &exchanged, &moves).is_none()),
        ("the judge passes its pair", judge::fault(&network, &base, &exchanged, &pairs).is_none()),
        ("13: a byte short", refused(plan(&exchanged, 18), "8F0D0000\n")),
        ("12: switch 13 locked and to be moved", refused(plan(&both, 0), "8F0C000D\n")),
        ("exchange: the base, 1 round, converged", stays(0, "000101")),
        ("tabu: the base, 100", stays(1, "006401")),
        ("exhaustive: the base, count 3", stays(2, "000301")),
        ("8: a fifth switch, the third on branch 2", expected(&fifth.text()).output() == "8F08000C\n"),
    ]
}

/// The judge on three buses in a row, joined by two branches each, with the four moves of the plan in that order.
fn two_pairs(order: [usize; 4]) -> Option<String> {
    let mut feeder = Feeder { base_mva: 1.0, ..Feeder::default() };
    (1..=3).for_each(|id| feeder.bus(id, 1.0));
    for (k, end) in [1, 2, 1, 2].into_iter().enumerate() {
        feeder.branch(end, end + 1, 0.5);
        feeder.switch(10 + k as u16, k, OPERABLE);
    }
    let (network, present, wanted) = (network(&feeder), [0, 0, 1, 1], [1, 1, 0, 0]);
    let moves = resume::moves(&plan::plan(&network, &present, &wanted, 30).expect("the row has a plan"));
    judge::fault_of_moves(&network, &present, &wanted, &order.map(|at| moves[at]))
}

/// The reckoned steps, loss, radiality and forms (each two ways) against the original on every accepted text of a set; the same steps with the
/// original's loss, which give the answers with a supply; the reader's verdict against what it must be whatever the text, and against the reckoning on lines.
pub fn agree(cases: Cases) -> bool {
    let (mut agreed, mut supplied, mut two, mut refused) = (0, 0, 0, 0);
    for case in cases {
        let right = expected(&case.text);
        repairs::expected(&case.text);
        if !verdict_holds(&case, &right) {
            println!("{}: the reader contradicts itself on\n{}", case.kind, String::from_utf8_lossy(&case.text));
            return false;
        }
        let Expected::Answered(answered) = right else {
            refused += 1;
            continue;
        };
        let network = &answered.network;
        let steps = Searches::new(network, None);
        let lines = steps.lines(&steps.solve());
        let count = network.switches.len();
        let states = [network.base(), answered.best.clone(), vec![CLOSED; count], vec![OPEN; count]];
        if lines != answered.search || supply::stepped(network).lines != lines || !states_agree(network, &states) {
            println!(
                "{}: document 01's steps differ from the original on\n{}",
                case.kind,
                String::from_utf8_lossy(&case.text)
            );
            println!("original:\n{}reckoned:\n{lines}", answered.search);
            return false;
        }
        agreed += 1;
        supplied += network.supply.is_some() as usize;
        two += network.has_two_on_branch() as usize;
    }
    println!(
        "{refused} refused texts; {agreed} accepted texts, {supplied} with a supply, {two} with two switches on a branch: document 01's steps and the original agree"
    );
    true
}

/// A feeder of a shape is accepted; an accepted text is the one text of its records; a refused one is refused alike when it
/// is cut behind the faulty line, and cut before that line it lacks it or, where the line is surplus, is accepted.
fn verdict_holds(case: &Case, right: &Expected) -> bool {
    let refusal = match right {
        Expected::Answered(answered) => return written(&answered.network) == case.text,
        Expected::Refused(refusal) => *refusal,
    };
    let lines: Vec<&[u8]> = case.text.split_inclusive(|&c| c == b'\n').collect();
    let before = usize::from(refusal.place) - 1;
    let missing = Refusal { number: 2, ..refusal };
    let cut_before = reader::read(&lines[..before].concat()).err();
    let behind = lines[..lines.len().min(before + 1)].concat();
    SHAPES.iter().all(|shape| shape.name != case.kind)
        && reader::read(&behind).err() == Some(refusal)
        && cut_before.is_none_or(|refusal| refusal == missing)
}

/// The records as document 01's text.
fn written(network: &Network) -> Vec<u8> {
    let id = |position: usize| network.buses[position].id;
    let mut feeder = Feeder {
        base_mva: network.base_mva,
        method: network.method,
        iterations: network.max_iterations,
        ..Feeder::default()
    };
    network.buses.iter().for_each(|b| feeder.bus(b.id, b.pd));
    for branch in &network.branches {
        feeder.branch(id(branch.from), id(branch.to), branch.r);
        feeder.branches.last_mut().expect("just listed").status = branch.in_service as u8;
    }
    for switch in &network.switches {
        let operable = if switch.can_operate { OPERABLE } else { 0 };
        feeder.switch(switch.id, switch.branch, operable | if switch.normally_open { TIE } else { 0 });
    }
    feeder.supply = network.supply.map(id);
    feeder.text()
}

/// With a supply only a radial state has a loss, and that whichever way its branches are drawn.
fn states_agree(network: &Network, states: &[Vec<u8>]) -> bool {
    let (original, steps) = (Original::new(network), Searches::new(network, None));
    let mut turned = network.clone();
    turned.branches.iter_mut().for_each(|branch| (branch.from, branch.to) = (branch.to, branch.from));
    states.iter().all(|state| {
        let live = network.live(state);
        let form = form::form(network, &live);
        let radial = [original.radial(state), plan::radial(network, &live), form == Form::Tree];
        let same = |other: f64| other.to_bits() == supply::loss(network, state).to_bits();
        radial.iter().all(|&one| one == radial[0])
            && form == judge::form(network, &live)
            && match network.supply {
                None => same(steps.loss(state)) && same(original.loss(state)),
                Some(_) => !radial[0] || (same(steps.loss(state)) && same(supply::loss(&turned, state))),
            }
    })
}
