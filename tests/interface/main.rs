//! The calls of include/feeder.h from Rust, on seeded feeders of every shape, with up to two switches on a branch, without a supply and with one, stored texts with branches
//! from a bus to itself, damaged texts and records, and states that are radial, not radial and faulty: each answer and each byte of a lent slice against tests/oracle's independent reckoning of documents 01 and 02.

#![allow(dead_code)]

#[path = "../oracle/src/cases.rs"]
mod cases;
#[path = "../oracle/src/damage.rs"]
mod damage;
#[path = "../oracle/src/ends.rs"]
mod ends;
#[path = "../oracle/src/feeder.rs"]
mod feeder;
#[path = "../timing/feeders.rs"]
mod feeders;
mod both_ends;
mod cut;
#[path = "../oracle/src/forms.rs"]
mod forms;
mod library;
#[path = "../oracle/src/limits.rs"]
mod limits;
#[path = "../oracle/src/loops.rs"]
mod loops;
mod pairs;
#[path = "../oracle/src/random.rs"]
mod random;
#[path = "../oracle/src/reckoning/mod.rs"]
mod reckoning;
mod records;
#[path = "../oracle/src/shapes.rs"]
mod shapes;
#[path = "../oracle/src/short.rs"]
mod short;
#[path = "../oracle/src/states.rs"]
mod states;
mod stored;
#[path = "../oracle/src/supplied.rs"]
mod supplied;
#[path = "../oracle/src/values.rs"]
mod values;

use feeder::Feeder;
use library::{Answer, Solved};
use random::Random;
use states::OPERATION_LENGTH;
use reckoning::form::{form, line, number, with_form, Form, ANSWER_LENGTH};
use reckoning::plan::{lines, plan, radial, well_formed};
use reckoning::repair::{repaired, Repaired};
use reckoning::searches::{operations, Searches};
use reckoning::{reader, Network, Refusal};
use std::collections::BTreeMap;
use std::fmt::Debug;
use std::process::ExitCode;

const CASES: usize = 4000;
const FED_CASES: usize = 4000;
const STORED_CASES: usize = 4000;
const RECORDS_CASES: usize = 6000;
const FORM_LENGTH: usize = 11;
const GUARD: u8 = 0xAA;
const MARGIN: usize = 16;
const MAX_BUSES: usize = 256;
const MAX_SWITCHES: usize = 512;
const FRAMES_LENGTH: usize = 27436;
/// A pair has 7 bytes, and 4 for each switch that it moves.
const PLAN_LENGTH: usize = (MAX_BUSES - 1) * 7 + MAX_SWITCHES * 4;
const MOVES_LENGTH: usize = MAX_SWITCHES * OPERATION_LENGTH;
const TEXT_LENGTH: usize = ANSWER_LENGTH + FORM_LENGTH + MAX_SWITCHES * OPERATION_LENGTH + PLAN_LENGTH;

/// The calls, and the refusals that each can answer.
const OF_A_TEXT: [u8; 13] = [1, 2, 3, 4, 5, 6, 7, 8, 9, 14, 15, 17, 13];
const OF_A_STATE: [u8; 13] = [1, 2, 3, 4, 5, 6, 7, 8, 9, 14, 15, 17, 10];
const OF_A_LOSS: [u8; 14] = [1, 2, 3, 4, 5, 6, 7, 8, 9, 14, 15, 17, 10, 11];
const OF_TWO_STATES: [u8; 14] = [1, 2, 3, 4, 5, 6, 7, 8, 9, 14, 15, 17, 10, 13];
const OF_A_PLAN: [u8; 16] = [1, 2, 3, 4, 5, 6, 7, 8, 9, 14, 15, 17, 10, 11, 12, 13];
const OF_A_CUT: [u8; 17] = [1, 2, 3, 4, 5, 6, 7, 8, 9, 14, 15, 17, 10, 11, 12, 16, 13];
const OF_RECORDS: [u8; 12] = [2, 3, 4, 5, 6, 7, 8, 9, 14, 15, 17, 13];
const OF_A_REPAIR: [u8; 12] = [1, 2, 3, 4, 5, 6, 7, 8, 9, 14, 15, 13];
const CALLS: [(&str, &[u8]); 11] = [
    ("radiality", &OF_A_STATE),
    ("form", &OF_A_STATE),
    ("loss", &OF_A_LOSS),
    ("plan", &OF_A_PLAN),
    ("resume", &OF_A_CUT),
    ("answer", &OF_A_TEXT),
    ("base", &OF_A_TEXT),
    ("solve", &OF_A_TEXT),
    ("operations", &OF_TWO_STATES),
    ("write", &OF_RECORDS),
    ("repair", &OF_A_REPAIR),
];

/// What a state can be; each is to be answered, and to be printed of a best state.
const FORMS: [&str; 4] = ["a tree", "a loop, no islands", "a loop and islands", "islands, no loop"];

#[derive(Default)]
struct Checks {
    count: usize,
    refused: BTreeMap<(&'static str, u8), usize>,
    formed: BTreeMap<(&'static str, &'static str), usize>,
    /// Accepted texts that have two switches on a branch.
    of_two: usize,
    /// Pairs of plans, by how many switches they move.
    pairs: BTreeMap<usize, usize>,
    /// Repaired texts: those from which nothing was dropped, branches alone, and switches too.
    repaired: [usize; 3],
}

impl Checks {
    /// Whether each refusal that can come was met, each form, pairs of each number of moves, and each kind of repair.
    fn all_met(&self) -> bool {
        let pairs = [2, 3, 4].map(|moves| self.pairs.get(&moves).copied().unwrap_or(0));
        println!("interface: Rust: {} texts have two switches on a branch; pairs of 2, 3, 4 moves: {pairs:?}", self.of_two);
        println!("interface: Rust: repaired texts from which nothing was dropped, branches, switches too: {:?}", self.repaired);
        let mut all_met = self.of_two > 0 && pairs.iter().chain(&self.repaired).all(|&count| count > 0);
        for call in ["form", "answer"] {
            let counts = FORMS.map(|kind| self.formed.get(&(call, kind)).copied().unwrap_or(0));
            println!("interface: Rust: {call}: {FORMS:?}: {counts:?}");
            all_met &= counts.iter().all(|&count| count > 0);
        }
        for (call, numbers) in CALLS {
            let times = |&number: &u8| self.refused.get(&(call, number)).copied().unwrap_or(0);
            let counts: Vec<usize> = numbers.iter().map(times).collect();
            println!("interface: Rust: {call}: refused with {numbers:?}: {counts:?}");
            all_met &= counts.iter().all(|&count| count > 0);
        }
        all_met
    }
}

fn main() -> ExitCode {
    let mut checks = Checks::default();
    let good = both_ends::worked(&mut checks)
        && stored::worked(&mut checks)
        && timed_feeders(&mut checks)
        && forms::named().iter().all(|named| named_form(&mut checks, named))
        && (0..CASES).all(|number| any_case(&mut checks, number))
        && (0..FED_CASES).all(|number| any_fed_case(&mut checks, number))
        && (0..STORED_CASES).all(|number| any_stored_case(&mut checks, number))
        && written_feeders(&mut checks)
        && every_byte(&mut checks)
        && (0..RECORDS_CASES).all(|number| any_records(&mut checks, number));
    let all_met = checks.all_met();
    if !all_met {
        println!("interface: Rust: a refusal, a form, a kind of pair or of repair was never met");
    }
    println!("interface: Rust: {} answers, {}", checks.count, if good { "0 wrong" } else { "1 wrong" });
    if good && all_met { ExitCode::SUCCESS } else { ExitCode::FAILURE }
}

/// A feeder without a supply, with its last bus as the supply, and with none of its buses.
fn fed(feeder: &Feeder) -> [Feeder; 3] {
    let last = feeder.buses.last().map_or(0, |bus| bus.id);
    [None, Some(last), Some(last + 1)].map(|supply| Feeder { supply, ..feeder.clone() })
}

/// The triangle, 33 buses and the largest feeder, without a supply and with one, forward and back, with room for the plan, and one byte less; the plan is cut off
/// at every count, with a supply at every seventh. Also states that are no tree: with the first so many switches closed, and with those alone open.
fn timed_feeders(checks: &mut Checks) -> bool {
    feeders::all().iter().all(|timed| fed(&timed.feeder)[..2].iter().all(|feeder| {
        let text = feeder.text();
        let network = reader::read(&text).expect("acceptable");
        let (a, b) = (&timed.first[..], &timed.second[..]);
        let room = lines(&network, &plan(&network, a, b, usize::MAX).expect("two radial states")).len();
        let list = operations(&network, a, b).len();
        let switches = network.switches.len();
        let first = |count: usize, byte: u8| (0..switches).map(|k| if k < count { byte } else { 1 - byte }).collect::<Vec<u8>>();
        let mut others = (0..=switches).step_by(1 + switches / 16).flat_map(|count| [first(count, 0), first(count, 1)]);
        [a, b].iter().all(|state| state_answers(checks, &text, state))
            && others.all(|state| state_answers(checks, &text, &state))
            && [room, room - 1].iter().all(|&room| plan_answer(checks, &text, a, b, room) && plan_answer(checks, &text, b, a, room))
            && [list, list - 1].iter().all(|&room| operations_answer(checks, &text, a, b, room))
            && repair_answers(checks, &text)
            && [(a, b), (b, a)].iter().all(|(a, b)| cut_everywhere(checks, &text, a, b, if feeder.supply.is_none() { 1 } else { 7 }))
    }))
}

fn any_case(checks: &mut Checks, number: usize) -> bool {
    let random = &mut Random::new(1, "interface", number);
    let feeder = any_feeder(random);
    let text = if random.percent(10) { damage::damaged(random) } else { feeder.text() };
    answers_on(checks, random, &feeder, &text)
}

fn any_feeder(random: &mut Random) -> Feeder {
    let feeder = (shapes::SHAPES[random.below(shapes::SHAPES.len())].make)(random);
    ends::mostly_two(random, feeder)
}

/// The same with the 05 line.
fn any_fed_case(checks: &mut Checks, number: usize) -> bool {
    let random = &mut Random::new(1, "interface, fed", number);
    let shape = supplied::any_shape(random);
    let feeder = supplied::feeder(random, shape);
    let text = if random.percent(10) { damage::damaged_with_line(random) } else { feeder.text() };
    answers_on(checks, random, &feeder, &text)
}

/// Stored texts: mostly with branches from a bus to itself, some with further faults, some damaged. The states are those of a feeder to which such branches were added, or of another.
fn any_stored_case(checks: &mut Checks, number: usize) -> bool {
    let random = &mut Random::new(1, "interface, stored", number);
    let feeder = any_feeder(random);
    let text = match random.below(6) {
        0 | 1 => loops::with_own_loops(random, feeder.clone()).text(),
        2 | 3 => loops::drawn(random),
        4 => loops::damaged(random),
        _ => loops::any_bytes(random),
    };
    answers_on(checks, random, &feeder, &text)
}

/// Each call on a text; its states are those of the feeder without a supply where it is refused.
fn answers_on(checks: &mut Checks, random: &mut Random, feeder: &Feeder, text: &[u8]) -> bool {
    let without = Feeder { supply: None, ..feeder.clone() };
    let network = reader::read(text).or(reader::read(&without.text())).expect("shapes are acceptable");
    checks.of_two += network.has_two_on_branch() as usize;
    let state = states::any_state(random, &network);
    let (present, wanted, room) = states::any_plan(random, &network);
    let list = states::near(random, operations(&network, &state, &wanted).len());
    state_answers(checks, text, &state)
        && plan_answer(checks, text, &present, &wanted, room)
        && cut_anywhere(checks, random, text, &present, &wanted)
        && operations_answer(checks, text, &state, &wanted, list)
        && text_answers(checks, text)
        && repair_answers(checks, text)
}

/// The repair: with room for every text, in a slice that is exactly full, with one byte less, and with none.
fn repair_answers(checks: &mut Checks, text: &[u8]) -> bool {
    let expected = repaired(text);
    let written = expected.as_ref().map(|repaired| repaired.output().into_bytes()).map_err(|refusal| *refusal);
    let length = written.as_ref().map_or(0, Vec::len);
    let valued = written.map(|written| (written.len() as u64, written));
    rooms(length, FRAMES_LENGTH).chain([0]).all(|room| {
        lent(checks, "repair", text, room, in_room(room, valued.clone()), numbers, |out| library::repair_text(text, out))
    }) && expected.map_or(true, |repaired| left_answers(checks, &repaired))
}

/// What is left of a stored text is a new one: the other calls read it, its records give it back, and repaired it is the same.
fn left_answers(checks: &mut Checks, repaired: &Repaired) -> bool {
    let left = repaired.text.as_bytes();
    let kind = if repaired.told.iter().any(|line| line.ends_with("02\n")) { 2 } else { !repaired.told.is_empty() as usize };
    checks.repaired[kind] += 1;
    let switches = reader::read(left).map(|network| network.switches.len() as u64);
    let same: Result<_, Refusal> = Ok((left.len() as u64, left.to_vec()));
    switches.is_ok()
        && compare(checks, "base", left, switches, numbers, library::base_state(left, &mut [0; MAX_SWITCHES]))
        && lent(checks, "repair", left, left.len(), same.clone(), numbers, |out| library::repair_text(left, out))
        && lent(checks, "write", left, left.len(), same, numbers, |out| library::write_text(&records::of_digits(left), out))
}

/// The calls on a text alone: with room for every answer, in a slice that is exactly full, and one byte less.
fn text_answers(checks: &mut Checks, text: &[u8]) -> bool {
    let answered = reader::read(text).map(|network| answers(&network));
    if let Ok(answers) = &answered {
        *checks.formed.entry(("answer", answers.form.name())).or_default() += 1;
    }
    let printed = answered.clone().map(|answers| (answers.printed.len() as u64, answers.printed));
    let base = answered.clone().map(|answers| (answers.base.len() as u64, answers.base));
    let solved = answered.map(|answers| (answers.solved, answers.best));
    let length = printed.as_ref().map_or(0, |(_, printed)| printed.len());
    let switches = base.as_ref().map_or(0, |(_, base)| base.len());
    rooms(length, TEXT_LENGTH).all(|room| {
        lent(checks, "answer", text, room, in_room(room, printed.clone()), numbers, |out| library::answer_text(text, out))
    }) && rooms(switches, MAX_SWITCHES).all(|room| {
        lent(checks, "base", text, room, in_room(room, base.clone()), numbers, |out| library::base_state(text, out))
            && lent(checks, "solve", text, room, in_room(room, solved.clone()), solved_numbers, |out| library::solve(text, out))
    })
}

/// Room for the longest, exactly enough, and one byte less where there is one.
fn rooms(length: usize, longest: usize) -> impl Iterator<Item = usize> {
    [Some(longest), Some(length), length.checked_sub(1)].into_iter().flatten()
}

/// What is answered with the bytes that are written: 13 comes after the text's refusal.
fn in_room<V>(room: usize, expected: Result<(V, Vec<u8>), Refusal>) -> Result<(V, Vec<u8>), Refusal> {
    expected.and_then(|(value, written)| if written.len() <= room { Ok((value, written)) } else { Err(Refusal { number: 13, place: 0 }) })
}

/// What documents 01 and 02 answer for an accepted text.
#[derive(Clone)]
struct Answers {
    base: Vec<u8>,
    best: Vec<u8>,
    solved: Solved,
    form: Form,
    printed: Vec<u8>,
}

/// The values of the 81 line, the best state's form, and what is printed: the 81, 84 and 82 lines and, from a radial base, the 86 lines.
fn answers(network: &Network) -> Answers {
    let (base, searches) = (network.base(), Searches::new(network, None));
    let answer = searches.solve();
    let solved = Solved {
        number: 0,
        place: 0,
        radial: radial(network, &network.live(&answer.best)) as u8,
        converged: answer.converged as u8,
        iterations: answer.iterations,
        base_loss: answer.base_loss,
        best_loss: answer.best_loss,
        reduction: answer.reduction,
    };
    let form = form(network, &network.live(&answer.best));
    let mut printed = searches.lines(&answer);
    printed = with_form(&printed, form.fields());
    if radial(network, &network.live(&base)) {
        let pairs = plan(network, &base, &answer.best, usize::MAX).expect("from a radial base only refusal 13 can come");
        printed += &lines(network, &pairs);
    }
    Answers { base, best: answer.best, solved, form, printed: printed.into_bytes() }
}

/// The timed feeders' records: their text, cut off at every length (the largest at some), and behind them records without end.
fn written_feeders(checks: &mut Checks) -> bool {
    feeders::all().iter().flat_map(|timed| fed(&timed.feeder)).all(|feeder| {
        let bytes = records::of_feeder(&feeder);
        let step = if bytes.len() < 2000 { 1 } else { 97 };
        records::text_of(&bytes) == feeder.text()
            && write_answers(checks, &bytes)
            && (0..bytes.len()).step_by(step).all(|length| write_answer(checks, &bytes[..length], FRAMES_LENGTH))
            && records::endless(&bytes).chain(records::endless(&[])).all(|bytes| write_answer(checks, &bytes, FRAMES_LENGTH))
    })
}

/// Each byte of the triangle's records, the supply's among them, with each value.
fn every_byte(checks: &mut Checks) -> bool {
    let bytes = records::of_feeder(&fed(&feeder::triangle())[1]);
    (0..bytes.len() * 256).all(|k| {
        let mut other = bytes.clone();
        other[k / 256] = (k % 256) as u8;
        write_answer(checks, &other, FRAMES_LENGTH)
    })
}

/// Good records, some with branches from a bus to itself, those of a damaged text, or damaged ones.
fn any_records(checks: &mut Checks, number: usize) -> bool {
    let random = &mut Random::new(1, "records", number);
    let shape = shapes::SHAPES[random.below(shapes::SHAPES.len())].make;
    let feeder = if number % 2 == 0 { any_feeder(random) } else { supplied::feeder(random, shape) };
    let feeder = if random.percent(10) { loops::with_own_loops(random, feeder) } else { feeder };
    let good = records::of_feeder(&feeder);
    match random.below(3) {
        0 => records::text_of(&good) == feeder.text() && write_answers(checks, &good),
        1 if number % 2 == 0 => write_answers(checks, &records::of_digits(&damage::damaged(random))),
        1 => write_answers(checks, &records::of_digits(&damage::damaged_with_line(random))),
        _ => write_answers(checks, &records::damaged(random, good)),
    }
}

/// With room for every text, in a slice that is exactly full, with one byte less, and with none.
fn write_answers(checks: &mut Checks, bytes: &[u8]) -> bool {
    let length = records::text_of(bytes).len().min(FRAMES_LENGTH);
    rooms(length, FRAMES_LENGTH).chain([0]).all(|room| write_answer(checks, bytes, room))
}

/// The text of the bytes, or its refusal, with which the calls on a text refuse it.
fn write_answer(checks: &mut Checks, bytes: &[u8], room: usize) -> bool {
    let text = records::text_of(bytes);
    let read = reader::read(&text);
    let switches = read.as_ref().map(|network| network.switches.len() as u64).map_err(|refusal| *refusal);
    let written = in_room(room, read.map(|_| (text.len() as u64, text.clone())));
    compare(checks, "base", &text, switches, numbers, library::base_state(&text, &mut [0; MAX_SWITCHES]))
        && lent(checks, "write", &text, room, written, numbers, |out| library::write_text(bytes, out))
}

fn state_answers(checks: &mut Checks, text: &[u8], state: &[u8]) -> bool {
    let is_radial = |network: &Network| Ok(radial(network, &network.live(state)) as u64);
    let loss = |network: &Network| match network.supply {
        Some(_) if is_radial(network)? == 0 => Err(Refusal { number: 11, place: 0 }),
        _ => Ok(Searches::new(network, None).loss(state).to_bits()),
    };
    compare(checks, "radiality", text, on_state(text, state, is_radial), numbers, library::radiality(text, state))
        && form_answer(checks, text, state)
        && compare(checks, "loss", text, on_state(text, state, loss), numbers, library::loss(text, state))
}

/// The form; radiality is refused alike, and is 1 exactly where it is a tree.
fn form_answer(checks: &mut Checks, text: &[u8], state: &[u8]) -> bool {
    let form = on_state(text, state, |network| Ok(form(network, &network.live(state))));
    if let Ok(form) = form {
        *checks.formed.entry(("form", form.name())).or_default() += 1;
    }
    let is_tree = form.map(|form| (form == Form::Tree) as u64);
    compare(checks, "form", text, form.map(|form| number(form.fields()).into()), numbers, library::form(text, state))
        && compare(checks, "radiality", text, is_tree, numbers, library::radiality(text, state))
}

/// The 84 line that is answered for a named feeder is the one told by hand.
fn named_form(checks: &mut Checks, (name, feeder, fields): &forms::Named) -> bool {
    let text = feeder.text();
    let mut out = vec![0; TEXT_LENGTH];
    library::answer_text(&text, &mut out);
    checks.count += 1;
    let same = out[ANSWER_LENGTH..].starts_with(line(*fields).as_bytes());
    if !same {
        println!("interface: Rust: {name}: another 84 line");
    }
    same
}

/// What is answered on a state of a text's network: 10 comes before what the call has of its own.
fn on_state<V>(text: &[u8], state: &[u8], answer: impl Fn(&Network) -> Result<V, Refusal>) -> Result<V, Refusal> {
    let network = reader::read(text)?;
    if well_formed(&network, state) { answer(&network) } else { Err(Refusal { number: 10, place: 0 }) }
}

fn plan_answer(checks: &mut Checks, text: &[u8], present: &[u8], wanted: &[u8], room: usize) -> bool {
    let expected = reader::read(text).and_then(|network| {
        let pairs = plan(&network, present, wanted, usize::MAX)?;
        let written = lines(&network, &pairs).into_bytes();
        Ok((pairs.len() as u64, lead(checks, &network, present, wanted, written)))
    });
    lent(checks, "plan", text, room, in_room(room, expected), numbers, |out| library::plan(text, present, wanted, out))
}

/// The lines that are expected, of which it is known that carried out and undone by their lists they lead where they should.
fn lead(checks: &mut Checks, network: &Network, present: &[u8], wanted: &[u8], written: Vec<u8>) -> Vec<u8> {
    let pairs = pairs::read(&written).expect("86 lines");
    assert!(pairs::lead(network, present, wanted, &pairs), "the reckoning's plan leads elsewhere");
    pairs.iter().for_each(|pair| *checks.pairs.entry(pair.moves()).or_default() += 1);
    written
}

/// At counts of the plan and above it, in slices that are exactly full; at each seventh also with room for all moves, with one byte less in either slice, and the form of the
/// state there: a tree, or the loop that the closings of a pair make.
fn cut_everywhere(checks: &mut Checks, text: &[u8], present: &[u8], wanted: &[u8], step: usize) -> bool {
    let plan = cut::Plan::of(text, present, wanted);
    let length = plan.as_ref().map_or(0, |plan| plan.moves.len());
    (0..length).step_by(step).chain([length, length + 1]).all(|count| {
        let (left, undone) = (OPERATION_LENGTH * length.saturating_sub(count), OPERATION_LENGTH * count);
        let others = [(MOVES_LENGTH, MOVES_LENGTH), (left.saturating_sub(1), undone), (left, undone.saturating_sub(1))];
        let state = plan.as_ref().ok().and_then(|plan| plan.state(count));
        cut_answer(checks, text, &plan, count as u64, (left, undone))
            && (count % 7 != 0
                || (others.iter().all(|&rooms| cut_answer(checks, text, &plan, count as u64, rooms))
                    && state.map_or(true, |state| form_answer(checks, text, state))))
    })
}

/// At a few counts, some of them above the plan's moves, with slices about as long as their lists.
fn cut_anywhere(checks: &mut Checks, random: &mut Random, text: &[u8], present: &[u8], wanted: &[u8]) -> bool {
    let plan = cut::Plan::of(text, present, wanted);
    let length = plan.as_ref().map_or(0, |plan| plan.moves.len());
    (0..4).all(|_| {
        let above = [length + 1, length + 2, 65_535, 65_536, 65_536 + length, usize::MAX];
        let count = if random.percent(15) { random.pick(&above) } else { random.below(length + 1) };
        let left = states::near(random, OPERATION_LENGTH * length.saturating_sub(count));
        let undone = states::near(random, OPERATION_LENGTH * count.min(length));
        cut_answer(checks, text, &plan, count as u64, (left, undone))
    })
}

/// The two lists, and where carrying them out leads; a refusal touches neither slice.
fn cut_answer(checks: &mut Checks, text: &[u8], plan: &Result<cut::Plan, cut::Refused>, count: u64, rooms: (usize, usize)) -> bool {
    let (present, wanted) = plan.as_ref().map_or_else(|refused| (&refused.present, &refused.wanted), |plan| (&plan.present, &plan.wanted));
    let expected = plan.as_ref().map_err(|refused| refused.refusal).and_then(|plan| plan.cut(count, rooms));
    let mut lists = [rooms.0, rooms.1].map(|room| vec![GUARD; MARGIN + room + MARGIN]);
    let mut right = lists.clone();
    if let Ok(cut) = &expected {
        right[0][MARGIN..MARGIN + cut.remaining.len()].copy_from_slice(&cut.remaining);
        right[1][MARGIN..MARGIN + cut.back.len()].copy_from_slice(&cut.back);
    }
    let [first, second] = &mut lists;
    let (remaining, back) = (&mut first[MARGIN..MARGIN + rooms.0], &mut second[MARGIN..MARGIN + rooms.1]);
    let answer = library::resume(text, present, wanted, count, remaining, back);
    let kept = lists == right;
    if !kept {
        println!("interface: Rust: resume: the lent bytes are wrong at {count}, text:\n{}", String::from_utf8_lossy(text));
    }
    let leads = expected.is_err() || plan.as_ref().is_ok_and(|plan| plan.leads(count as usize, &lists[0][MARGIN..], &lists[1][MARGIN..]));
    if !leads {
        println!("interface: Rust: resume: the moves lead elsewhere at {count}, text:\n{}", String::from_utf8_lossy(text));
    }
    let value = expected.map(|cut| (cut.remaining.len() / OPERATION_LENGTH) as u64);
    kept && leads && compare(checks, "resume", text, value, numbers, answer)
}

fn operations_answer(checks: &mut Checks, text: &[u8], from: &[u8], to: &[u8], room: usize) -> bool {
    let expected = reader::read(text).and_then(|network| {
        for (place, state) in [(0, from), (1, to)] {
            if !well_formed(&network, state) {
                return Err(Refusal { number: 10, place });
            }
        }
        let list = operations(&network, from, to).into_bytes();
        Ok(((list.len() / OPERATION_LENGTH) as u64, list))
    });
    lent(checks, "operations", text, room, in_room(room, expected), numbers, |out| library::operations(text, from, to, out))
}

fn numbers(expected: Result<u64, Refusal>) -> Answer {
    match expected {
        Ok(value) => Answer { number: 0, place: 0, value },
        Err(Refusal { number, place }) => Answer { number, place, value: 0 },
    }
}

fn solved_numbers(expected: Result<Solved, Refusal>) -> Solved {
    expected.unwrap_or_else(|Refusal { number, place }| Solved {
        number,
        place,
        radial: 0,
        converged: 0,
        iterations: 0,
        base_loss: 0.0,
        best_loss: 0.0,
        reduction: 0.0,
    })
}

/// A call that is lent a slice: it lies between guard bytes and is full of them. Expected is the value with what stands at the slice's front.
fn lent<V, A: PartialEq + Debug>(
    checks: &mut Checks,
    call: &'static str,
    text: &[u8],
    room: usize,
    expected: Result<(V, Vec<u8>), Refusal>,
    in_numbers: fn(Result<V, Refusal>) -> A,
    ask: impl FnOnce(&mut [u8]) -> A,
) -> bool {
    let mut bytes = vec![GUARD; MARGIN + room + MARGIN];
    let mut right = bytes.clone();
    if let Ok((_, written)) = &expected {
        right[MARGIN..MARGIN + written.len()].copy_from_slice(written);
    }
    let answer = ask(&mut bytes[MARGIN..MARGIN + room]);
    if bytes != right {
        println!("interface: Rust: {call}: the lent bytes are wrong, text:\n{}", String::from_utf8_lossy(text));
    }
    bytes == right && compare(checks, call, text, expected.map(|(value, _)| value), in_numbers, answer)
}

fn compare<V, A: PartialEq + Debug>(
    checks: &mut Checks,
    call: &'static str,
    text: &[u8],
    expected: Result<V, Refusal>,
    in_numbers: fn(Result<V, Refusal>) -> A,
    answer: A,
) -> bool {
    let refused = expected.as_ref().map_or_else(|refusal| refusal.number, |_| 0);
    let right = in_numbers(expected);
    checks.count += 1;
    *checks.refused.entry((call, refused)).or_default() += 1;
    if answer != right {
        println!("interface: Rust: {call}: {answer:?} for {right:?}, text:\n{}", String::from_utf8_lossy(text));
    }
    answer == right
}
