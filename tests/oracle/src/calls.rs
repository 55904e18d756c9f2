//! Questions on calls that `feeder` doesn't show: radiality, form and loss of any state, the best state in a lent slice,
//! operations and plans between any two states, plans cut off, the text of the records. A question is a case of the program `call_cases`
//! (crates/call_cases/src/calls.rt), its answer what that program is to print.

use crate::cases::{self, Case, Cases, LONG_PAIRS, LOSSES_OF_TWO, STATES_OF_TWO, TEXTS_OF_TWO};
use crate::compare::Right;
use crate::driver::Original;
use crate::feeder::Feeder;
use crate::random::Random;
use crate::reckoning::form::{self, Form};
use crate::reckoning::plan::{self, plan, well_formed, Pair};
use crate::reckoning::repair::repaired;
use crate::reckoning::{judge, reader, resume, searches, Network, Refusal};
use crate::states::{any_cut_plan, any_plan, any_state, more_closed, near, OPERATION_LENGTH};
use crate::wrong_forms::Mistake;
use crate::{damage, ends, forms, loops, shapes, short, supplied, supply, wrong_ends};

/// One question of a program under test.
pub struct Question {
    pub name: String,
    text: Vec<u8>,
    call: Call,
    /// A fault that the records get once they are read, a hyphen for none.
    change: char,
    pub present: Vec<u8>,
    pub wanted: Vec<u8>,
    /// How many single moves are done, where a plan was cut off.
    pub count: u64,
    /// Lengths of the lent slices.
    pub rooms: Vec<usize>,
}

#[derive(Clone, Copy, PartialEq)]
enum Call {
    State,
    Best,
    Operations,
    Plan,
    Text,
    CutPlan,
    Repair,
}

type Listed = (char, Call, &'static str);

/// The letter of each call, and what is asked.
const CALLS: [Listed; 7] = [
    ('S', Call::State, "radiality, form and loss of a state"),
    ('B', Call::Best, "the best state in a slice"),
    ('O', Call::Operations, "operations in a slice"),
    ('P', Call::Plan, "a plan in a slice"),
    ('T', Call::Text, "the text read, in a slice"),
    ('R', Call::CutPlan, "a plan cut off, in two slices"),
    ('D', Call::Repair, "the repair of a text, in a slice"),
];

/// What an answered call prints: its fields, and what it writes into the slices.
struct Answer {
    result: String,
    fields: String,
    written: Vec<String>,
    /// The plan, where one was asked for.
    pairs: Vec<Pair>,
}

const ANSWERED: &str = "answered";

/// What the program is to print for a question, and which answer or refusal that is.
struct Printed {
    name: String,
    output: String,
    results: Vec<(String, usize)>,
}

/// What it is to print for the questions of one run.
pub struct Run(Vec<Printed>);

impl Right for Run {
    fn count(&self) -> usize {
        self.0.len()
    }

    fn output(&self) -> String {
        self.0.iter().map(|printed| printed.output.as_str()).collect()
    }

    fn fault(&self, output: &[u8]) -> Option<String> {
        let mut rest = output;
        for Printed { name, output, .. } in &self.0 {
            let Some(behind) = rest.strip_prefix(output.as_bytes()) else {
                return Some(format!("the call of question {name} answers otherwise"));
            };
            rest = behind;
        }
        (!rest.is_empty()).then(|| "there is more than the answers".to_string())
    }

    fn results(&self) -> Vec<(String, usize)> {
        self.0.iter().flat_map(|printed| printed.results.clone()).collect()
    }
}

pub fn questions(count: usize, seed: u64) -> impl Iterator<Item = Vec<u8>> + Send {
    (0..count).map(move |number| any_question(&mut Random::new(seed, "questions", number), number))
}

pub const FULL_QUEUE_QUESTIONS: &str = "a full queue: questions";

/// Radiality, form and loss on feeders of `shapes::full_queue`. Three states in four have the base's live branches and more, so that a queue
/// is full; the others are any.
pub fn full_queue_questions(count: usize, seed: u64) -> impl Iterator<Item = Vec<u8>> + Send {
    (0..count).map(move |number| {
        let random = &mut Random::new(seed, FULL_QUEUE_QUESTIONS, number);
        let feeder = shapes::full_queue(random, number);
        let text = ends::mostly_two(random, feeder).text();
        let network = reader::read(&text).expect("shapes are acceptable");
        let present = if number % 4 == 3 { any_state(random, &network) } else { more_closed(random, &network) };
        let (name, call) = (format!("S{number}"), Call::State);
        Question { name, text, call, change: '-', present, wanted: Vec::new(), count: 0, rooms: Vec::new() }.written()
    })
}

pub const FORM_QUESTIONS: &str = "loops and islands: questions";

/// The best state of the named feeders and of some of `shapes::loops_and_islands`, radiality, form and loss of the bases of the former and of
/// any state of the latter.
pub fn form_questions(count: usize, seed: u64) -> impl Iterator<Item = Vec<u8>> + Send {
    let named = forms::named().into_iter().enumerate().flat_map(|(number, (_, feeder, _))| {
        let network = reader::read(&feeder.text()).expect("a named feeder is acceptable");
        [Call::State, Call::Best].map(|call| on_base(call, number, feeder.text(), &network))
    });
    let drawn = (0..count).map(move |number| {
        let random = &mut Random::new(seed, FORM_QUESTIONS, number);
        let feeder = shapes::loops_and_islands(random, number);
        let text = ends::mostly_two(random, feeder).text();
        let network = reader::read(&text).expect("shapes are acceptable");
        asked(random, CALLS[(number % 4 == 3) as usize], number, text, &network)
    });
    named.chain(drawn)
}

/// The base, or a slice that has just room for the best state.
fn on_base(call: Call, number: usize, text: Vec<u8>, network: &Network) -> Vec<u8> {
    let (present, rooms) = match call {
        Call::State => (network.base(), Vec::new()),
        _ => (Vec::new(), vec![network.switches.len()]),
    };
    let mut question =
        Question { name: String::new(), text, call, change: '-', present, wanted: Vec::new(), count: 0, rooms };
    question.name = format!("{}{number}", question.listed().0);
    question.written()
}

/// Any questions of texts with the 05 line.
pub fn questions_with_line(count: usize, seed: u64) -> impl Iterator<Item = Vec<u8>> + Send {
    (0..count).map(move |number| any_question_with_line(&mut Random::new(seed, "05 line: questions", number), number))
}

pub const CUT_PLANS: &str = "a plan cut off: questions";
pub const CUT_PLANS_WITH_LINE: &str = "05 line: a plan cut off: questions";

/// Questions on plans cut off, of texts without the 05 line.
pub fn cut_plans(count: usize, seed: u64) -> impl Iterator<Item = Vec<u8>> + Send {
    (0..count).map(move |number| on_any_feeder(&mut Random::new(seed, CUT_PLANS, number), CALLS[5], number))
}

/// The same of texts with it.
pub fn cut_plans_with_line(count: usize, seed: u64) -> impl Iterator<Item = Vec<u8>> + Send {
    let random = move |number| Random::new(seed, CUT_PLANS_WITH_LINE, number);
    (0..count).map(move |number| on_any_feeder_with_line(&mut random(number), CALLS[5], number))
}

/// A question for each accepted text: it is to be written back into a slice as long as it, or up to two bytes longer.
pub fn written_back(texts: Cases) -> impl Iterator<Item = Vec<u8>> + Send {
    texts.map(|case| case.text).filter(|text| reader::read(text).is_ok()).enumerate().map(|(number, text)| {
        let (name, rooms) = (format!("T{number}"), vec![text.len() + number % 3]);
        let (present, wanted) = (Vec::new(), Vec::new());
        Question { name, text, call: Call::Text, change: '-', present, wanted, count: 0, rooms }.written()
    })
}

pub const REPAIRS: &str = "repair: questions";

/// The repair of the feeders with own loops that are left out of the comparison with the Rust, in turn without a supply, with one and with another
/// id; then of drawn and damaged texts and of any bytes. The slice is about as long as the repair.
pub fn repairs(count: usize, seed: u64) -> impl Iterator<Item = Vec<u8>> + Send {
    let listed = short::two_buses().chain(short::two_switches(cases::OWN_LOOPS_STEP)).filter(Feeder::has_own_loop);
    let supplied = listed.enumerate().map(|(number, feeder)| {
        let supply = [None, Some(0), Some(9)][number % 3];
        Feeder { supply, ..feeder }.text()
    });
    let drawn = (0..count).map(move |number| {
        let random = &mut Random::new(seed, REPAIRS, number);
        random.pick(&[loops::drawn, loops::drawn, loops::drawn, loops::damaged, loops::damaged, loops::any_bytes])(
            random,
        )
    });
    supplied.chain(drawn).enumerate().map(move |(number, text)| {
        let fitting = repaired(&text).map_or(0, |left| left.output().len());
        let rooms = vec![near(&mut Random::new(seed, "repair: slices", number), fitting)];
        let (present, wanted) = (Vec::new(), Vec::new());
        let name = format!("D{number}");
        Question { name, text, call: Call::Repair, change: '-', present, wanted, count: 0, rooms }.written()
    })
}

/// The questions in runs of the program, each of one to so many, and of no more bytes than the program has room for.
pub fn runs(kind: &'static str, questions: impl Iterator<Item = Vec<u8>> + Send + 'static) -> Cases {
    const MOST: usize = 20;
    const MOST_BYTES: usize = 200_000;
    let mut questions = questions.peekable();
    let mut number = 0;
    Box::new(std::iter::from_fn(move || {
        let mut text = questions.next()?;
        for _ in 0..number % MOST {
            let Some(next) = questions.next_if(|next| text.len() + next.len() <= MOST_BYTES) else { break };
            text.extend(next);
        }
        number += 1;
        Some(Case { kind, text })
    }))
}

fn any_question(random: &mut Random, number: usize) -> Vec<u8> {
    let listed = CALLS[random.pick(&[0, 0, 1, 2, 3, 3])];
    on_any_feeder(random, listed, number)
}

fn on_any_feeder(random: &mut Random, listed: Listed, number: usize) -> Vec<u8> {
    let feeder = match listed.1 {
        // The original's searches would take minutes there.
        call if call != Call::Best && random.percent(2) => full_size(random, call),
        _ => (shapes::SHAPES[random.below(shapes::SHAPES.len())].make)(random),
    };
    let feeder = ends::mostly_two(random, feeder);
    let text = if random.percent(3) { damage::damaged(random) } else { feeder.text() };
    let network = reader::read(&text).or(reader::read(&feeder.text())).expect("shapes are acceptable");
    asked(random, listed, number, text, &network)
}

/// Half of them are on states, whose loss has a refusal of its own.
fn any_question_with_line(random: &mut Random, number: usize) -> Vec<u8> {
    let listed = CALLS[random.pick(&[0, 0, 0, 1, 2, 3])];
    on_any_feeder_with_line(random, listed, number)
}

fn on_any_feeder_with_line(random: &mut Random, listed: Listed, number: usize) -> Vec<u8> {
    let full: fn(&mut Random) -> Feeder = match listed.1 {
        Call::CutPlan => |random| full_size(random, Call::CutPlan),
        _ => |random| full_size(random, Call::State),
    };
    let large = listed.1 != Call::Best && random.percent(2);
    let make = if large { full } else { supplied::any_shape(random) };
    let feeder = supplied::feeder(random, make);
    let text = if random.percent(3) { damage::damaged_with_line(random) } else { feeder.text() };
    // Where the line is refused the states are those of the feeder without it.
    let without = Feeder { supply: None, ..feeder };
    let network = reader::read(&text).or(reader::read(&without.text())).expect("shapes are acceptable");
    asked(random, listed, number, text, &network)
}

/// Long plans move switches that are locked in the others. Half of the feeders have 256 branches with two switches each.
fn full_size(random: &mut Random, call: Call) -> Feeder {
    let operable = if call == Call::CutPlan && random.percent(75) { usize::MAX } else { 10 };
    if random.percent(50) {
        shapes::full_size_of_two(random, 0, operable, 100)
    } else {
        shapes::full_size(random, 0, operable, 100)
    }
}

fn asked(random: &mut Random, listed: Listed, number: usize, text: Vec<u8>, network: &Network) -> Vec<u8> {
    let (letter, call, _) = listed;
    let one = |(present, wanted, room): (Vec<u8>, Vec<u8>, usize)| (present, wanted, 0, vec![room]);
    let (present, wanted, count, rooms) = match call {
        Call::State => (any_state(random, network), Vec::new(), 0, Vec::new()),
        Call::Best => one((Vec::new(), Vec::new(), near(random, network.switches.len()))),
        Call::Operations => one(any_operations(random, network)),
        Call::Plan => one(any_plan(random, network)),
        Call::CutPlan => any_cut_plan(random, network),
        Call::Text | Call::Repair => unreachable!("each text of a set is asked for"),
    };
    let name = format!("{letter}{number}");
    Question { name, text, call, change: '-', present, wanted, count, rooms }.written()
}

/// Any two states, and a slice about as long as their operations.
fn any_operations(random: &mut Random, network: &Network) -> (Vec<u8>, Vec<u8>, usize) {
    let (present, wanted) = (any_state(random, network), any_state(random, network));
    let differing = present.iter().zip(&wanted).filter(|(before, after)| before != after).count();
    (present, wanted, near(random, OPERATION_LENGTH * differing))
}

/// A digit for each byte; a byte above 9 is 255.
fn digits(state: &[u8]) -> String {
    state.iter().map(|&byte| if byte < 10 { char::from(b'0' + byte) } else { 'F' }).collect()
}

fn bytes(digits: &[u8]) -> Vec<u8> {
    digits.iter().map(|&digit| if digit.is_ascii_digit() { digit - b'0' } else { 255 }).collect()
}

impl Question {
    fn written(&self) -> Vec<u8> {
        let head = format!("{} {}\n", self.text.len(), self.name);
        let first = format!("\n{}{} {}\n", self.listed().0, self.change, digits(&self.present));
        let slices = match (self.call, &self.rooms[..]) {
            (Call::CutPlan, [remaining, back]) => format!("{:016X} {remaining:04X} {back:04X}", self.count),
            _ => self.rooms.iter().map(|&room| ".".repeat(room)).collect(),
        };
        let rest = format!("{}\n{slices}\n", digits(&self.wanted));
        [head.as_bytes(), &self.text, first.as_bytes(), rest.as_bytes()].concat()
    }

    fn listed(&self) -> Listed {
        CALLS.into_iter().find(|listed| listed.1 == self.call).expect("each call is listed")
    }

    fn printed(&self) -> Printed {
        self.printed_with(None)
    }

    /// With a mistake about the forms of states, or with none.
    fn printed_with(&self, mistake: Option<Mistake>) -> Printed {
        let network = self.network();
        let answer = match self.call {
            Call::Repair => repair_answer(&self.text).and_then(|answer| self.fitting(answer)),
            _ => network.as_ref().map_err(|refusal| *refusal).and_then(|network| self.answer(network, mistake)),
        };
        let two = network.is_ok_and(|network| network.has_two_on_branch());
        let mut results = if two { two_results(self, answer.as_ref().ok()) } else { Vec::new() };
        let (result, fields, written) = match answer {
            Ok(answer) => (answer.result, answer.fields, answer.written),
            Err(Refusal { number, place }) => (format!("refused {number}"), self.refusal(number, place), Vec::new()),
        };
        results.push((format!("{}: {result}", self.listed().2), 1));
        let (name, output) = (self.name.clone(), self.output(&fields, &written));
        Printed { name, output, results }
    }

    /// Whether it asks for a plan, whole or cut off.
    pub fn asks_for_plan(&self) -> bool {
        matches!(self.call, Call::Plan | Call::CutPlan)
    }

    /// What is printed for a plan, whole or cut off, with a mistake about two switches on a branch.
    pub fn output_of_plan(&self, mistake: wrong_ends::Mistake) -> String {
        let answer = self.network().and_then(|network| {
            let pairs = mistake.plan(&network, &self.present, &self.wanted)?;
            let (count, written) = match self.call {
                Call::Plan => (pairs.len(), vec![mistake.lines(&network, &pairs)]),
                _ => {
                    let lists = mistake.resume(&pairs, self.count)?;
                    (lists[0].len(), lists.iter().map(|list| resume::lines(&network, list)).collect())
                }
            };
            self.fitting(counted(count, written))
        });
        match answer {
            Ok(answer) => self.output(&answer.fields, &answer.written),
            Err(Refusal { number, place }) => self.output(&self.refusal(number, place), &[]),
        }
    }

    pub fn output_with(&self, mistake: Mistake) -> String {
        self.printed_with(Some(mistake)).output
    }

    /// The records that the call gets.
    pub fn network(&self) -> Result<Network, Refusal> {
        reader::read(&changed(&self.text, self.change))
    }

    /// The slices as they are left, each with a line feed; without one there is the line feed alone.
    pub fn output(&self, fields: &str, written: &[String]) -> String {
        let written = written.iter().map(String::as_str).chain(std::iter::repeat(""));
        let slices = self.rooms.iter().zip(written);
        let slices: Vec<String> =
            slices.map(|(room, written)| format!(" [{written}{}]", ".".repeat(room - written.len()))).collect();
        format!("{}{fields}{}\n", self.name, slices.join("\n"))
    }

    /// Radiality, form and loss are three calls, which refuse alike.
    pub fn refusal(&self, number: u8, place: u16) -> String {
        format!(" refused {number} {place}").repeat(if self.call == Call::State { 3 } else { 1 })
    }

    fn answer(&self, network: &Network, mistake: Option<Mistake>) -> Result<Answer, Refusal> {
        let answer = match self.call {
            Call::State => state_answer(network, &self.present, mistake)?,
            Call::Best => best_answer(network, mistake),
            Call::Operations => operations_answer(network, &self.present, &self.wanted)?,
            Call::Plan => plan_answer(network, &self.present, &self.wanted)?,
            Call::Text => text_answer(changed(&self.text, self.change)),
            Call::CutPlan => cut_plan_answer(network, self)?,
            Call::Repair => repair_answer(&self.text)?,
        };
        self.fitting(answer)
    }

    /// "13, lent slice shorter than the answer."
    fn fitting(&self, answer: Answer) -> Result<Answer, Refusal> {
        refused_unless(answer.written.iter().zip(&self.rooms).all(|(written, &room)| written.len() <= room), 13, 0)?;
        Ok(answer)
    }
}

/// What is counted of a question on a feeder with two switches on a branch: its states, and an answered plan by its longest pair.
fn two_results(question: &Question, answer: Option<&Answer>) -> Vec<(String, usize)> {
    let states = [&question.present, &question.wanted].into_iter().filter(|state| !state.is_empty()).count();
    let longest = answer.and_then(|answer| answer.pairs.iter().map(Pair::moves).max()).unwrap_or(0);
    let compared = question.call == Call::State && answer.is_some();
    let counts = [
        (TEXTS_OF_TWO, 1),
        (STATES_OF_TWO, states),
        (LOSSES_OF_TWO, compared as usize),
        ("two switches on a branch: plans with pairs of two moves alone", (longest == 2) as usize),
        (LONG_PAIRS, (longest > 2) as usize),
        ("two switches on a branch: plans with a pair of four moves", (longest > 3) as usize),
    ];
    counts.into_iter().filter(|(_, count)| *count > 0).map(|(name, count)| (name.to_string(), count)).collect()
}

fn refused_unless(holds: bool, number: u8, place: u16) -> Result<(), Refusal> {
    if holds {
        Ok(())
    } else {
        Err(Refusal { number, place })
    }
}

/// What a state's live branches are, the original's radiality beside it, and the islands and the branch that are told.
fn formed(network: &Network, state: &[u8], mistake: Option<Mistake>) -> (Form, [u16; 2]) {
    let form = form::form(network, &network.live(state));
    let radial = Original::new(network).radial(state);
    assert_eq!(form == Form::Tree, radial, "the original and the reckoning disagree on a state");
    (form, mistake.map_or(form.fields(), |mistake| mistake.fields(network, state)))
}

fn state_answer(network: &Network, state: &[u8], mistake: Option<Mistake>) -> Result<Answer, Refusal> {
    refused_unless(well_formed(network, state), 10, 0)?;
    let (form, fields) = formed(network, state, mistake);
    let radial = form == Form::Tree;
    let (loss, refused) = match network.supply {
        Some(_) if !radial => ("refused 11 0".to_string(), ", loss refused 11"),
        _ => (format!("{:016x}", supply::loss(network, state).to_bits()), ""),
    };
    let fields = format!(" {:02x} {:08x} {loss}", radial as u8, form::number(fields));
    let result = format!("{ANSWERED}, {}{refused}", form.name());
    Ok(Answer { result, fields, written: Vec::new(), pairs: Vec::new() })
}

/// The fields of the 81 line, then those of the 84 line.
fn best_answer(network: &Network, mistake: Option<Mistake>) -> Answer {
    let answer = supply::solve(network);
    let ends = [2, 4, 20, 36, 52, 56, 58];
    let fields = ends.windows(2).map(|field| format!(" {}", answer.lines[field[0]..field[1]].to_ascii_lowercase()));
    let (form, [islands, branch]) = formed(network, &answer.best, mistake);
    Answer {
        result: format!("{ANSWERED}, {}", form.name()),
        fields: fields.chain([format!(" {islands:04x} {branch:04x}")]).collect(),
        written: vec![digits(&answer.best)],
        pairs: Vec::new(),
    }
}

fn operations_answer(network: &Network, present: &[u8], wanted: &[u8]) -> Result<Answer, Refusal> {
    refused_unless(well_formed(network, present), 10, 0)?;
    refused_unless(well_formed(network, wanted), 10, 1)?;
    let written = searches::operations(network, present, wanted);
    Ok(counted(written.len() / OPERATION_LENGTH, vec![written]))
}

fn plan_answer(network: &Network, present: &[u8], wanted: &[u8]) -> Result<Answer, Refusal> {
    let pairs = plan(network, present, wanted, usize::MAX)?;
    assert_eq!(judge::fault(network, present, wanted, &pairs), None, "the judge refuses the reckoning's plan");
    Ok(Answer { pairs: pairs.clone(), ..counted(pairs.len(), vec![plan::lines(network, &pairs)]) })
}

/// The plan is judged at every count, also where this one is refused.
fn cut_plan_answer(network: &Network, question: &Question) -> Result<Answer, Refusal> {
    let Question { present, wanted, count, .. } = question;
    let pairs = plan(network, present, wanted, usize::MAX)?;
    let moves = resume::moves(&pairs);
    let fault = judge::fault_of_moves(network, present, wanted, &moves);
    assert_eq!(fault, None, "the judge refuses the moves of the reckoning's plan");
    let lists = resume::resume(&moves, *count)?;
    Ok(Answer { pairs, ..counted(lists[0].len(), lists.iter().map(|list| resume::lines(network, list)).collect()) })
}

fn counted(count: usize, written: Vec<String>) -> Answer {
    Answer { result: ANSWERED.to_string(), fields: format!(" {count:04x}"), written, pairs: Vec::new() }
}

/// An accepted text is the only one of its records.
fn text_answer(text: Vec<u8>) -> Answer {
    let written = String::from_utf8(text).expect("an accepted text has digits and line feeds");
    counted(written.len(), vec![written])
}

/// A stored text needs no records.
fn repair_answer(text: &[u8]) -> Result<Answer, Refusal> {
    let written = repaired(text)?.output();
    Ok(counted(written.len(), vec![written]))
}

/// Document 01: "Records handed over without text are checked as their lines would be." The text of the records with the
/// fault: 1,001 iterations, only two buses, or 513 switches in the head.
fn changed(text: &[u8], change: char) -> Vec<u8> {
    let mut lines: Vec<Vec<u8>> = text.split_inclusive(|&c| c == b'\n').map(<[u8]>::to_vec).collect();
    match change {
        'I' => lines[0][32..36].copy_from_slice(b"03E9"),
        'U' => {
            lines[0][2..6].copy_from_slice(b"0002");
            let mut buses = 0;
            lines.retain(|line| {
                buses += line.starts_with(b"02") as usize;
                !line.starts_with(b"02") || buses <= 2
            });
        }
        'W' => lines[0][10..14].copy_from_slice(b"0201"),
        _ => (),
    }
    lines.concat()
}

/// What the program is to print for a file of questions.
pub fn answers(questions: &[u8]) -> String {
    expected(questions).output()
}

pub fn expected(questions: &[u8]) -> Run {
    Run(read(questions).iter().map(Question::printed).collect())
}

pub fn read(questions: &[u8]) -> Vec<Question> {
    let mut found = Vec::new();
    let mut rest = questions;
    while !rest.is_empty() {
        found.push(question(&mut rest).unwrap_or_else(|| crate::fail("the questions are damaged")));
    }
    found
}

fn question(rest: &mut &[u8]) -> Option<Question> {
    let head = std::str::from_utf8(line(rest)?).ok()?;
    let (length, name) = head.split_once(' ')?;
    let (text, behind) = rest.split_at_checked(length.parse().ok()?)?;
    *rest = behind.strip_prefix(b"\n")?;
    let (first, wanted, slice) = (line(rest)?, line(rest)?, line(rest)?);
    let (&[letter, change, b' '], present) = first.split_first_chunk()? else { return None };
    let call = CALLS.into_iter().find(|listed| listed.0 == char::from(letter))?.1;
    let change = char::from(change);
    let (name, text, present, wanted) = (name.to_string(), text.to_vec(), bytes(present), bytes(wanted));
    let (count, rooms) = match call {
        Call::State => (0, Vec::new()),
        Call::CutPlan => count_and_rooms(std::str::from_utf8(slice).ok()?)?,
        _ => (0, vec![slice.len()]),
    };
    Some(Question { name, text, call, change, present, wanted, count, rooms })
}

/// The count in sixteen digits and the lengths of two slices in four each, a blank between them.
fn count_and_rooms(line: &str) -> Option<(u64, Vec<usize>)> {
    let mut fields = line.split(' ');
    let mut field = |width| fields.next().filter(|field| field.len() == width);
    let count = u64::from_str_radix(field(16)?, 16).ok()?;
    let [remaining, back] = [field(4)?, field(4)?].map(|field| usize::from_str_radix(field, 16).ok());
    fields.next().is_none().then_some((count, vec![remaining?, back?]))
}

fn line<'a>(rest: &mut &'a [u8]) -> Option<&'a [u8]> {
    let end = rest.iter().position(|&c| c == b'\n')?;
    let line = &rest[..end];
    *rest = &rest[end + 1..];
    Some(line)
}
