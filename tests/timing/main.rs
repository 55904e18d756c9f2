//! One driver for both sides: the Rust module, unchanged, and the proved static library, on the same inputs. What both answer is added up
//! and must be the same; the least time of several samples is printed. A loss with a supply must not take much longer than one without.

#![allow(dead_code)]

#[path = "../oracle/src/driver.rs"]
mod driver;
#[path = "../oracle/src/feeder.rs"]
mod feeder;
mod feeders;
#[path = "../interface/library.rs"]
mod library;
#[path = "../oracle/src/reckoning/mod.rs"]
mod reckoning;
#[path = "../oracle/src/supply.rs"]
mod supply;

use driver::Original;
use feeder::Feeder;
use feeders::Timed;
use original::network::reconfiguration::{verify_radiality, NetworkConfiguration};
use reckoning::form;
use std::hint::black_box;
use std::process::ExitCode;
use std::time::{Duration, Instant};

/// Kinds of calls of `timing_rounds`, crates/timing/src/rounds.rt. Searches have `timing_searches`; writing a text has `timing_texts`, crates/text_timing.
const READING: u8 = 0;
const RADIALITY: u8 = 1;
const LOSS: u8 = 2;
const PLAN: u8 = 3;
const SEARCH: u8 = 4;
const WRITING: u8 = 5;

/// What a radial state counts for; another counts for its islands and its branch, as one number.
const TREE: u64 = 65_535;

/// Bytes that are enough for the moves of every plan, and for its pairs.
const MOVES_LENGTH: usize = 4608;

const SAMPLES: usize = 15;
const SAMPLE: Duration = Duration::from_millis(40);

extern "C" {
    fn timing_rounds(
        kind: u8,
        text: *const u8,
        text_length: usize,
        a: *const u8,
        a_length: usize,
        b: *const u8,
        b_length: usize,
        times: u64,
    ) -> u64;
    fn timing_searches(text: *const u8, text_length: usize, times: u64) -> u64;
    fn timing_texts(text: *const u8, text_length: usize, out: *mut u8, out_length: usize, times: u64) -> u64;
}

/// So many rounds of a call, the two states in turn, and the sum of what they answer.
fn rattle(kind: u8, text: &[u8], a: &[u8], b: &[u8], times: u64) -> u64 {
    match kind {
        SEARCH => unsafe { timing_searches(text.as_ptr(), text.len(), times) },
        WRITING => {
            let mut out = vec![0; text.len()];
            let sum = unsafe { timing_texts(text.as_ptr(), text.len(), out.as_mut_ptr(), out.len(), times) };
            assert_eq!(out, text, "the text written is not the one read");
            sum
        }
        _ => unsafe { timing_rounds(kind, text.as_ptr(), text.len(), a.as_ptr(), a.len(), b.as_ptr(), b.len(), times) },
    }
}

/// The Rust's side of a row, its configurations made before the time is taken.
struct Rust {
    original: Original,
    configurations: [NetworkConfiguration; 2],
}

impl Rust {
    fn new(timed: &Timed, text: &[u8]) -> Self {
        let original = Original::new(&reckoning::reader::read(text).expect("the feeder is acceptable"));
        let configurations = [original.configuration(&timed.first), original.configuration(&timed.second)];
        Self { original, configurations }
    }

    fn rounds(&self, times: u64, call: impl Fn(&NetworkConfiguration) -> u64) -> u64 {
        (0..times).fold(0, |sum: u64, i| sum.wrapping_add(call(black_box(&self.configurations[(i % 2) as usize]))))
    }

    fn radiality(&self, times: u64) -> u64 {
        let switches = &self.original.solver.config.switches;
        self.rounds(times, |configuration| verify_radiality(&self.original.network, configuration, switches) as u64)
    }

    fn loss(&self, times: u64) -> u64 {
        let network = &self.original.network;
        let loss = |configuration: &_| self.original.solver.evaluate_config(network, configuration);
        self.rounds(times, |configuration| loss(configuration).expect("every switch is listed").to_bits())
    }

    /// The best loss of a search.
    fn search(&self, times: u64) -> u64 {
        let search = || self.original.solver.solve(black_box(&self.original.network)).expect("every text is solved");
        (0..times).fold(0, |sum: u64, _| sum.wrapping_add(search().optimized_losses_mw.to_bits()))
    }
}

fn main() -> ExitCode {
    println!("| call | feeder | Rust | Rattle | Rust ÷ Rattle |");
    println!("|---|---|---|---|---|");
    let timed = feeders::all();
    for timed in &timed {
        row("reading a text", timed, None, READING);
    }
    for timed in &timed {
        row("writing a text", timed, None, WRITING);
    }
    feeders::stored().iter().for_each(row_of_a_repair);
    for timed in &timed {
        row("radiality of a state", timed, Some(Rust::radiality), RADIALITY);
    }
    row("radiality of a state", &feeders::all_live(), Some(Rust::radiality), RADIALITY);
    for timed in &timed {
        row("loss of a state", timed, Some(Rust::loss), LOSS);
    }
    let supplied: Vec<Beside> = feeders::supplied().iter().map(row_with_supply).collect();
    for timed in &timed {
        row("plan", timed, None, PLAN);
    }
    feeders::cut().iter().for_each(rows_of_a_cut);
    for (name, timed) in &feeders::searched() {
        row(name, timed, Some(Rust::search), SEARCH);
    }
    for (name, timed) in &feeders::long() {
        row(name, timed, None, SEARCH);
    }
    println!();
    supplied.iter().for_each(Beside::print);
    if supplied.iter().any(|beside| beside.ratio > beside.most) {
        return ExitCode::FAILURE;
    }
    ExitCode::SUCCESS
}

/// A loss call with a supply beside the same call without: the ratio of their times, and the greatest that is allowed.
struct Beside {
    name: String,
    ratio: f64,
    most: f64,
}

impl Beside {
    fn print(&self) {
        let Beside { name, ratio, most } = self;
        let verdict = if ratio > most { "TOO LONG" } else { "ok" };
        println!("loss, {name}: {ratio:.2} times the same call without, at most {most}: {verdict}");
    }
}

/// A line of the table; the Rust has no supply. The answers must be its losses of the records drawn away from the supply. The call is sampled in turn with the
/// same call on the text without the 05 line.
fn row_with_supply((place, timed, most): &(&str, Timed, f64)) -> Beside {
    let text = timed.feeder.text();
    let without = Feeder { supply: None, ..timed.feeder.clone() }.text();
    let rounds = |text: &[u8], times| rattle(LOSS, text, &timed.first, &timed.second, times);
    let network = reckoning::reader::read(&text).expect("the feeder is acceptable");
    let drawn = [&timed.first, &timed.second].map(|state| supply::loss(&network, state).to_bits());
    assert_eq!(drawn[0].wrapping_add(drawn[1]), rounds(&text, 2), "{place}, {}: the two answer differently", timed.name);
    let other = Sampled::new(|times| rounds(&without, times));
    let (ours, before) = Sampled::new(|times| rounds(&text, times)).least(Some(other));
    println!("| loss of a state, {place} | {} | none | {} |  |", timed.name, shown(ours));
    let ratio = ours / before.expect("both are sampled");
    Beside { name: format!("{place}, {}", timed.name), ratio, most: *most }
}

/// A line of the table, through the library for controllers, so that the reading of the text is in it. What is written is the reckoning's; the Rust has no repair.
fn row_of_a_repair((name, timed): &(&str, Timed)) {
    let text = timed.feeder.text();
    let reckoned = reckoning::repair::repaired(&text).expect("the text is repaired").output();
    let repairs = |times| {
        let mut out = vec![0; text.len()];
        let sum = in_turn(times, |_| library::repair_text(&text, &mut out).value);
        assert_eq!(&out[..reckoned.len()], reckoned.as_bytes(), "{name}: the repair is not the reckoning's");
        sum
    };
    assert_eq!(repairs(2), 2 * reckoned.len() as u64, "{name}: all bytes are counted");
    let (ours, _) = Sampled::new(repairs).least(None::<Sampled<fn(u64) -> u64>>);
    println!("| {name} | {} | none | {} |  |", timed.name, shown(ours));
}

/// Two lines of the table, through the library for controllers, so that the reading of the text is in both: a plan, and the same plan cut off after half of its moves.
/// The pairs and the moves are the reckoning's. They are sampled in turn; the Rust has neither.
fn rows_of_a_cut(timed: &Timed) {
    let text = timed.feeder.text();
    let network = reckoning::reader::read(&text).expect("the feeder is acceptable");
    let states = [&timed.first[..], &timed.second[..]];
    let reckoned = [0, 1].map(|i| reckoning::plan::plan(&network, states[i], states[1 - i], usize::MAX).expect("there is a plan"));
    let moves = [0, 1].map(|i| reckoned[i].iter().map(|pair| pair.moves() as u64).sum::<u64>());
    let plans = |times| {
        let mut out = [0; MOVES_LENGTH];
        in_turn(times, |i| library::plan(&text, states[i], states[1 - i], &mut out).value)
    };
    let cuts = |times| {
        let (mut remaining, mut back) = ([0; MOVES_LENGTH], [0; MOVES_LENGTH]);
        in_turn(times, |i| library::resume(&text, states[i], states[1 - i], moves[i] / 2, &mut remaining, &mut back).value)
    };
    assert_eq!(plans(2), in_turn(2, |i| reckoned[i].len() as u64), "{}: a line for each pair", timed.name);
    assert_eq!(cuts(2), in_turn(2, |i| moves[i] - moves[i] / 2), "{}: half of the moves remain", timed.name);
    let (plan, resumed) = Sampled::new(plans).least(Some(Sampled::new(cuts)));
    println!("| plan, with the reading | {} | none | {} |  |", timed.name, shown(plan));
    println!("| resuming in its middle, with the reading | {} | none | {} |  |", timed.name, shown(resumed.expect("both are sampled")));
}

/// So many rounds, from the one state and from the other in turn, and the sum of what they answer.
fn in_turn(times: u64, mut call: impl FnMut(usize) -> u64) -> u64 {
    (0..times).fold(0, |sum: u64, i| sum.wrapping_add(call((i % 2) as usize)))
}

/// A line of the table. The Rust has no reader, no writer and no planner.
fn row(call: &str, timed: &Timed, rust: Option<fn(&Rust, u64) -> u64>, kind: u8) {
    let text = timed.feeder.text();
    let side = Rust::new(timed, &text);
    let ours = Sampled::new(|times| rattle(kind, &text, &timed.first, &timed.second, times));
    let (theirs, ours) = match rust {
        None => (None, ours.least(None::<Sampled<fn(u64) -> u64>>).0),
        Some(rust) => {
            let rounds = |times| rust(&side, times);
            let answers = if kind == RADIALITY { radial(timed, &text) } else { (ours.rounds)(2) };
            assert_eq!(rounds(2), answers, "{call}, {}: the two answer differently", timed.name);
            let (ours, theirs) = ours.least(Some(Sampled::new(rounds)));
            (theirs, ours)
        }
    };
    let ratio = theirs.map_or(String::new(), |theirs| format!("{:.1}", theirs / ours));
    println!("| {call} | {} | {} | {} | {ratio} |", timed.name, theirs.map_or("none".to_string(), shown), shown(ours));
}

/// How many of the two states are trees, which is all that the Rust tells: their forms are held to the reckoning's.
fn radial(timed: &Timed, text: &[u8]) -> u64 {
    let network = reckoning::reader::read(text).expect("the feeder is acceptable");
    let states = [&timed.first, &timed.second];
    let answered = states.map(|state| rattle(RADIALITY, text, state, state, 1));
    let reckoned = states.map(|state| form::number(form::form(&network, &network.live(state)).fields()).into());
    assert_eq!(answered, reckoned, "{}: the form is not the reckoning's", timed.name);
    answered.iter().filter(|&&answer| answer == TREE).count() as u64
}

/// Rounds of a call, and how many of them take long enough to be timed.
struct Sampled<F: Fn(u64) -> u64> {
    rounds: F,
    times: u64,
}

impl<F: Fn(u64) -> u64> Sampled<F> {
    fn new(rounds: F) -> Self {
        let mut sampled = Self { rounds, times: 1 };
        while sampled.sample() * sampled.times as f64 <= SAMPLE.as_secs_f64() {
            sampled.times *= 2;
        }
        sampled
    }

    /// The time of one round, in seconds.
    fn sample(&self) -> f64 {
        let start = Instant::now();
        black_box((self.rounds)(black_box(self.times)));
        start.elapsed().as_secs_f64() / self.times as f64
    }

    /// The least of several samples, the two sides in turn: other work on the machine then slows down both. One sample of what takes a second.
    fn least<G: Fn(u64) -> u64>(&self, other: Option<Sampled<G>>) -> (f64, Option<f64>) {
        let mut least = (self.sample(), other.as_ref().map(Sampled::sample));
        let long = least.0.max(least.1.unwrap_or(0.0)) > 1.0;
        for _ in 1..if long { 1 } else { SAMPLES } {
            least.0 = least.0.min(self.sample());
            least.1 = other.as_ref().map(|other| other.sample().min(least.1.expect("there is a first sample")));
        }
        least
    }
}

fn shown(seconds: f64) -> String {
    match seconds {
        s if s < 1e-3 => format!("{:.2} µs", s * 1e6),
        s if s < 1.0 => format!("{:.2} ms", s * 1e3),
        s => format!("{s:.2} s"),
    }
}
