//! Runs a program under test on every case of a set, a text of `feeder` or some questions of `call_cases`, and holds its
//! output against the expected one.

use crate::cases::{Case, Cases, OWN_LOOPS, TEXTS_OF_TWO};
use crate::expected::{Answered, Expected};
use crate::program::Running;
use crate::reckoning::form::{parallel, Form};
use crate::reckoning::{judge, Network};
use crate::supplied;
use std::collections::{BTreeMap, BTreeSet};
use std::sync::atomic::{AtomicBool, Ordering};
use std::sync::Mutex;
use std::time::Duration;

const SAVED: &str = "target/oracle/difference.txt";
/// One text in so many comes in two pieces.
const IN_PIECES: usize = 97;

/// What a program is to print for a case.
pub trait Right {
    /// How many texts or questions the case has.
    fn count(&self) -> usize;
    fn output(&self) -> String;
    /// What is wrong with an output; none if nothing is.
    fn fault(&self, output: &[u8]) -> Option<String>;
    /// The results that are counted, and how often.
    fn results(&self) -> Vec<(String, usize)>;
}

/// How many cases of each kind were compared.
#[derive(Default)]
pub struct Tally {
    pub kinds: Vec<(&'static str, usize)>,
    pub results: BTreeMap<String, usize>,
}

impl Tally {
    pub fn add(&mut self, kind: &'static str, right: &impl Right) {
        match self.kinds.iter_mut().find(|(name, _)| *name == kind) {
            Some((_, count)) => *count += right.count(),
            None => self.kinds.push((kind, right.count())),
        }
        for (result, more) in right.results() {
            *self.results.entry(result).or_default() += more;
        }
    }

    pub fn lines(&self) -> String {
        let kinds: String = self.kinds.iter().map(|(kind, count)| format!("{count:9}  {kind}\n")).collect();
        let results: String = self.results.iter().map(|(result, count)| format!("{count:9}  {result}\n")).collect();
        format!("{kinds}\n{results}")
    }

    pub fn total(&self) -> usize {
        self.kinds.iter().map(|(_, count)| count).sum()
    }

    /// What was counted too seldom, against how often it is to be at least.
    pub fn too_few(&self, least: &[(&'static str, usize)]) -> Vec<String> {
        let counted = |name: &str| self.results.get(name).copied().unwrap_or(0);
        let missing = least.iter().filter(|(name, least)| counted(name) < *least);
        missing.map(|(name, least)| format!("{name}: {}, at least {least} are wanted", counted(name))).collect()
    }

    /// How many are of the kinds that begin so.
    fn of_kinds(&self, beginning: &str) -> usize {
        self.kinds.iter().filter(|(kind, _)| kind.starts_with(beginning)).map(|(_, count)| count).sum()
    }

    /// What was compared: those of the kinds with the 05 line and with own loops for themselves.
    fn compared(&self, name: &str) -> String {
        let (with_line, own_loops) = (self.of_kinds(supplied::LINE), self.of_kinds(OWN_LOOPS));
        let own = if own_loops > 0 { format!(", {own_loops} about own loops") } else { String::new() };
        format!(
            "{} {name} and {with_line} with the 05 line compared{own}, no difference",
            self.total() - with_line - own_loops
        )
    }
}

impl Right for Expected {
    fn count(&self) -> usize {
        1
    }

    fn output(&self) -> String {
        self.output()
    }

    fn fault(&self, output: &[u8]) -> Option<String> {
        self.fault(output)
    }

    fn results(&self) -> Vec<(String, usize)> {
        match self {
            Expected::Refused(refusal) => vec![(format!("refused {}", refusal.number), 1)],
            Expected::Answered(answered) => answer_results(answered),
        }
    }
}

fn answer_results(answered: &Answered) -> Vec<(String, usize)> {
    let method = ["exchange", "tabu", "exhaustive"][usize::from(answered.network.method)];
    let base = if answered.pairs.is_some() { "radial base" } else { "base not radial" };
    let mut results = vec![(format!("answered, {method}, {base}"), 1)];
    if answered.network.has_two_on_branch() {
        results.extend(two_results(&answered.network, method).into_iter().map(|name| (name, 1)));
    }
    results.extend(form_results(answered).into_iter().map(|name| (format!("best state: {name}"), 1)));
    if answered.best != answered.network.base() {
        results.push((format!("answered, {method}, {base}: switches moved"), 1));
    }
    let pairs = answered.pairs.as_ref().map_or(0, Vec::len);
    if pairs > 0 {
        let several = if pairs > 1 { "plans of several pairs" } else { "plans of one pair" };
        results.extend([(several.to_string(), 1), ("pairs judged".to_string(), pairs)]);
    }
    results
}

/// What is counted of a feeder with two switches on a branch: what its base is, and which two it has.
fn two_results(network: &Network, method: &str) -> Vec<String> {
    let base = judge::form(network, &network.live(&network.base())).name();
    let mut kinds = BTreeSet::new();
    let all = || network.switches.iter().enumerate();
    for (at, first) in all() {
        let Some((other, second)) = all().skip(at + 1).find(|(_, s)| s.branch == first.branch) else { continue };
        let ties = [first, second].iter().filter(|s| s.normally_open).count();
        let locked = [first, second].iter().filter(|s| !s.can_operate).count();
        kinds.insert(["two sections", "tie and section", "two ties"][ties]);
        kinds.insert(["both operable", "one locked", "both locked"][locked]);
        kinds.insert(if network.branches[first.branch].in_service { "in service" } else { "out of service" });
        kinds.insert(if other > at + 1 { "others between them" } else { "side by side" });
    }
    let kinds = kinds.into_iter().map(|kind| format!("{TEXTS_OF_TWO}: {kind}"));
    [TEXTS_OF_TWO.to_string(), format!("{TEXTS_OF_TWO}, {method}, base: {base}")].into_iter().chain(kinds).collect()
}

/// What the best state is; of a loop also which branch closes it.
fn form_results(answered: &Answered) -> Vec<&'static str> {
    let network = &answered.network;
    let mut results = vec![answered.form.name()];
    if let Form::Loop { branch, .. } = answered.form {
        if parallel(network, &network.live(&answered.best), branch.into()) {
            results.push("a loop of two parallels");
        }
    }
    if answered.form != Form::Tree && network.buses.len() == 256 {
        results.push("no tree, 256 buses");
    }
    results
}

/// What is compared, by its name, what is expected of a case, and how often some results are to be counted at least.
pub struct Compared<R> {
    pub name: &'static str,
    pub cases: Cases,
    pub expected: fn(&[u8]) -> R,
    pub least: Vec<(&'static str, usize)>,
}

struct Difference {
    number: usize,
    case: Case,
    fault: String,
    expected: String,
    output: String,
}

/// Whether all cases got their expected output; the counts and the first difference are printed.
pub fn compare<R: Right>(compared: Compared<R>, program: &[String], workers: usize) -> bool {
    let Compared { name, cases, expected, least } = compared;
    let queue = Mutex::new(cases.enumerate());
    let tally = Mutex::new(Tally::default());
    let first = Mutex::new(None);
    let done = AtomicBool::new(false);
    let running: Vec<Running> = (0..workers).map(|_| Running::default()).collect();
    std::thread::scope(|scope| {
        let work: Vec<_> =
            running.iter().map(|own| scope.spawn(|| worker(own, program, expected, &queue, &tally, &first))).collect();
        scope.spawn(|| watch(&running, &done));
        // The watch must be told to end whatever became of the workers, or the scope waits for it forever.
        let good = work.into_iter().map(|worker| worker.join().is_ok()).fold(true, |all, one| all & one);
        done.store(true, Ordering::Relaxed);
        assert!(good, "a worker panicked");
    });
    let tally = tally.into_inner().expect("the workers are done");
    println!("{}", tally.lines());
    match first.into_inner().expect("the workers are done") {
        None => {
            println!("{}", tally.compared(name));
            let too_few = tally.too_few(&least);
            too_few.iter().for_each(|line| println!("TOO FEW  {line}"));
            too_few.is_empty()
        }
        Some(difference) => {
            report(name, &difference);
            false
        }
    }
}

fn watch(running: &[Running], done: &AtomicBool) {
    while !done.load(Ordering::Relaxed) {
        running.iter().for_each(Running::watch);
        std::thread::sleep(Duration::from_millis(100));
    }
}

/// Takes cases until there are none or a difference is found. The earliest difference is kept.
fn worker<R: Right>(
    own: &Running,
    program: &[String],
    expected: fn(&[u8]) -> R,
    queue: &Mutex<std::iter::Enumerate<Cases>>,
    tally: &Mutex<Tally>,
    first: &Mutex<Option<Difference>>,
) {
    while first.lock().expect("no panic with the lock").is_none() {
        let Some((number, case)) = queue.lock().expect("no panic with the lock").next() else { return };
        let expected = expected(&case.text);
        let run = own.run(program, &case.text, number % IN_PIECES == 0);
        let fault = match &run {
            Err(fault) => Some(fault.clone()),
            Ok(output) => expected.fault(output),
        };
        tally.lock().expect("no panic with the lock").add(case.kind, &expected);
        if let Some(fault) = fault {
            let output = String::from_utf8_lossy(&run.unwrap_or_default()).into_owned();
            let found = Difference { number, case, fault, expected: expected.output(), output };
            let mut first = first.lock().expect("no panic with the lock");
            if first.as_ref().is_none_or(|earlier| number < earlier.number) {
                *first = Some(found);
            }
        }
    }
}

fn report(name: &str, difference: &Difference) {
    println!("DIFFERENCE in {name} at {} ({}): {}", difference.number, difference.case.kind, difference.fault);
    match std::fs::write(SAVED, &difference.case.text) {
        Ok(()) => println!("its input is saved in {SAVED} ({} bytes)", difference.case.text.len()),
        Err(error) => println!("{SAVED}: {error}"),
    }
    println!("expected:\n{}found:\n{}", difference.expected, shortened(&difference.output));
}

fn shortened(output: &str) -> String {
    output.chars().take(10_000).collect()
}
