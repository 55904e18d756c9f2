//! The oracle: the original Rust and an independent reckoning of documents 01 and 02, against a program under test.

mod calls;
mod cases;
mod check;
mod compare;
mod damage;
mod driver;
mod ends;
mod expected;
mod feeder;
mod findings;
mod flat;
mod forms;
mod limits;
mod list;
mod loops;
mod program;
mod random;
mod reckoning;
mod records;
mod repairs;
mod shapes;
mod short;
mod states;
mod supplied;
mod supply;
mod values;
mod wrong;
mod wrong_calls;
mod wrong_ends;
mod wrong_forms;
mod wrong_repairs;

use cases::Size;
use compare::{Compared, Right};
use std::io::{Read, Write};
use std::process::ExitCode;

const USAGE: &str = "usage:
  oracle expected                          text on standard input: what feeder is to print
  oracle solve                             records on standard input: the expected output of each, as records
  oracle compare SIZE SEED PROGRAM [ARG]   runs the program on the set of that size (small, large) and seed
  oracle compare-calls SIZE SEED PROGRAM [ARG]
                                           runs the program on that many questions
  oracle compare-written SIZE SEED PROGRAM [ARG]
                                           runs the program on the accepted texts of the set, to be written back
  oracle repaired                          text on standard input: what repair is to print
  oracle compare-repair SIZE SEED PROGRAM [ARG]
                                           runs the program on texts to be repaired
  oracle check                             document 01's worked examples, on the original
  oracle agree SIZE SEED                   the steps of documents 01 and 02, as reckoned, against the original
  oracle flat                              the original's sensitivities at flat voltage
  oracle findings                          where the original's comments are not what its code does
  oracle wrong NAME                        text on standard input: the output of a program with that mistake
  oracle wrong-programs SIZE SEED          for each mistake, the first text of the set that shows it
  oracle wrong-calls SIZE SEED             for each mistake with a plan cut off, and about what live branches are, the first question that shows it
  oracle wrong-repair NAME                 text on standard input: the output of a repair with that mistake
  oracle wrong-repairs SIZE SEED           for each mistake in a repair, the first text that shows it
  oracle smallest NAME                     the smallest feeder that shows a mistake
  oracle list SEED                         the fixed list of texts and expected outputs
  oracle entry FILE NUMBER                 one entry of such a list
  oracle questions COUNT SEED              calls on states, slices, operations and plans
  oracle cut-plans COUNT SEED              calls on plans cut off
  oracle answers                           questions on standard input: their answers";

fn main() -> ExitCode {
    let arguments: Vec<String> = std::env::args().skip(1).collect();
    let words: Vec<&str> = arguments.iter().map(String::as_str).collect();
    let good = match words[..] {
        ["expected"] => print(expected::expected(&input()).output().as_bytes()),
        ["solve"] => print(&records::solve(&input())),
        ["compare", size, seed, _, ..] => {
            let least = named(size).least.texts();
            let texts = Compared { name: "texts", cases: set(size, seed), expected: expected::expected, least };
            print!("{}", cases::left_out());
            compare::compare(texts, &arguments[3..], workers())
        }
        ["compare-calls", size, seed, _, ..] => {
            let least = named(size).least.questions();
            let questions =
                Compared { name: "questions", cases: questions(size, seed), expected: calls::expected, least };
            compare::compare(questions, &arguments[3..], workers())
        }
        ["compare-written", size, seed, _, ..] => {
            let (cases, least) = (written_back(size, seed), Vec::new());
            let texts = Compared { name: "texts written back", cases, expected: calls::expected, least };
            compare::compare(texts, &arguments[3..], workers())
        }
        ["repaired"] => print(repairs::expected(&input()).output().as_bytes()),
        ["compare-repair", size, seed, _, ..] => {
            let (cases, least) = (repairs::cases(named(size), number(seed)), named(size).least.repairs());
            let texts = Compared { name: "texts repaired", cases, expected: repairs::expected, least };
            compare::compare(texts, &arguments[3..], workers())
        }
        ["check"] => check::worked_examples(),
        ["agree", size, seed] => check::agree(set(size, seed)),
        ["flat"] => flat::all_equal(),
        ["findings"] => findings::print(),
        ["wrong", name] => print(wrong::named(name).output(&input()).as_bytes()),
        ["wrong-programs", size, seed] => wrong::all_caught(set(size, seed)),
        ["wrong-calls", size, seed] => wrong_calls::all_caught(named(size), number(seed)),
        ["wrong-repair", name] => print(wrong_repairs::output(wrong_repairs::named(name), &input()).as_bytes()),
        ["wrong-repairs", size, seed] => wrong_repairs::all_caught(repairs::cases(named(size), number(seed))),
        ["smallest", name] => print(&wrong::smallest(wrong::named(name))),
        ["list", seed] => print(&list::list(number(seed))),
        ["entry", file, entry] => list::print_entry(&read_file(file), number(entry) as usize),
        ["questions", count, seed] => {
            calls::questions(number(count) as usize, number(seed)).all(|question| print(&question))
        }
        ["cut-plans", count, seed] => {
            calls::cut_plans(number(count) as usize, number(seed)).all(|question| print(&question))
        }
        ["answers"] => print(calls::answers(&input()).as_bytes()),
        _ => {
            eprintln!("{USAGE}");
            false
        }
    };
    if good {
        ExitCode::SUCCESS
    } else {
        ExitCode::FAILURE
    }
}

fn set(size: &str, seed: &str) -> cases::Cases {
    cases::set(named(size), number(seed))
}

/// Questions on texts without the 05 line, then on feeders with a full queue, then on texts with the line; then on plans cut off; on loops and
/// islands; on repairs behind all.
fn questions(size: &str, seed: &str) -> cases::Cases {
    let (size, seed) = (named(size), number(seed));
    let before = calls::runs("questions", calls::questions(size.questions, seed));
    let full_queue = calls::full_queue_questions(size.full_queue_questions, seed);
    let with_line = calls::questions_with_line(size.with_line.questions, seed);
    let later =
        calls::runs(calls::FULL_QUEUE_QUESTIONS, full_queue).chain(calls::runs("05 line: questions", with_line));
    let cut = calls::runs(calls::CUT_PLANS, calls::cut_plans(size.cut_plans, seed));
    let cut_with_line = calls::cut_plans_with_line(size.with_line.cut_plans, seed);
    let forms = calls::runs(calls::FORM_QUESTIONS, calls::form_questions(size.form_questions, seed));
    let cut = cut.chain(calls::runs(calls::CUT_PLANS_WITH_LINE, cut_with_line));
    let repairs = calls::runs(calls::REPAIRS, calls::repairs(size.repairs.questions, seed));
    Box::new(before.chain(later).chain(cut).chain(forms).chain(repairs))
}

/// The accepted texts of the set, to be written back.
fn written_back(size: &str, seed: &str) -> cases::Cases {
    let (size, seed) = (named(size), number(seed));
    let before = calls::runs("texts written back", calls::written_back(cases::cases(size, seed)));
    let with_line = calls::written_back(supplied::cases(size, seed));
    Box::new(before.chain(calls::runs("05 line: texts written back", with_line)))
}

fn named(size: &str) -> Size {
    Size::named(size).unwrap_or_else(|| fail("the size is small or large"))
}

fn number(word: &str) -> u64 {
    word.parse().unwrap_or_else(|_| fail("a number is wanted"))
}

fn input() -> Vec<u8> {
    let mut bytes = Vec::new();
    std::io::stdin().read_to_end(&mut bytes).unwrap_or_else(|error| fail(&error.to_string()));
    bytes
}

fn read_file(name: &str) -> Vec<u8> {
    std::fs::read(name).unwrap_or_else(|error| fail(&format!("{name}: {error}")))
}

fn print(bytes: &[u8]) -> bool {
    std::io::stdout().write_all(bytes).is_ok()
}

fn workers() -> usize {
    std::thread::available_parallelism().map_or(2, |count| count.get())
}

fn fail(message: &str) -> ! {
    eprintln!("oracle: {message}");
    std::process::exit(2)
}
