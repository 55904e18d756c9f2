//! The set of texts that a size and a seed give, in a fixed order.

use crate::feeder::Feeder;
use crate::random::Random;
use crate::{damage, ends, forms, limits, loops, shapes, short, supplied};

pub struct Case {
    pub kind: &'static str,
    pub text: Vec<u8>,
}

pub type Cases = Box<dyn Iterator<Item = Case> + Send>;

/// How many texts of each seeded kind; the fixed and the exhaustive ones are always there.
#[derive(Clone, Copy)]
pub struct Size {
    pub each_shape: usize,
    pub damaged: usize,
    pub three_buses: usize,
    pub full: usize,
    pub full_queue: usize,
    pub loops_and_islands: usize,
    pub questions: usize,
    pub full_queue_questions: usize,
    pub form_questions: usize,
    pub cut_plans: usize,
    /// Texts with branches from a bus to itself.
    pub own_loops: usize,
    pub repairs: Repairs,
    /// The same with the 05 line.
    pub with_line: WithLine,
    pub least: Least,
}

/// What is counted of feeders with two switches on a branch: answered texts; states of questions, those whose radiality and loss are asked for; plans with a
/// pair that moves three or four.
pub const TEXTS_OF_TWO: &str = "two switches on a branch";
pub const STATES_OF_TWO: &str = "two switches on a branch: states";
pub const LOSSES_OF_TWO: &str = "two switches on a branch: states with radiality, form and loss";
pub const LONG_PAIRS: &str = "two switches on a branch: plans with a pair of three or four moves";

/// How much of a set is to have two switches on a branch: answered texts; states of questions, those with radiality and loss among them; plans with
/// a pair that moves three or four; and how many repairs are to drop lines.
#[derive(Clone, Copy)]
pub struct Least {
    texts: usize,
    states: usize,
    losses: usize,
    long_pairs: usize,
    repaired: usize,
}

/// What is counted of repairs: texts that lost lines, without and with the 05 line, and those whose base is a tree without the lost branches alone.
pub const REPAIRED: [&str; 3] = ["repaired", "repaired, with the 05 line", "repaired: cured of 15"];

impl Least {
    pub fn texts(self) -> Vec<(&'static str, usize)> {
        vec![(TEXTS_OF_TWO, self.texts)]
    }

    pub fn questions(self) -> Vec<(&'static str, usize)> {
        vec![(STATES_OF_TWO, self.states), (LOSSES_OF_TWO, self.losses), (LONG_PAIRS, self.long_pairs)]
    }

    pub fn repairs(self) -> Vec<(&'static str, usize)> {
        REPAIRED.into_iter().zip([self.repaired, self.repaired / 3, self.repaired / 5]).collect()
    }
}

/// How many texts the repair is tried on, as a program and as a call; of the texts of the set one in `step`.
#[derive(Clone, Copy)]
pub struct Repairs {
    pub drawn: usize,
    pub damaged: usize,
    pub any_bytes: usize,
    pub step: usize,
    pub questions: usize,
}

#[derive(Clone, Copy)]
pub struct WithLine {
    pub few_buses: usize,
    pub each_shape: usize,
    pub damaged: usize,
    pub full: usize,
    pub questions: usize,
    pub cut_plans: usize,
}

impl Size {
    pub fn named(name: &str) -> Option<Self> {
        match name {
            "small" => Some(Size {
                each_shape: 250,
                damaged: 4_000,
                three_buses: 2_000,
                full: 3,
                full_queue: 36,
                loops_and_islands: 300,
                questions: 20_000,
                full_queue_questions: 60,
                form_questions: 400,
                cut_plans: 6_700,
                own_loops: 600,
                repairs: Repairs { drawn: 800, damaged: 600, any_bytes: 300, step: 60, questions: 6_000 },
                with_line: WithLine {
                    few_buses: 600,
                    each_shape: 40,
                    damaged: 500,
                    full: 3,
                    questions: 2_000,
                    cut_plans: 330,
                },
                least: Least { texts: 10_000, states: 20_000, losses: 3_500, long_pairs: 1_000, repaired: 600 },
            }),
            "large" => Some(Size {
                each_shape: 10_000,
                damaged: 200_000,
                three_buses: 200_000,
                full: 30,
                full_queue: 540,
                loops_and_islands: 6_000,
                questions: 200_000,
                full_queue_questions: 1_000,
                form_questions: 8_000,
                cut_plans: 67_000,
                own_loops: 30_000,
                repairs: Repairs { drawn: 40_000, damaged: 30_000, any_bytes: 10_000, step: 20, questions: 120_000 },
                with_line: WithLine {
                    few_buses: 30_000,
                    each_shape: 2_000,
                    damaged: 30_000,
                    full: 12,
                    questions: 50_000,
                    cut_plans: 8_300,
                },
                least: Least { texts: 200_000, states: 200_000, losses: 35_000, long_pairs: 10_000, repaired: 15_000 },
            }),
            _ => None,
        }
    }
}

/// All texts: those without the 05 line, those with it, those with branches from a bus to itself.
pub fn set(size: Size, seed: u64) -> Cases {
    Box::new(cases(size, seed).chain(supplied::cases(size, seed)).chain(own_loops(size, seed)))
}

/// The set without the 05 line.
pub fn cases(size: Size, seed: u64) -> Cases {
    let fixed = named("limits", limits::texts().into_iter())
        .chain(named("strings of up to 3 bytes", short::strings()))
        .chain(named("one byte away from the triangle", short::one_byte_away()))
        .chain(named("all feeders of up to 2 buses and 2 branches", without_own_loops(short::two_buses())))
        .chain(named(TWO_SWITCHES, without_own_loops(short::two_switches(TWO_SWITCHES_STEP))))
        .chain(named("triangles with small loads", short::triangle_values().map(|f| f.text())));
    let seeded = three_buses(size.three_buses, seed)
        .chain(every_shape(size.each_shape, seed))
        .chain(seeded("damaged copies", size.damaged, seed, damage::damaged))
        .chain(full_size(size.full, seed))
        .chain(full_size_of_two(size.full, seed))
        .chain(full_size_not_radial(seed))
        .chain(full_queue(size.full_queue, seed))
        .chain(named("loops and islands, named", forms::named().into_iter().map(|(_, feeder, _)| feeder.text())))
        .chain(loops_and_islands(size.loops_and_islands, seed));
    Box::new(fixed.chain(seeded))
}

/// How the kinds begin whose texts have branches from a bus to itself: nothing of them is compared with the Rust.
pub const OWN_LOOPS: &str = "own loops: ";

/// What is left out of the whole lists above, then fixed and drawn texts.
pub fn own_loops(size: Size, seed: u64) -> impl Iterator<Item = Case> + Send {
    named("own loops: all feeders of up to 2 buses and 2 branches", with_own_loops(short::two_buses()))
        .chain(named("own loops: two switches on a branch", with_own_loops(short::two_switches(OWN_LOOPS_STEP))))
        .chain(named("own loops: fixed", loops::fixed().into_iter()))
        .chain(seeded("own loops: drawn", size.own_loops, seed, loops::drawn))
}

/// Of the whole lists above, how many are compared with the Rust, and how many are not, for a branch from a bus to itself.
pub fn left_out() -> String {
    let line = |kind: &str, feeders: Vec<Feeder>| {
        let own = feeders.iter().filter(|feeder| feeder.has_own_loop()).count();
        format!("{:9}  compared with the Rust, {own} with own loops left out: {kind}\n", feeders.len() - own)
    };
    let switches = short::two_switches(TWO_SWITCHES_STEP).collect();
    line("all feeders of up to 2 buses and 2 branches", short::two_buses().collect()) + &line(TWO_SWITCHES, switches)
}

fn without_own_loops(feeders: impl Iterator<Item = Feeder> + Send) -> impl Iterator<Item = Vec<u8>> + Send {
    feeders.filter(|feeder| !feeder.has_own_loop()).map(|feeder| feeder.text())
}

fn with_own_loops(feeders: impl Iterator<Item = Feeder> + Send) -> impl Iterator<Item = Vec<u8>> + Send {
    feeders.filter(Feeder::has_own_loop).map(|feeder| feeder.text())
}

/// Of the feeders of two buses and two branches, with two switches on one at least, one in so many: those that are compared with the Rust, and those with
/// branches from a bus to itself.
const TWO_SWITCHES_STEP: usize = 15;
pub const OWN_LOOPS_STEP: usize = 83;

pub const TWO_SWITCHES: &str = "two switches on a branch, up to 2 buses and 2 branches";

pub fn named(kind: &'static str, texts: impl Iterator<Item = Vec<u8>> + Send) -> impl Iterator<Item = Case> + Send {
    texts.map(move |text| Case { kind, text })
}

pub fn seeded(
    kind: &'static str,
    count: usize,
    seed: u64,
    make: fn(&mut Random) -> Vec<u8>,
) -> impl Iterator<Item = Case> + Send {
    (0..count).map(move |number| Case { kind, text: make(&mut Random::new(seed, kind, number)) })
}

/// Feeders of three buses and up to three branches, drawn from the whole lists of them, one in three with one switch at most on a branch.
fn three_buses(count: usize, seed: u64) -> impl Iterator<Item = Case> + Send {
    const KIND: &str = "feeders of 3 buses";
    (0..count).map(move |number| {
        let mut random = Random::new(seed, KIND, number);
        let branches = random.pick(&[2, 3, 3, 3]);
        let switches = if number % 3 == 0 { short::AT_MOST_ONE } else { short::AT_MOST_TWO };
        Case { kind: KIND, text: short::drawn(&mut random, 3, branches, switches).text() }
    })
}

fn every_shape(count: usize, seed: u64) -> impl Iterator<Item = Case> + Send {
    shapes::SHAPES.iter().flat_map(move |shape| {
        (0..count).map(move |number| {
            let random = &mut Random::new(seed, shape.name, number);
            let feeder = (shape.make)(random);
            Case { kind: shape.name, text: ends::mostly_two(random, feeder).text() }
        })
    })
}

const FULL_SIZE: &str = "256 buses, 512 branches, 512 switches";
const FULL_SIZE_OF_TWO: &str = "256 buses, 384 branches, 512 switches";

/// Radial bases: each method with ten operable ties; then exchanges with more, which take the original seconds.
fn full_size(count: usize, seed: u64) -> impl Iterator<Item = Case> + Send {
    const SEARCHES: [(u8, usize, u16); 9] = [
        (0, 10, 1_000),
        (1, 10, 1_000),
        (2, 10, 1_000),
        (0, 40, 1_000),
        (1, 10, 1),
        (2, 3, 0),
        (0, 257, 2),
        (1, 10, 100),
        (0, 20, 3),
    ];
    (0..count).map(move |number| {
        let (method, operable, iterations) = SEARCHES[number % SEARCHES.len()];
        let feeder = shapes::full_size(&mut Random::new(seed, FULL_SIZE, number), method, operable, iterations);
        Case { kind: FULL_SIZE, text: feeder.text() }
    })
}

/// The same with two switches on each of some 256 branches.
fn full_size_of_two(count: usize, seed: u64) -> impl Iterator<Item = Case> + Send {
    const SEARCHES: [(u8, usize, u16); 6] = [(0, 10, 3), (1, 10, 2), (2, 10, 1), (0, 40, 2), (0, 257, 1), (1, 257, 1)];
    (0..count).map(move |number| {
        let (method, operable, iterations) = SEARCHES[number % SEARCHES.len()];
        let random = &mut Random::new(seed, "full size, two switches", number);
        let feeder = shapes::full_size_of_two(random, method, operable, iterations);
        Case { kind: FULL_SIZE_OF_TWO, text: feeder.text() }
    })
}

/// Bases from which tabu and the exhaustive search move switches: a radial one is their answer.
fn full_size_not_radial(seed: u64) -> impl Iterator<Item = Case> + Send {
    const MAKE: [fn(&mut Random) -> Feeder; 2] =
        [|random| shapes::full_size_with_loop(random, 10), shapes::full_size_in_pieces];
    MAKE.into_iter().enumerate().map(move |(number, make)| {
        let feeder = make(&mut Random::new(seed, "full size, not radial", number));
        Case { kind: FULL_SIZE, text: feeder.text() }
    })
}

pub const FULL_QUEUE: &str = "a full queue";

fn full_queue(count: usize, seed: u64) -> impl Iterator<Item = Case> + Send {
    (0..count).map(move |number| {
        let random = &mut Random::new(seed, FULL_QUEUE, number);
        let feeder = shapes::full_queue(random, number);
        Case { kind: FULL_QUEUE, text: ends::mostly_two(random, feeder).text() }
    })
}

pub const LOOPS_AND_ISLANDS: &str = "loops and islands, 1 to 256 buses";

fn loops_and_islands(count: usize, seed: u64) -> impl Iterator<Item = Case> + Send {
    (0..count).map(move |number| {
        let random = &mut Random::new(seed, LOOPS_AND_ISLANDS, number);
        let feeder = shapes::loops_and_islands(random, number);
        Case { kind: LOOPS_AND_ISLANDS, text: ends::mostly_two(random, feeder).text() }
    })
}
