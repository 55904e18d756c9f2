//! Programs with one mistake each, to see that a set of texts tells them from a right one.

use crate::cases::Cases;
use crate::check::TRIANGLE;
use crate::expected::{expected, Answered, Expected};
use crate::reckoning::form::{self, with_form, Form};
use crate::reckoning::plan::{self, open_on, Pair};
use crate::reckoning::repair::repaired;
use crate::reckoning::searches::{Searches, Slip};
use crate::reckoning::{judge, reader, Network, Refusal};
use crate::{short, wrong_ends, wrong_forms};

#[derive(Debug, Clone, Copy, PartialEq)]
pub enum Mistake {
    Search(Slip),
    Reading(Reading),
    Plan(Plan),
    Ends(wrong_ends::Mistake),
    Form(wrong_forms::Mistake),
    Print(Print),
}

/// Mistakes in the reading of a text.
#[derive(Debug, Clone, Copy, PartialEq)]
pub enum Reading {
    LowerCaseTaken,
    CarriageReturnTaken,
    UnendedLastLineTaken,
    EmptyLastLineTaken,
    LongUnendedLineIs1,
    LongLineOfOthersIs1,
    SurplusLineAlways2,
    SurplusLineAlways1,
    IterationsAre4,
    PlacesFromZero,
    MissingLineAtTheLast,
    LowestNumberOfTheText,
    FieldOrder,
    OneIdSpace,
    LockedTiesNotCounted,
    OutOfServiceNotJudged,
    NegativeZeroRefused,
    RangeEndsRefused,
    CutAtLongestText,
    FifteenFirst,
    FifteenByStatusAlone,
    LineDemanded,
    LineLeftOut,
    SecondLineTaken,
    LineOfEightTaken,
    LineAnywhere,
    SurplusBeforeSupply,
    SupplyZeroIsNone,
    CutBehindLine,
    ThirdSwitchTaken,
    SecondSwitchRefused,
    OwnLoopTaken,
    OwnLoopDropped,
    SeventeenBeforeThree,
    SeventeenBeforeFive,
    SeventeenBeforeSix,
    SeventeenInServiceAlone,
    SeventeenBehindAll,
    SeventeenForParallels,
}

/// Mistakes in the 86 lines; those with two switches on a branch are in `wrong_ends`.
#[derive(Debug, Clone, Copy, PartialEq)]
pub enum Plan {
    ByBranchPosition,
    PathFromToBus,
    PathOfPresentState,
    LastOnPath,
    None,
    ForAnyBase,
}

/// Mistakes in the 81 and 82 lines and with the place of the 84 line, and wrong solvers of document 01.
#[derive(Debug, Clone, Copy, PartialEq)]
pub enum Print {
    ActionsSwapped,
    RadialByteOfBase,
    ClosingsFirst,
    SortedById,
    FormBehindOperations,
    FormUnlessTree,
    NoLastLineFeed,
    LowerCase,
    OneFixedAnswer,
    BaseUntouched,
    InventedRounds,
    NoExchange,
    RefusesAll,
}

const READING: [Reading; 39] = [
    Reading::LowerCaseTaken,
    Reading::CarriageReturnTaken,
    Reading::UnendedLastLineTaken,
    Reading::EmptyLastLineTaken,
    Reading::LongUnendedLineIs1,
    Reading::LongLineOfOthersIs1,
    Reading::SurplusLineAlways2,
    Reading::SurplusLineAlways1,
    Reading::IterationsAre4,
    Reading::PlacesFromZero,
    Reading::MissingLineAtTheLast,
    Reading::LowestNumberOfTheText,
    Reading::FieldOrder,
    Reading::OneIdSpace,
    Reading::LockedTiesNotCounted,
    Reading::OutOfServiceNotJudged,
    Reading::NegativeZeroRefused,
    Reading::RangeEndsRefused,
    Reading::CutAtLongestText,
    Reading::FifteenFirst,
    Reading::FifteenByStatusAlone,
    Reading::LineDemanded,
    Reading::LineLeftOut,
    Reading::SecondLineTaken,
    Reading::LineOfEightTaken,
    Reading::LineAnywhere,
    Reading::SurplusBeforeSupply,
    Reading::SupplyZeroIsNone,
    Reading::CutBehindLine,
    Reading::ThirdSwitchTaken,
    Reading::SecondSwitchRefused,
    Reading::OwnLoopTaken,
    Reading::OwnLoopDropped,
    Reading::SeventeenBeforeThree,
    Reading::SeventeenBeforeFive,
    Reading::SeventeenBeforeSix,
    Reading::SeventeenInServiceAlone,
    Reading::SeventeenBehindAll,
    Reading::SeventeenForParallels,
];
const PLAN: [Plan; 6] = [
    Plan::ByBranchPosition,
    Plan::PathFromToBus,
    Plan::PathOfPresentState,
    Plan::LastOnPath,
    Plan::None,
    Plan::ForAnyBase,
];
const PRINT: [Print; 13] = [
    Print::ActionsSwapped,
    Print::RadialByteOfBase,
    Print::ClosingsFirst,
    Print::SortedById,
    Print::FormBehindOperations,
    Print::FormUnlessTree,
    Print::NoLastLineFeed,
    Print::LowerCase,
    Print::OneFixedAnswer,
    Print::BaseUntouched,
    Print::InventedRounds,
    Print::NoExchange,
    Print::RefusesAll,
];
/// Of 256 buses, 512 branches, 512 switches, without the 05 line.
const LONGEST_TEXT: usize = 37 + 256 * 23 + 512 * 29 + 512 * 13;
const SUPPLY_LENGTH: usize = 7;

pub fn all() -> Vec<Mistake> {
    let searches = Slip::ALL.into_iter().map(Mistake::Search);
    let reading = READING.into_iter().map(Mistake::Reading);
    let plans = PLAN.into_iter().map(Mistake::Plan);
    let ends = wrong_ends::IN_TEXTS.into_iter().map(Mistake::Ends);
    let forms = wrong_forms::ALL.into_iter().map(Mistake::Form);
    searches.chain(reading).chain(plans).chain(ends).chain(forms).chain(PRINT.into_iter().map(Mistake::Print)).collect()
}

pub fn named(name: &str) -> Mistake {
    let found = all().into_iter().find(|mistake| mistake.name() == name);
    found.unwrap_or_else(|| {
        let names: Vec<String> = all().iter().map(Mistake::name).collect();
        crate::fail(&format!("the mistakes are {}", names.join(", ")))
    })
}

impl Mistake {
    /// As `Search.BestTie`.
    pub fn name(&self) -> String {
        format!("{self:?}").replace('(', ".").replace(')', "")
    }

    pub fn output(self, text: &[u8]) -> String {
        self.output_beside(text, &expected(text))
    }

    /// The wrong output, given the right one.
    pub fn output_beside(self, text: &[u8], right: &Expected) -> String {
        match (self, right) {
            (Mistake::Reading(mistake), _) => mistake.output(text, right),
            (Mistake::Print(mistake), _) => mistake.output(right),
            (_, Expected::Refused(refusal)) => refusal.line(),
            (Mistake::Search(slip), Expected::Answered(answered)) => match &answered.network {
                network if network.supply.is_none() && slip.needs_line() => right.output(),
                network if network.buses.len() < slip.needs_buses() => right.output(),
                network if slip.needs_two_on_branch() && !network.has_two_on_branch() => right.output(),
                network => search_output(network, slip),
            },
            (Mistake::Plan(mistake), Expected::Answered(answered)) => {
                with_form(&answered.search, answered.form.fields()) + &mistake.lines(answered)
            }
            (Mistake::Ends(mistake), Expected::Answered(answered)) => {
                with_form(&answered.search, answered.form.fields()) + &ends_lines(mistake, answered)
            }
            (Mistake::Form(mistake), Expected::Answered(answered)) => {
                let fields = mistake.fields(&answered.network, &answered.best);
                with_form(&answered.search, fields) + &answered.plan_lines()
            }
        }
    }
}

fn search_output(network: &Network, slip: Slip) -> String {
    let searches = Searches::new(network, Some(slip));
    let answer = searches.solve();
    let base = network.base();
    let pairs = plan::plan(network, &base, &answer.best, usize::MAX).unwrap_or_default();
    let form = form::form(network, &searches.live(&answer.best));
    with_form(&searches.lines(&answer), form.fields()) + &plan::lines(network, &pairs)
}

/// The 86 lines with a mistake about two switches on a branch, none where the plan is refused.
fn ends_lines(mistake: wrong_ends::Mistake, answered: &Answered) -> String {
    let Answered { network, best, pairs, .. } = answered;
    if pairs.as_ref().is_none_or(Vec::is_empty) {
        return String::new();
    }
    let pairs = mistake.plan(network, &network.base(), best).unwrap_or_default();
    mistake.lines(network, &pairs)
}

/// The islands and the branch of a state.
fn fields(network: &Network, state: &[u8]) -> [u16; 2] {
    form::form(network, &network.live(state)).fields()
}

impl Reading {
    fn output(self, text: &[u8], right: &Expected) -> String {
        match self.other_text(text) {
            Some(other) => expected(&other).output(),
            None => self.other_refusal(text, right).map_or(right.output(), Refusal::line),
        }
    }

    /// The text that a program with this mistake takes it for.
    fn other_text(self, text: &[u8]) -> Option<Vec<u8>> {
        match self {
            Reading::LowerCaseTaken => Some(text.to_ascii_uppercase()),
            Reading::CarriageReturnTaken => Some(text.iter().copied().filter(|&byte| byte != b'\r').collect()),
            Reading::UnendedLastLineTaken => (text.last() != Some(&b'\n')).then(|| [text, b"\n"].concat()),
            Reading::EmptyLastLineTaken => text.ends_with(b"\n\n").then(|| text[..text.len() - 1].to_vec()),
            Reading::CutAtLongestText => text.get(..LONGEST_TEXT).map(<[u8]>::to_vec),
            Reading::CutBehindLine => text.get(..LONGEST_TEXT + SUPPLY_LENGTH).map(<[u8]>::to_vec),
            Reading::OwnLoopDropped => repaired(text).ok().map(|left| left.text.into_bytes()),
            _ => self.other_line(text),
        }
    }

    /// The text that a program with a mistake about the 05 line takes it for.
    fn other_line(self, text: &[u8]) -> Option<Vec<u8>> {
        let lines: Vec<&[u8]> = text.split_inclusive(|&c| c == b'\n').collect();
        let is_supply = |line: &[u8]| line.starts_with(b"05") && line.len() == SUPPLY_LENGTH;
        let (&last, before) = lines.split_last()?;
        match self {
            Reading::LineLeftOut if is_supply(last) => Some(before.concat()),
            Reading::SupplyZeroIsNone if last == b"050000\n" => Some(before.concat()),
            Reading::SecondLineTaken if is_supply(last) && before.last().is_some_and(|&line| is_supply(line)) => {
                Some(before.concat())
            }
            Reading::LineOfEightTaken if last.starts_with(b"05") && last.len() == SUPPLY_LENGTH + 2 => {
                Some([&before.concat()[..], &last[..SUPPLY_LENGTH - 1], b"\n"].concat())
            }
            Reading::LineAnywhere => {
                let at = before.iter().position(|&line| is_supply(line))?;
                Some([&before[..at].concat()[..], &before[at + 1..].concat(), last, before[at]].concat())
            }
            _ => None,
        }
    }

    fn other_refusal(self, text: &[u8], right: &Expected) -> Option<Refusal> {
        match right {
            Expected::Refused(refusal) => self.other_number(text, *refusal),
            Expected::Answered(answered) => self.refusal_of_accepted(&answered.network),
        }
    }

    fn other_number(self, text: &[u8], right: Refusal) -> Option<Refusal> {
        let lines: Vec<&[u8]> = text.split_inclusive(|&c| c == b'\n').collect();
        let line = lines.get(usize::from(right.place) - 1).copied();
        let before = lines[..lines.len().min(usize::from(right.place) - 1)].concat();
        let surplus = line.is_some() && reader::read(&before).is_ok();
        let long = line.is_some_and(|line| line.len() > 37 || (line.len() == 37 && !line.ends_with(b"\n")));
        let number = |number: u8| Some(Refusal { number, ..right });
        match self {
            Reading::LongUnendedLineIs1 if long && !line?.ends_with(b"\n") => number(1),
            Reading::LongLineOfOthersIs1 if long && line?.contains(&b'G') => number(1),
            Reading::SurplusLineAlways2 if surplus => number(2),
            Reading::SurplusLineAlways1 if surplus => number(1),
            Reading::IterationsAre4 if right.number == 3 && right.place == 1 && &line?[30..32] <= b"02".as_slice() => {
                number(4)
            }
            Reading::PlacesFromZero => Some(Refusal { place: right.place - 1, ..right }),
            Reading::MissingLineAtTheLast if line.is_none() => {
                Some(Refusal { place: (right.place - 1).max(1), ..right })
            }
            Reading::LowestNumberOfTheText => lowest_of_text(&lines, right),
            Reading::FieldOrder => field_order(&lines, right),
            Reading::LockedTiesNotCounted if right.number == 9 && before.windows(3).any(|end| end == b"01\n") => {
                number(0)
            }
            Reading::FifteenFirst if right.number == 14 && base_is_no_tree(&before) => number(15),
            Reading::SurplusBeforeSupply if [14, 15].contains(&right.number) && lines.len() > right.place.into() => {
                Some(Refusal { number: 2, place: right.place + 1 })
            }
            Reading::ThirdSwitchTaken if right.number == 8 => number(0),
            Reading::OwnLoopTaken if right.number == 17 => number(0),
            Reading::SeventeenBeforeThree if right.number == 3 && equal_ends(line?) => number(17),
            Reading::SeventeenBeforeFive if right.number == 5 && equal_ends(line?) => number(17),
            Reading::SeventeenBeforeSix if right.number == 6 && equal_ends(line?) => number(17),
            Reading::SeventeenInServiceAlone if right.number == 17 && out_of_service(line?) => number(0),
            Reading::SeventeenBehindAll if right.number == 17 => repaired(text).err(),
            Reading::OutOfServiceNotJudged if [5, 6].contains(&right.number) && out_of_service(line?) => number(0),
            _ => None,
        }
    }

    /// That it is refused shows the mistake, whatever the place.
    fn refusal_of_accepted(self, network: &Network) -> Option<Refusal> {
        let shared = |id: u16| network.buses.iter().any(|b| b.id == id);
        let negative_zero = |value: f64| value.to_bits() == 1 << 63;
        match self {
            Reading::OneIdSpace if network.switches.iter().any(|s| shared(s.id)) => {
                Some(Refusal { number: 7, place: 0 })
            }
            Reading::RangeEndsRefused if network.branches.iter().any(|b| b.r == 1_000.0) => {
                Some(Refusal { number: 5, place: 0 })
            }
            Reading::FifteenByStatusAlone if network.supply.is_some() => {
                let in_service: Vec<bool> = network.branches.iter().map(|branch| branch.in_service).collect();
                (!judge::tree(network, &in_service)).then_some(Refusal { number: 15, place: 0 })
            }
            Reading::SecondSwitchRefused if network.has_two_on_branch() => Some(Refusal { number: 8, place: 0 }),
            Reading::SeventeenForParallels => {
                let all = vec![true; network.branches.len()];
                let parallel = (0..all.len()).any(|k| form::parallel(network, &all, k));
                parallel.then_some(Refusal { number: 17, place: 0 })
            }
            Reading::LineDemanded if network.supply.is_none() => Some(Refusal { number: 2, place: 0 }),
            Reading::NegativeZeroRefused if network.branches.iter().any(|b| negative_zero(b.r)) => {
                Some(Refusal { number: 5, place: 0 })
            }
            _ => None,
        }
    }
}

/// Whether the records of a text without the 05 line have another base than a tree.
fn base_is_no_tree(text: &[u8]) -> bool {
    reader::read(text).is_ok_and(|network| !judge::tree(&network, &network.live(&network.base())))
}

/// A whole branch line with status 00.
fn out_of_service(line: &[u8]) -> bool {
    line.starts_with(b"03") && line.ends_with(b"00\n")
}

/// A whole branch line whose ends are one id.
fn equal_ends(line: &[u8]) -> bool {
    line.starts_with(b"03") && line.len() == 29 && line[2..6] == line[6..10]
}

/// A 1 in a later line goes before a higher number in an earlier one.
fn lowest_of_text(lines: &[&[u8]], right: Refusal) -> Option<Refusal> {
    let other = |line: &&[u8]| line.len() <= 37 && line.iter().any(|c| !b"0123456789ABCDEF\n".contains(c));
    let later = lines.iter().position(other).filter(|_| right.number > 1)?;
    Some(Refusal { number: 1, place: later as u16 + 1 })
}

/// Fields tested in their order: the ends of a branch before its status, the position of a switch before its flags.
fn field_order(lines: &[&[u8]], right: Refusal) -> Option<Refusal> {
    let at = usize::from(right.place) - 1;
    let mut line = lines.get(at).filter(|_| right.number == 3)?.to_vec();
    match (line.get(..2)?, line.len()) {
        (b"03", 29) => line[26..28].copy_from_slice(b"01"),
        (b"04", 13) => line[10..12].copy_from_slice(b"02"),
        _ => return None,
    }
    let text = [&lines[..at].concat()[..], &line].concat();
    reader::read(&text).err().filter(|refusal| refusal.place == right.place && refusal.number == 6)
}

impl Plan {
    fn lines(self, answered: &Answered) -> String {
        let network = &answered.network;
        match (self, &answered.pairs) {
            (Plan::ForAnyBase, None) => plan::lines(network, &matched(network, &answered.best)),
            (_, None) | (Plan::None, _) => String::new(),
            (_, Some(_)) => plan::lines(network, &self.pairs(network, &answered.best)),
        }
    }

    fn pairs(self, network: &Network, wanted: &[u8]) -> Vec<Pair> {
        let base = network.base();
        let (present, goal) = (network.live(&base), network.live(wanted));
        let mut live = present.clone();
        let mut closings: Vec<usize> = (0..goal.len()).filter(|&k| goal[k] && !present[k]).collect();
        if self != Plan::ByBranchPosition {
            closings.sort_by_key(|&k| network.switches.iter().position(|s| s.branch == k));
        }
        let mut pairs = Vec::new();
        for tie in closings {
            let walked = if self == Plan::PathOfPresentState { &present } else { &live };
            let Some(section) = self.section(network, walked, tie, &goal) else { continue };
            (live[tie], live[section]) = (true, false);
            pairs.push(Pair { closed: open_on(network, &base, tie), opened: open_on(network, wanted, section) });
        }
        pairs
    }

    fn section(self, network: &Network, live: &[bool], tie: usize, goal: &[bool]) -> Option<usize> {
        let branch = &network.branches[tie];
        let mut path = match self {
            Plan::PathFromToBus => plan::path(network, live, branch.to, branch.from)?,
            _ => plan::path(network, live, branch.from, branch.to)?,
        };
        if self == Plan::LastOnPath {
            path.reverse();
        }
        path.into_iter().find(|&k| !goal[k])
    }
}

/// Closings and openings side by side, whatever the base.
fn matched(network: &Network, wanted: &[u8]) -> Vec<Pair> {
    let base = network.base();
    let moved = |to: u8| (0..base.len()).filter(move |&i| wanted[i] == to);
    let closings = moved(0).filter(|&i| base[i] == 1);
    closings
        .zip(moved(1).filter(|&i| base[i] == 0))
        .map(|(closed, opened)| Pair { closed: vec![closed], opened: vec![opened] })
        .collect()
}

impl Print {
    fn output(self, right: &Expected) -> String {
        match (self, right) {
            (Print::RefusesAll, _) => Refusal { number: 2, place: 1 }.line(),
            (Print::NoLastLineFeed, _) => right.output().trim_end().to_string(),
            (Print::LowerCase, _) => right.output().to_ascii_lowercase(),
            (_, Expected::Refused(_)) => right.output(),
            (Print::OneFixedAnswer, _) => TRIANGLE.to_string(),
            (_, Expected::Answered(answered)) => self.answer(answered),
        }
    }

    fn answer(self, answered: &Answered) -> String {
        let right = answered.output();
        let first: &str = right.lines().next().unwrap_or_default();
        let moved: Vec<&str> = right.lines().filter(|line| line.starts_with("82")).collect();
        let form = form::line(answered.form.fields());
        let all = |first: String, moved: Vec<String>| -> String {
            let moved: String = moved.into_iter().map(|line| line + "\n").collect();
            format!("{first}\n{form}{moved}{}", answered.plan_lines())
        };
        let of_base = form::line(fields(&answered.network, &answered.network.base()));
        let as_is: Vec<String> = moved.iter().map(|line| line.to_string()).collect();
        match self {
            Print::ActionsSwapped => all(first.to_string(), as_is.iter().map(|line| swapped(line)).collect()),
            Print::RadialByteOfBase => {
                let base = answered.network.live(&answered.network.base());
                all(format!("81{:02X}{}", judge::tree(&answered.network, &base) as u8, &first[4..]), as_is)
            }
            Print::ClosingsFirst => {
                let mut sorted = as_is;
                sorted.sort_by_key(|line| line.ends_with("00"));
                all(first.to_string(), sorted)
            }
            Print::SortedById => {
                let mut sorted = as_is;
                sorted.sort();
                all(first.to_string(), sorted)
            }
            Print::InventedRounds => {
                all(format!("{}{:04X}{}", &first[..52], answered.network.max_iterations, &first[56..]), as_is)
            }
            Print::FormBehindOperations => format!("{}{form}{}", answered.search, answered.plan_lines()),
            Print::FormUnlessTree if answered.form == Form::Tree => answered.search.clone() + &answered.plan_lines(),
            Print::BaseUntouched => {
                format!("{}{}{:016X}{}\n{of_base}", &first[..20], &first[4..20], 0, &first[52..])
            }
            Print::NoExchange => format!("{}{}{:016X}000101\n{of_base}", &first[..20], &first[4..20], 0),
            _ => right,
        }
    }
}

fn swapped(line: &str) -> String {
    let (start, action) = line.split_at(6);
    format!("{start}{}", if action == "00" { "01" } else { "00" })
}

/// For each mistake the first text that shows it, in one pass; false if one is never seen, or if one is seen that no text
/// can show.
pub fn all_caught(cases: Cases) -> bool {
    let mut unseen = all();
    for (number, case) in cases.enumerate() {
        let right = expected(&case.text);
        let output = right.output();
        let wrong = |slip: &Slip| Mistake::Search(*slip).output_beside(&case.text, &right) != output;
        if let Some(slip) = Slip::UNSEEN.iter().find(|slip| wrong(slip)) {
            println!("text {number} shows {slip:?}:\n{}", String::from_utf8_lossy(&case.text));
            return false;
        }
        unseen.retain(|mistake| {
            let wrong = mistake.output_beside(&case.text, &right);
            let seen = wrong != output && right.fault(wrong.as_bytes()).is_some();
            if seen {
                println!("text {number:6}  {:36} {}", mistake.name(), case.kind);
            }
            !seen
        });
    }
    unseen.iter().for_each(|mistake| println!("NEVER SEEN   {}", mistake.name()));
    println!("{} mistakes, {} never seen", all().len(), unseen.len());
    unseen.is_empty()
}

/// The shortest of the numbered feeders that shows a mistake, the fewest branches and buses first; with two switches on a branch where none with one does.
pub fn smallest(mistake: Mistake) -> Vec<u8> {
    let sizes = [(0, 0), (1, 0), (2, 0), (3, 0), (1, 1), (2, 1), (3, 1), (1, 2), (2, 2), (3, 2), (2, 3), (3, 3)];
    let all = |switches: usize| sizes.map(|(buses, branches)| (buses, branches, switches));
    for (buses, branches, switches) in all(short::AT_MOST_ONE).into_iter().chain(all(short::AT_MOST_TWO)) {
        let numbers = 0..short::how_many(buses, branches, switches);
        let texts = numbers.map(|number| short::numbered(buses, branches, switches, number).text());
        let shows = |text: &Vec<u8>| mistake.output(text) != expected(text).output();
        if let Some(text) = texts.filter(shows).min_by_key(Vec::len) {
            return text;
        }
    }
    Vec::new()
}
