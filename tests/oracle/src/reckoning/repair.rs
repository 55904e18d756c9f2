//! Document 02, Point 7: the repair of a stored text, reckoned on its lines. No record is made: fields are digits and are compared as such (both in upper case and
//! of one length, the greater number is the later in the alphabet), lines are dropped or copied, the head's counts and the positions of branches written anew.
//! It shares nothing with `reader` but the type of a refusal. A `Slip` is a mistake, to see whether a set of texts tells it.

use super::Refusal;

/// Mistakes in a repair.
#[derive(Debug, Clone, Copy, PartialEq, Eq)]
pub enum Slip {
    RefusedAsNew,
    InServiceAlone,
    LiveAlone,
    FirstAlone,
    ParallelsToo,
    SupplyToo,
    SwitchesKept,
    SwitchesOnFirst,
    PositionsLeft,
    PositionsByLoops,
    CountsLeft,
    BranchCountLeft,
    SwitchCountLeft,
    NewLineNumbers,
    LinesFromZero,
    ReasonsExchanged,
    OneReason,
    SwitchesNotTold,
    SwitchesFirst,
    BesideTheirBranch,
    ToldFirst,
    ToldBeforeSupply,
    FifteenBeforeDropping,
    FifteenAtNewLine,
    FifteenPassed,
    FourteenPassed,
    FaultsAtNewLine,
    SurplusBeforeSupply,
    SevenAfterDropping,
    EightAfterDropping,
    NineAfterDropping,
    OwnLoopsNotJudged,
}

impl Slip {
    pub const ALL: [Slip; 32] = [
        Slip::RefusedAsNew,
        Slip::InServiceAlone,
        Slip::LiveAlone,
        Slip::FirstAlone,
        Slip::ParallelsToo,
        Slip::SupplyToo,
        Slip::SwitchesKept,
        Slip::SwitchesOnFirst,
        Slip::PositionsLeft,
        Slip::PositionsByLoops,
        Slip::CountsLeft,
        Slip::BranchCountLeft,
        Slip::SwitchCountLeft,
        Slip::NewLineNumbers,
        Slip::LinesFromZero,
        Slip::ReasonsExchanged,
        Slip::OneReason,
        Slip::SwitchesNotTold,
        Slip::SwitchesFirst,
        Slip::BesideTheirBranch,
        Slip::ToldFirst,
        Slip::ToldBeforeSupply,
        Slip::FifteenBeforeDropping,
        Slip::FifteenAtNewLine,
        Slip::FifteenPassed,
        Slip::FourteenPassed,
        Slip::FaultsAtNewLine,
        Slip::SurplusBeforeSupply,
        Slip::SevenAfterDropping,
        Slip::EightAfterDropping,
        Slip::NineAfterDropping,
        Slip::OwnLoopsNotJudged,
    ];
}

/// What `repair` prints for a text that it takes: the text that is left, then the 87 lines.
#[derive(Debug, Clone, PartialEq, Eq)]
pub struct Repaired {
    pub text: String,
    pub told: Vec<String>,
}

impl Repaired {
    pub fn output(&self) -> String {
        self.told.iter().fold(self.text.clone(), |output, line| output + line)
    }
}

pub fn repaired(text: &[u8]) -> Result<Repaired, Refusal> {
    repaired_with(text, None)
}

pub fn repaired_with(text: &[u8], slip: Option<Slip>) -> Result<Repaired, Refusal> {
    let mut lines = Lines { so_far: Vec::new(), slip };
    let mut wholes = text.split_inclusive(|&c| c == b'\n').peekable();
    while let Some(whole) = wholes.next() {
        let surplus = slip == Some(Slip::SurplusBeforeSupply) && wholes.peek().is_some();
        lines.take(whole).map_err(|number| match number {
            14 | 15 if surplus => Refusal { number: 2, place: lines.refusal(2).place + 1 },
            _ => lines.refusal(number),
        })?;
    }
    match lines.so_far.first() {
        Some(head) if lines.so_far.len() > counts(head).iter().sum() => Ok(lines.repaired()),
        _ => Err(lines.refusal(2)),
    }
}

/// Lines that were taken, each without its line feed.
struct Lines<'a> {
    so_far: Vec<&'a str>,
    slip: Option<Slip>,
}

const KINDS: [(&str, usize); 5] = [("01", 36), ("02", 22), ("03", 28), ("04", 12), ("05", 6)];
const LONGEST: usize = 36;
/// 0.001, a million and a thousand as floats. Behind the greatest magnitudes stand infinity and what is no number; a resistance may be minus zero.
const LEAST_BASE: &str = "3F50624DD2F1A9FC";
const MILLION: &str = "412E848000000000";
const THOUSAND: &str = "408F400000000000";
const MINUS_ZERO: &str = "8000000000000000";

/// How many buses, branches and switches a head announces.
fn counts(head: &str) -> [usize; 3] {
    [2, 6, 10].map(|at| usize::from_str_radix(&head[at..at + 4], 16).expect("digits"))
}

fn own_loop(branch: &str) -> bool {
    branch[2..6] == branch[6..10]
}

fn is_tie(switch: &str) -> bool {
    ["01", "03"].contains(&&switch[10..12])
}

/// The digits without their sign.
fn magnitude(float: &str) -> String {
    let first = float[..1].chars().next().and_then(|digit| digit.to_digit(16)).expect("a digit");
    format!("{:X}{}", first % 8, &float[1..])
}

/// The first number of a list whose condition holds.
fn first(faults: &[(u8, bool)]) -> Result<(), u8> {
    faults.iter().find(|fault| fault.1).map_or(Ok(()), |fault| Err(fault.0))
}

impl<'a> Lines<'a> {
    fn slips(&self, slip: Slip) -> bool {
        self.slip == Some(slip)
    }

    /// A refusal of the line behind those that were taken.
    fn refusal(&self, number: u8) -> Refusal {
        let slipped = match number {
            15 => self.slips(Slip::FifteenAtNewLine),
            _ => self.slips(Slip::FaultsAtNewLine),
        };
        let dropped = if slipped && !self.so_far.is_empty() { self.dropped().len() } else { 0 };
        Refusal { number, place: (self.so_far.len() + 1 - dropped) as u16 }
    }

    /// The lines of a kind, 1 for buses, 2 for branches, 3 for switches, and where the first of them stands.
    fn listed(&self, kind: usize) -> (usize, &[&'a str]) {
        let start = 1 + counts(self.so_far[0])[..kind - 1].iter().sum::<usize>();
        let end = start + counts(self.so_far[0])[kind - 1];
        let end = end.min(self.so_far.len());
        (start, self.so_far.get(start..end).unwrap_or(&[]))
    }

    /// The kind of the next line, none behind the 05 line.
    fn wanted(&self) -> Option<usize> {
        let Some(head) = self.so_far.first() else { return Some(0) };
        let counts = counts(head);
        let ends = [0, 1, 2].map(|kind| 1 + counts[..=kind].iter().sum::<usize>());
        match ends.iter().position(|&end| self.so_far.len() < end) {
            Some(kind) => Some(kind + 1),
            None => (self.so_far.len() == ends[2]).then_some(4),
        }
    }

    /// The conditions of the next line, in the order of their numbers.
    fn take(&mut self, whole: &'a [u8]) -> Result<(), u8> {
        let characters = whole.strip_suffix(b"\n").unwrap_or(whole);
        let digits = characters.iter().all(|c| b"0123456789ABCDEF".contains(c));
        let ended = characters.len() < whole.len();
        first(&[(2, characters.len() > LONGEST), (1, !ended || characters.len() % 2 == 1 || !digits)])?;
        let line = std::str::from_utf8(characters).expect("digits");
        let kind = self.wanted().filter(|&kind| line.len() == KINDS[kind].1 && line.starts_with(KINDS[kind].0));
        match kind.ok_or(2u8)? {
            0 => head_faults(line),
            1 => self.bus_faults(line),
            2 => self.branch_faults(line),
            3 => self.switch_faults(line),
            _ => self.supply_faults(line),
        }?;
        self.so_far.push(line);
        Ok(())
    }

    fn bus_faults(&self, line: &str) -> Result<(), u8> {
        first(&[(5, magnitude(&line[6..]).as_str() > MILLION), (7, self.names_bus(&line[2..6]))])
    }

    fn names_bus(&self, id: &str) -> bool {
        self.listed(1).1.iter().any(|bus| &bus[2..6] == id)
    }

    /// Equal ends pass: 3, 5 and 6 are judged of them as of others.
    fn branch_faults(&self, line: &str) -> Result<(), u8> {
        let (r, status) = (&line[10..26], &line[26..]);
        let passes = own_loop(line) && self.slips(Slip::OwnLoopsNotJudged);
        first(&[
            (3, !passes && status > "01"),
            (5, !passes && r > THOUSAND && r != MINUS_ZERO),
            (6, !self.names_bus(&line[2..6]) || !self.names_bus(&line[6..10])),
            (17, own_loop(line) && self.slips(Slip::RefusedAsNew)),
        ])
    }

    /// What is dropped later counts here as everything else.
    fn switch_faults(&self, line: &str) -> Result<(), u8> {
        let (id, position, flags) = (&line[2..6], &line[6..10], &line[10..]);
        let goes = |switch: &str| self.branch_of(switch) < counts(self.so_far[0])[1] && self.on_own_loop(switch);
        let before = |passed: Slip| {
            let counted = move |switch: &&str| !self.slips(passed) || !(goes(line) || goes(switch));
            self.listed(3).1.iter().copied().filter(counted)
        };
        let on_branch = before(Slip::EightAfterDropping).filter(|switch| &switch[6..10] == position).count();
        let ties = before(Slip::NineAfterDropping).filter(|switch| is_tie(switch)).count();
        let head = self.so_far[0];
        let tie = flags == "01" || flags == "03";
        first(&[
            (3, flags > "03"),
            (6, position >= &head[6..10]),
            (7, before(Slip::SevenAfterDropping).any(|switch| &switch[2..6] == id)),
            (8, on_branch >= 2),
            (9, &head[30..32] == "02" && tie && ties >= 10),
        ])
    }

    /// 15 of the lines that are left.
    fn supply_faults(&self, line: &str) -> Result<(), u8> {
        let before = self.slips(Slip::FifteenBeforeDropping);
        let passes = self.slips(Slip::FifteenPassed);
        let unlisted = !self.names_bus(&line[2..]) && !self.slips(Slip::FourteenPassed);
        first(&[(14, unlisted), (15, !passes && !self.base_is_tree(before))])
    }

    /// Whether the live branches of the base, own loops among them or not, join all buses and none of them joins what is joined.
    fn base_is_tree(&self, own_too: bool) -> bool {
        let mut pieces: Vec<Vec<&str>> = self.listed(1).1.iter().map(|bus| vec![&bus[2..6]]).collect();
        for (k, branch) in self.listed(2).1.iter().enumerate() {
            if self.live(k) && (own_too || !self.drops_branch(k)) {
                let of = |id: &str| pieces.iter().position(|piece| piece.contains(&id)).expect("a listed bus");
                let (one, other) = (of(&branch[2..6]), of(&branch[6..10]));
                if one == other {
                    return false;
                }
                let joined = pieces.swap_remove(one.max(other));
                pieces[one.min(other)].extend(joined);
            }
        }
        pieces.len() <= 1
    }

    /// Live in the base: in service, and no switch on it is normally open.
    fn live(&self, k: usize) -> bool {
        let position = format!("{k:04X}");
        let open = |switch: &&str| switch[6..10] == position && is_tie(switch);
        &self.listed(2).1[k][26..] == "01" && !self.listed(3).1.iter().any(|switch| open(switch))
    }

    fn drops_branch(&self, k: usize) -> bool {
        let branches = self.listed(2).1;
        let branch = branches[k];
        let first_own = || branches.iter().position(|branch| own_loop(branch)) == Some(k);
        let turned = format!("{}{}", &branch[6..10], &branch[2..6]);
        let beside = |other: &&str| other[2..10] == branch[2..10] || other[2..10] == turned;
        match self.slip {
            Some(Slip::InServiceAlone) => own_loop(branch) && branch.ends_with("01"),
            Some(Slip::LiveAlone) => own_loop(branch) && self.live(k),
            Some(Slip::FirstAlone) => own_loop(branch) && first_own(),
            Some(Slip::ParallelsToo) => own_loop(branch) || branches[..k].iter().any(|other| beside(other)),
            _ => own_loop(branch),
        }
    }

    fn branch_of(&self, switch: &str) -> usize {
        usize::from_str_radix(&switch[6..10], 16).expect("digits")
    }

    fn on_own_loop(&self, switch: &str) -> bool {
        self.drops_branch(self.branch_of(switch))
    }

    /// Where the dropped lines stand, from 0, and whether each is a branch's.
    fn dropped(&self) -> Vec<(usize, bool)> {
        let ((first, branches), (later, switches)) = (self.listed(2), self.listed(3));
        let kept = self.slips(Slip::SwitchesKept) || self.slips(Slip::SwitchesOnFirst);
        let dropped = (0..branches.len()).filter(|&k| self.drops_branch(k)).map(|k| (first + k, true));
        let with_them = (0..switches.len()).filter(|&i| !kept && self.on_own_loop(switches[i]));
        dropped.chain(with_them.map(|i| (later + i, false))).collect()
    }

    /// The lines that are left, then one for each that is not.
    fn repaired(&self) -> Repaired {
        let dropped = self.dropped();
        let is_dropped = |at: &usize| dropped.iter().any(|gone| gone.0 == *at);
        let kept: Vec<usize> = (0..self.so_far.len()).filter(|at| !is_dropped(at)).collect();
        let mut left: Vec<String> = kept.iter().map(|&at| self.left(at, &dropped) + "\n").collect();
        let mut told = self.told(&dropped);
        let supply = self.so_far.last().is_some_and(|last| last.starts_with("05"));
        match self.slip {
            Some(Slip::SupplyToo) if supply && !dropped.is_empty() => drop(left.pop()),
            Some(Slip::ToldFirst) => left = std::mem::take(&mut told).into_iter().chain(left).collect(),
            Some(Slip::ToldBeforeSupply) if supply => told.extend(left.pop()),
            _ => (),
        }
        Repaired { text: left.concat(), told }
    }

    /// A kept line: the head and the switches are written anew.
    fn left(&self, at: usize, dropped: &[(usize, bool)]) -> String {
        let line = self.so_far[at];
        match &line[..2] {
            "01" => self.head_left(line, dropped),
            "04" => {
                let on = self.branch_of(line);
                let loops = (0..on).filter(|&k| self.drops_branch(k)).count();
                let position = match self.slip {
                    Some(Slip::PositionsLeft) => on,
                    Some(Slip::PositionsByLoops) => loops,
                    Some(Slip::SwitchesOnFirst) if self.drops_branch(on) => 0,
                    _ => on - loops,
                };
                format!("{}{position:04X}{}", &line[..6], &line[10..])
            }
            _ => line.to_string(),
        }
    }

    fn head_left(&self, head: &str, dropped: &[(usize, bool)]) -> String {
        let [_, branches, switches] = counts(head);
        let gone = |branch: bool| dropped.iter().filter(|line| line.1 == branch).count();
        let all = self.slips(Slip::CountsLeft);
        let branches = if all || self.slips(Slip::BranchCountLeft) { branches } else { branches - gone(true) };
        let switches = if all || self.slips(Slip::SwitchCountLeft) { switches } else { switches - gone(false) };
        format!("{}{branches:04X}{switches:04X}{}", &head[..6], &head[14..])
    }

    /// The 87 lines.
    fn told(&self, dropped: &[(usize, bool)]) -> Vec<String> {
        let mut lines: Vec<(usize, usize, bool)> = Vec::new();
        for (before, &(at, branch)) in dropped.iter().enumerate() {
            let number = match self.slip {
                Some(Slip::NewLineNumbers) => at + 1 - before,
                Some(Slip::LinesFromZero) => at,
                _ => at + 1,
            };
            let of_branch = if branch { at } else { self.listed(2).0 + self.branch_of(self.so_far[at]) };
            lines.push((of_branch, number, branch));
        }
        match self.slip {
            Some(Slip::SwitchesNotTold) => lines.retain(|line| line.2),
            Some(Slip::SwitchesFirst) => lines.sort_by_key(|line| line.2),
            Some(Slip::BesideTheirBranch) => lines.sort_by_key(|line| line.0),
            _ => (),
        }
        let reason = |branch: bool| if branch || self.slips(Slip::OneReason) { 1 } else { 2 };
        let exchanged = |reason: usize| if self.slips(Slip::ReasonsExchanged) { 3 - reason } else { reason };
        lines.iter().map(|line| format!("87{:04X}{:02X}\n", line.1, exchanged(reason(line.2)))).collect()
    }
}

fn head_faults(line: &str) -> Result<(), u8> {
    let base = &line[14..30];
    first(&[
        (3, &line[30..32] > "02" || &line[32..] > "03E8"),
        (4, &line[2..6] > "0100" || &line[6..10] > "0200" || &line[10..14] > "0200"),
        (5, base < LEAST_BASE || base > MILLION),
    ])
}
