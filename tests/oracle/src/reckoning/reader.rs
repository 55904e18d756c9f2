//! Document 01, sections "Frames" and "Refusals and their places", document 02's 05 line, its third switch and its branches from a bus to itself: the verdict
//! on any byte string.

use super::{judge, Branch, Bus, Network, Refusal, Switch};

const LONGEST_LINE: usize = 36;
const MOST_TIES: usize = 10;
const MOST_ON_BRANCH: usize = 2;

/// The records of an accepted text, or the fault of the first faulty line.
pub fn read(text: &[u8]) -> Result<Network, Refusal> {
    let mut so_far = SoFar::default();
    let mut place = 0;
    for line in lines(text) {
        place += 1;
        so_far.take(line).map_err(|number| Refusal { number, place })?;
    }
    match so_far.wanted() {
        None | Some(Kind::Supply) => Ok(so_far.network),
        Some(_) => Err(Refusal { number: 2, place: place + 1 }),
    }
}

#[derive(Clone, Copy)]
struct Line<'a> {
    characters: &'a [u8],
    ended: bool,
}

/// What stands behind the last line feed is an unended line, unless it is nothing.
fn lines(text: &[u8]) -> impl Iterator<Item = Line<'_>> {
    text.split_inclusive(|&c| c == b'\n').map(|whole| match whole.split_last() {
        Some((b'\n', characters)) => Line { characters, ended: true },
        _ => Line { characters: whole, ended: false },
    })
}

#[derive(Clone, Copy)]
enum Kind {
    Head,
    Bus,
    Branch,
    Switch,
    Supply,
}

impl Kind {
    /// Kind byte and length of the line.
    fn form(self) -> (&'static [u8], usize) {
        match self {
            Kind::Head => (b"01", 36),
            Kind::Bus => (b"02", 22),
            Kind::Branch => (b"03", 28),
            Kind::Switch => (b"04", 12),
            Kind::Supply => (b"05", 6),
        }
    }
}

/// What the lines up to here have given.
#[derive(Default)]
struct SoFar {
    head: Option<Counts>,
    network: Network,
}

struct Counts {
    buses: usize,
    branches: usize,
    switches: usize,
}

impl SoFar {
    /// The kind of the next line: behind the head's counts that of the one optional line, behind it none.
    fn wanted(&self) -> Option<Kind> {
        let Some(counts) = &self.head else { return Some(Kind::Head) };
        if self.network.buses.len() < counts.buses {
            Some(Kind::Bus)
        } else if self.network.branches.len() < counts.branches {
            Some(Kind::Branch)
        } else if self.network.switches.len() < counts.switches {
            Some(Kind::Switch)
        } else if self.network.supply.is_none() {
            Some(Kind::Supply)
        } else {
            None
        }
    }

    fn take(&mut self, line: Line) -> Result<(), u8> {
        let wanted = self.wanted();
        shape(line, wanted)?;
        let mut fields = Fields { digits: &line.characters[2..] };
        match wanted {
            Some(Kind::Head) => self.head_line(&mut fields),
            Some(Kind::Bus) => self.bus_line(&mut fields),
            Some(Kind::Branch) => self.branch_line(&mut fields),
            Some(Kind::Switch) => self.switch_line(&mut fields),
            Some(Kind::Supply) => self.supply_line(&mut fields),
            None => Err(2),
        }
    }

    fn head_line(&mut self, fields: &mut Fields) -> Result<(), u8> {
        let (buses, branches, switches) = (fields.u16(), fields.u16(), fields.u16());
        let base_mva = fields.f64();
        let (method, max_iterations) = (fields.byte(), fields.u16());
        lowest(&[
            (3, method > 2 || max_iterations > 1_000),
            (4, buses > 256 || branches > 512 || switches > 512),
            (5, !within(base_mva, 0.001, 1_000_000.0)),
        ])?;
        self.head = Some(Counts { buses: buses.into(), branches: branches.into(), switches: switches.into() });
        self.network = Network { base_mva, method, max_iterations, ..Network::default() };
        Ok(())
    }

    fn bus_line(&mut self, fields: &mut Fields) -> Result<(), u8> {
        let (id, pd) = (fields.u16(), fields.f64());
        lowest(&[(5, !within(pd, -1_000_000.0, 1_000_000.0)), (7, self.bus_at(id).is_some())])?;
        self.network.buses.push(Bus { id, pd });
        Ok(())
    }

    fn branch_line(&mut self, fields: &mut Fields) -> Result<(), u8> {
        let (from, to) = (self.bus_at(fields.u16()), self.bus_at(fields.u16()));
        let (r, status) = (fields.f64(), fields.byte());
        lowest(&[
            (3, status > 1),
            (5, !within(r, 0.0, 1_000.0)),
            (6, from.is_none() || to.is_none()),
            (17, from == to),
        ])?;
        let branch = from.zip(to).map(|(from, to)| Branch { from, to, r, in_service: status == 1 });
        self.network.branches.extend(branch);
        Ok(())
    }

    fn switch_line(&mut self, fields: &mut Fields) -> Result<(), u8> {
        let (id, branch, flags) = (fields.u16(), fields.u16() as usize, fields.byte());
        let listed = &self.network.switches;
        let (normally_open, can_operate) = (flags & 1 != 0, flags & 2 != 0);
        let ties = listed.iter().filter(|s| s.normally_open).count();
        let on_branch = listed.iter().filter(|s| s.branch == branch).count();
        lowest(&[
            (3, flags > 3),
            (6, branch >= self.network.branches.len()),
            (7, listed.iter().any(|s| s.id == id)),
            (8, on_branch == MOST_ON_BRANCH),
            (9, self.network.method == 2 && normally_open && ties == MOST_TIES),
        ])?;
        self.network.switches.push(Switch { id, branch, normally_open, can_operate });
        Ok(())
    }

    /// "14, bus not listed; 15, base not radial; both at the 05 line, after 1 to 3, lower number first."
    fn supply_line(&mut self, fields: &mut Fields) -> Result<(), u8> {
        let supply = self.bus_at(fields.u16());
        let base = self.network.live(&self.network.base());
        lowest(&[(14, supply.is_none()), (15, !judge::tree(&self.network, &base))])?;
        self.network.supply = supply;
        Ok(())
    }

    fn bus_at(&self, id: u16) -> Option<usize> {
        self.network.buses.iter().position(|b| b.id == id)
    }
}

/// Refusals 1 and 2. A line over 36 characters is 2 whatever they are, ended or not.
fn shape(line: Line, wanted: Option<Kind>) -> Result<(), u8> {
    let Line { characters, ended } = line;
    if characters.len() > LONGEST_LINE {
        return Err(2);
    }
    let upper_hex = |c: &u8| matches!(c, b'0'..=b'9' | b'A'..=b'F');
    let fits = |kind: Kind| characters.starts_with(kind.form().0) && characters.len() == kind.form().1;
    lowest(&[
        (1, !ended || characters.len() % 2 == 1 || !characters.iter().all(upper_hex)),
        (2, !wanted.is_some_and(fits)),
    ])
}

/// "Inside a line the lower number wins."
fn lowest(faults: &[(u8, bool)]) -> Result<(), u8> {
    match faults.iter().filter(|fault| fault.1).map(|fault| fault.0).min() {
        Some(number) => Err(number),
        None => Ok(()),
    }
}

/// By value, ends allowed; a NaN lies nowhere.
fn within(value: f64, least: f64, most: f64) -> bool {
    least <= value && value <= most
}

/// The digits behind the kind byte, big-endian.
struct Fields<'a> {
    digits: &'a [u8],
}

impl Fields<'_> {
    fn number(&mut self, count: usize) -> u64 {
        let (field, rest) = self.digits.split_at(count);
        self.digits = rest;
        let digit = |c: &u8| (*c as char).to_digit(16).expect("the line's characters are digits") as u64;
        field.iter().fold(0, |value, c| value * 16 + digit(c))
    }

    fn byte(&mut self) -> u8 {
        self.number(2) as u8
    }

    fn u16(&mut self) -> u16 {
        self.number(4) as u16
    }

    fn f64(&mut self) -> f64 {
        f64::from_bits(self.number(16))
    }
}
