//! Records of a text before they are known to be acceptable, and the text that document 01 gives them.

/// Flags byte of a switch: bit 0 normally_open, bit 1 can_operate.
pub const TIE: u8 = 1;
pub const OPERABLE: u8 = 2;

#[derive(Clone, Copy)]
pub struct BusLine {
    pub id: u16,
    pub pd: f64,
}

#[derive(Clone, Copy)]
pub struct BranchLine {
    pub from: u16,
    pub to: u16,
    pub r: f64,
    pub status: u8,
}

#[derive(Clone, Copy)]
pub struct SwitchLine {
    pub id: u16,
    pub branch: u16,
    pub flags: u8,
}

#[derive(Clone, Default)]
pub struct Feeder {
    pub base_mva: f64,
    pub method: u8,
    pub iterations: u16,
    pub buses: Vec<BusLine>,
    pub branches: Vec<BranchLine>,
    pub switches: Vec<SwitchLine>,
    /// The bus that the 05 line names.
    pub supply: Option<u16>,
}

impl Feeder {
    pub fn lines(&self) -> Vec<String> {
        let counts = [self.buses.len(), self.branches.len(), self.switches.len()];
        let mut lines = vec![head_line(counts, self.base_mva, self.method, self.iterations)];
        lines.extend(self.buses.iter().map(|b| format!("02{:04X}{:016X}", b.id, b.pd.to_bits())));
        lines.extend(
            self.branches.iter().map(|b| format!("03{:04X}{:04X}{:016X}{:02X}", b.from, b.to, b.r.to_bits(), b.status)),
        );
        lines.extend(self.switches.iter().map(|s| format!("04{:04X}{:04X}{:02X}", s.id, s.branch, s.flags)));
        lines.extend(self.supply.map(supply_line));
        lines
    }

    pub fn text(&self) -> Vec<u8> {
        joined(&self.lines())
    }

    pub fn bus(&mut self, id: u16, pd: f64) {
        self.buses.push(BusLine { id, pd });
    }

    pub fn branch(&mut self, from: u16, to: u16, r: f64) {
        self.branches.push(BranchLine { from, to, r, status: 1 });
    }

    pub fn switch(&mut self, id: u16, branch: usize, flags: u8) {
        self.switches.push(SwitchLine { id, branch: branch as u16, flags });
    }

    /// Whether a branch goes from a bus to itself.
    pub fn has_own_loop(&self) -> bool {
        self.branches.iter().any(|branch| branch.from == branch.to)
    }

    pub fn ties(&self) -> usize {
        self.switches.iter().filter(|s| s.flags & TIE != 0).count()
    }
}

pub fn head_line(counts: [usize; 3], base_mva: f64, method: u8, iterations: u16) -> String {
    let [buses, branches, switches] = counts;
    format!("01{buses:04X}{branches:04X}{switches:04X}{:016X}{method:02X}{iterations:04X}", base_mva.to_bits())
}

/// Document 02, Point 2: "One optional last line, kind 05 and a bus id (u16), names the supply."
pub fn supply_line(id: u16) -> String {
    format!("05{id:04X}")
}

/// Each line with its line feed.
pub fn joined(lines: &[String]) -> Vec<u8> {
    lines.iter().flat_map(|line| line.bytes().chain([b'\n'])).collect()
}

/// Document 01's triangle.
pub fn triangle() -> Feeder {
    let mut feeder = Feeder { base_mva: 1.0, method: 0, iterations: 100, ..Feeder::default() };
    feeder.bus(1, 0.0);
    feeder.bus(2, 1.0);
    feeder.bus(3, 2.0);
    feeder.branch(1, 2, 0.25);
    feeder.branch(2, 3, 0.4375);
    feeder.branch(1, 3, 0.1875);
    feeder.switch(10, 1, OPERABLE);
    feeder.switch(11, 2, OPERABLE | TIE);
    feeder
}
