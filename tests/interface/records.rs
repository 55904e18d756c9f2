//! Records in bytes, as `feeder_write_text` takes them: those of a feeder, of a text's digits, and damaged ones; and the text that the
//! definition gives to any bytes.

use crate::feeder::Feeder;
use crate::random::Random;

/// The frames of documents 01 and 02: the kind byte, and how many bytes the frame has.
const FRAMES: [(u8, usize); 5] = [(1, 18), (2, 11), (3, 14), (4, 6), (5, 3)];

/// "Each frame in digits with its line feed; a frame has as many bytes as its kind byte says, and where the kind is none of these or fewer
/// bytes are left, all that is left is one line."
pub fn text_of(bytes: &[u8]) -> Vec<u8> {
    let (mut text, mut rest) = (Vec::new(), bytes);
    while let Some(kind) = rest.first() {
        let size = FRAMES.iter().find(|frame| frame.0 == *kind).map_or(rest.len(), |frame| frame.1.min(rest.len()));
        let (frame, behind) = rest.split_at(size);
        text.extend(frame.iter().flat_map(|byte| [byte / 16, byte % 16]).map(|digit| b"0123456789ABCDEF"[usize::from(digit)]));
        text.push(b'\n');
        rest = behind;
    }
    text
}

/// The records in the frames' order.
pub fn of_feeder(feeder: &Feeder) -> Vec<u8> {
    let counts = [feeder.buses.len(), feeder.branches.len(), feeder.switches.len()].map(|count| (count as u16).to_be_bytes()).concat();
    let mut bytes = [&[1], &counts[..], &feeder.base_mva.to_be_bytes(), &[feeder.method], &feeder.iterations.to_be_bytes()].concat();
    for bus in &feeder.buses {
        bytes.extend([&[2], &bus.id.to_be_bytes()[..], &bus.pd.to_be_bytes()].concat());
    }
    for branch in &feeder.branches {
        let ends = [branch.from.to_be_bytes(), branch.to.to_be_bytes()].concat();
        bytes.extend([&[3], &ends[..], &branch.r.to_be_bytes(), &[branch.status]].concat());
    }
    for switch in &feeder.switches {
        bytes.extend([&[4], &switch.id.to_be_bytes()[..], &switch.branch.to_be_bytes(), &[switch.flags]].concat());
    }
    if let Some(supply) = feeder.supply {
        bytes.extend([&[5], &supply.to_be_bytes()[..]].concat());
    }
    bytes
}

/// A byte for every two digits of a text, whatever its lines are: so each damage of a text is one of records.
pub fn of_digits(text: &[u8]) -> Vec<u8> {
    let digits: Vec<u8> = text.iter().filter_map(|&c| (c as char).to_digit(16)).map(|digit| digit as u8).collect();
    digits.chunks_exact(2).map(|pair| pair[0] * 16 + pair[1]).collect()
}

/// One to three damages that know nothing of the records.
pub fn damaged(random: &mut Random, mut bytes: Vec<u8>) -> Vec<u8> {
    for _ in 0..random.between(1, 3) {
        let at = random.below(bytes.len() + 1);
        let byte = if random.percent(50) { random.below(7) as u8 } else { random.next() as u8 };
        match random.below(6) {
            0 => bytes.truncate(at),
            1 => bytes.insert(at, byte),
            2 => bytes.extend(vec![byte; random.pick(&[1, 3, 6, 11, 14, 18, 40_000])]),
            3 if at < bytes.len() => drop(bytes.remove(at)),
            _ if at < bytes.len() => bytes[at] = byte,
            _ => (),
        }
    }
    bytes
}

/// Bytes longer than any text: one of each kind, and of none, over and over behind these.
pub fn endless(bytes: &[u8]) -> impl Iterator<Item = Vec<u8>> + '_ {
    (0..=6).map(|kind| {
        let size = FRAMES.iter().find(|frame| frame.0 == kind).map_or(1, |frame| frame.1);
        let one = [vec![kind], vec![0; size - 1]].concat();
        bytes.iter().chain(one.iter().cycle()).copied().take(100_000).collect()
    })
}
