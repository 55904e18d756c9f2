//! Many texts in one run: a record is a line with its length in eight hexadecimal digits, then that many bytes.

use crate::expected::expected;

pub fn solve(input: &[u8]) -> Vec<u8> {
    let mut answers = Vec::new();
    let mut rest = input;
    while let Some((text, after)) = first(rest) {
        let output = expected(text).output();
        answers.extend(format!("{:08X}\n{output}", output.len()).bytes());
        rest = after;
    }
    answers
}

fn first(input: &[u8]) -> Option<(&[u8], &[u8])> {
    let length = usize::from_str_radix(std::str::from_utf8(input.get(..8)?).ok()?, 16).ok()?;
    let contents = input.get(9..)?;
    (contents.len() >= length).then(|| contents.split_at(length))
}
