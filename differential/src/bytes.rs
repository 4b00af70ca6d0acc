//! Steps as bytes, by docs/STEPS.md.

use oracle::parse::digits;

/// What follows a step's word.
#[derive(Clone, Copy, PartialEq)]
pub enum Fields {
    Numbers(usize),
    Bytes,
}
use Fields::*;

/// The words and fields of the kinds from 1 on.
pub const KINDS: [(&str, Fields); 19] = [
    ("start", Numbers(1)),
    ("rfork", Numbers(2)),
    ("name", Bytes),
    ("sched", Numbers(0)),
    ("yield", Numbers(0)),
    ("sleep", Numbers(2)),
    ("tsleep", Numbers(5)),
    ("wakeup", Numbers(1)),
    ("qlock", Numbers(1)),
    ("canqlock", Numbers(1)),
    ("qunlock", Numbers(1)),
    ("cond", Numbers(2)),
    ("clock", Numbers(1)),
    ("tadd", Numbers(6)),
    ("tdel", Numbers(1)),
    ("intr", Numbers(1)),
    ("due", Numbers(0)),
    ("exit", Bytes),
    ("wait", Numbers(0)),
];

/// The longest line; what is longer is no step as a line.
const LINE_MAX: usize = 4096;

/// The bytes of the step that a line is, whatever its fields' ranges, or none
/// where the line has no such form.
pub fn of_line(line: &[u8]) -> Option<Vec<u8>> {
    if line.len() > LINE_MAX {
        return None;
    }
    let unmarked = line.strip_prefix(b"i ");
    let step = unmarked.unwrap_or(line);
    let word_end = step.iter().position(|&b| b == b' ').unwrap_or(step.len());
    let kind = KINDS.iter().position(|kind| kind.0.as_bytes() == &step[..word_end])?;
    let rest = step.get(word_end + 1..);
    let mut bytes = vec![kind as u8 + 1, u8::from(unmarked.is_some())];
    match KINDS[kind].1 {
        Bytes => put_bytes(&mut bytes, rest.unwrap_or_default()),
        Numbers(count) => put_numbers(&mut bytes, rest, count)?,
    }
    Some(bytes)
}

/// The bytes of an exit.
pub fn exit(status: &[u8]) -> Vec<u8> {
    let mut bytes = vec![18, 0];
    put_bytes(&mut bytes, status);
    bytes
}

fn put_bytes(bytes: &mut Vec<u8>, text: &[u8]) {
    bytes.extend((text.len() as u32).to_le_bytes());
    bytes.extend(text);
}

fn put_numbers(bytes: &mut Vec<u8>, rest: Option<&[u8]>, count: usize) -> Option<()> {
    let fields: Vec<&[u8]> = rest.map_or(Vec::new(), |rest| rest.split(|&b| b == b' ').collect());
    if fields.len() != count {
        return None;
    }
    for field in fields {
        bytes.extend(digits(std::str::from_utf8(field).ok()?)?.to_le_bytes());
    }
    Some(())
}

/// Whether bytes have the form of a step, whatever its fields' ranges.
pub fn is_step(bytes: &[u8]) -> bool {
    let [kind @ 1..=19, 0 | 1, rest @ ..] = bytes else { return false };
    match KINDS[*kind as usize - 1].1 {
        Numbers(count) => rest.len() == 8 * count,
        Bytes => rest
            .split_first_chunk()
            .is_some_and(|(length, text)| u32::from_le_bytes(*length) as usize == text.len()),
    }
}
