//! The listing of a list: a header, then a line for each step.

use crate::driver::{self, Driver};
use crate::perform::Answer;
use std::io::{self, Write};

pub const HEADER: &[u8] = b"step;answer;up;queue;asleep;ticks\n";

/// The lines of an input; a last one needs no newline.
pub fn lines(input: &[u8]) -> impl Iterator<Item = &[u8]> {
    let whole = input.strip_suffix(b"\n").unwrap_or(input);
    whole.split(|&b| b == b'\n').take(if input.is_empty() { 0 } else { usize::MAX })
}

/// Run the list, and write its listing.  The error is a step that cannot be
/// run.
pub fn write(driver: &mut Driver, input: &[u8], out: &mut impl Write) -> Result<(), String> {
    let failed = |e: io::Error| e.to_string();
    out.write_all(HEADER).map_err(failed)?;
    for (i, line) in lines(input).enumerate() {
        let answer = driver.line(line).map_err(|why| format!("step {}: {why}", i + 1))?;
        out.write_all(&listed(i + 1, &answer)).map_err(failed)?;
    }
    out.flush().map_err(failed)
}

fn listed(step: usize, answer: &Answer) -> Vec<u8> {
    let mut line = format!("{step};").into_bytes();
    line.extend(text(answer));
    let queue = queue().unwrap_or("-".to_string());
    let state = format!(";{};{};{};{}\n", driver::up(), queue, driver::asleep(), driver::ticks());
    line.extend(state.into_bytes());
    line
}

/// The pids in the run queue, or None where it is empty.
fn queue() -> Option<String> {
    let pids: Vec<_> = driver::queued_pids().iter().map(u64::to_string).collect();
    (!pids.is_empty()).then(|| pids.join(","))
}

fn text(answer: &Answer) -> Vec<u8> {
    match answer {
        Answer::Pid(pid) => format!("pid {pid}").into_bytes(),
        Answer::Run(pid, None) => format!("run {pid}").into_bytes(),
        Answer::Run(pid, Some((child, message))) => {
            with_bytes(format!("run {pid} child {child} "), message)
        }
        Answer::Done => b"done".to_vec(),
        Answer::Asleep => b"asleep".to_vec(),
        Answer::Yes => b"yes".to_vec(),
        Answer::No => b"no".to_vec(),
        Answer::Fired(fired, stuck) => format!("fired {fired} {stuck}").into_bytes(),
        Answer::Exit(pid, status) => with_bytes(format!("exit {pid} "), status),
        Answer::Child(pid, message) => with_bytes(format!("child {pid} "), message),
        Answer::Idle => b"idle".to_vec(),
        Answer::End => b"end".to_vec(),
        Answer::Refused(number) => format!("refused {number}").into_bytes(),
    }
}

fn with_bytes(front: String, bytes: &[u8]) -> Vec<u8> {
    let mut text = front.into_bytes();
    text.extend_from_slice(bytes);
    text
}
