//! How often each step, answer and number occurs in lists and their listings.

use crate::listing;
use std::collections::BTreeMap;
use std::fs;
use std::path::Path;

const STEPS: [&str; 19] = [
    "start", "rfork", "name", "sched", "yield", "sleep", "tsleep", "wakeup", "qlock", "canqlock",
    "qunlock", "cond", "clock", "tadd", "tdel", "intr", "due", "exit", "wait",
];
const ANSWERS: [&str; 13] = [
    "pid",
    "pid 0",
    "run",
    "run child",
    "done",
    "asleep",
    "yes",
    "no",
    "fired",
    "exit",
    "child",
    "idle",
    "end",
];
/// The numbers that a step of a list from a fresh state can meet.
const NUMBERS: [u32; 14] = [2, 3, 4, 5, 6, 7, 8, 9, 10, 11, 12, 13, 15, 17];

/// Which steps can meet which number.
const MEETS: [(u32, &str); 14] = [
    (2, "start rfork name sleep tsleep wakeup qlock canqlock qunlock cond clock tadd tdel intr"),
    (3, "start rfork name sched yield sleep tsleep exit wait qlock"),
    (4, "rfork name yield tsleep exit wait qlock sleep"),
    (5, "sleep tsleep sched"),
    (6, "qunlock"),
    (7, "tsleep tadd"),
    (8, "tsleep clock tadd intr"),
    (9, "tsleep tadd"),
    (10, "rfork"),
    (11, "start rfork"),
    (12, "start rfork"),
    (13, "exit"),
    (15, "wait"),
    (17, "sched"),
];

/// The steps that may be marked.
const MARKED: &str = "wakeup qlock canqlock qunlock cond clock tadd tdel intr due";

type Counts = BTreeMap<String, u64>;

/// Count over `files`, each a list with its listing beside it; the text of
/// the counts, and what is missing.
pub fn report(files: &[&str]) -> Result<(String, Vec<String>), String> {
    let mut counts = Counts::new();
    for file in files {
        count_list(Path::new(file), &mut counts)?;
    }
    let missing = wanted().into_iter().filter(|what| !counts.contains_key(what)).collect();
    let text = counts.iter().map(|(what, n)| format!("{n:8} {what}\n")).collect();
    Ok((text, missing))
}

fn wanted() -> Vec<String> {
    let words = STEPS.iter().map(|step| format!("step {step}"));
    let answers = ANSWERS.iter().map(|answer| format!("answer {answer}"));
    let numbers = NUMBERS.iter().map(|number| format!("answer refused {number}"));
    let meets = MEETS.iter().flat_map(|(number, steps)| {
        steps.split(' ').map(move |step| format!("pair {step}: refused {number}"))
    });
    let marked = MARKED.split(' ').map(|step| format!("marked {step}: done"));
    words.chain(answers).chain(numbers).chain(meets).chain(marked).collect()
}

fn count_list(file: &Path, counts: &mut Counts) -> Result<(), String> {
    let read = |path: &Path| fs::read(path).map_err(|e| format!("{}: {e}", path.display()));
    let (steps, listed) = (read(file)?, read(&file.with_extension("listing"))?);
    let mut answers = listing::lines(&listed).skip(1);
    for step in listing::lines(&steps) {
        let line =
            answers.next().ok_or_else(|| format!("{}: listing too short", file.display()))?;
        count_step(step, line, counts);
    }
    match answers.next() {
        None => Ok(()),
        Some(_) => Err(format!("{}: listing too long", file.display())),
    }
}

fn count_step(step: &[u8], line: &[u8], counts: &mut Counts) {
    let marked = step.starts_with(b"i ");
    let word = first_word(if marked { &step[2..] } else { step });
    let word = if STEPS.contains(&word.as_str()) { word } else { "none".to_string() };
    let answer = answer(line);
    let refused = answer.starts_with("refused");
    let mut add = |what: String| *counts.entry(what).or_default() += 1;
    if marked {
        add(format!("marked {word}: {}", if refused { "refused" } else { "done" }));
    }
    add(format!("pair {word}: {answer}"));
    add(format!("answer {answer}"));
    add(format!("step {word}"));
}

fn first_word(line: &[u8]) -> String {
    let word = line.split(|&b| b == b' ').next().unwrap_or_default();
    String::from_utf8_lossy(word).into_owned()
}

/// The sort of answer of a listing's line.
fn answer(line: &[u8]) -> String {
    let text = String::from_utf8_lossy(line);
    let answer = text.split(';').nth(1).unwrap_or_default();
    let words: Vec<&str> = answer.split(' ').collect();
    match words.as_slice() {
        ["refused", number, ..] => format!("refused {number}"),
        ["run", _, "child", ..] => "run child".into(),
        ["pid", "0"] => "pid 0".into(),
        [first, ..] => first.to_string(),
        [] => String::new(),
    }
}
