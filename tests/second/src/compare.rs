//! What the comparisons with the verified archives share.

#[cfg(feature = "muon")]
pub mod forms;
#[cfg(feature = "muon")]
pub mod layouts;
#[cfg(feature = "muon")]
pub mod readings;
pub mod skips;

use crate::answer::{Answer, BAD_VALUE};
use crate::generate::Random;
use crate::progress;
use std::fmt::Debug;
use std::process::ExitCode;

/// Bytes behind a lent buffer, which no call may touch.
const GUARD: usize = 8;
/// A call that writes is made once with each.
pub const TURNS: [u8; 2] = [0, 0xFF];

/// A disagreement, ready to be printed.
pub struct Difference(pub String);

pub type Compared = Result<(), Difference>;

pub fn same<T: PartialEq + Debug>(what: &str, text: &[u8], ours: T, theirs: T) -> Compared {
    if ours == theirs {
        return Ok(());
    }
    Err(Difference(format!(
        "{what} of b\"{}\" ({} bytes)\n  second:  {ours:?}\n  archive: {theirs:?}",
        text.escape_ascii(),
        text.len()
    )))
}

/// The archive's answers, by the package that wraps it.
#[cfg(feature = "muon")]
impl From<muon::Answer> for Answer {
    fn from(answer: muon::Answer) -> Answer {
        Answer {
            number: answer.number,
            place: answer.place,
            count: answer.count,
        }
    }
}

/// The answer of a call that is lent so many bytes, and those that it wrote: none
/// if it refused.
pub fn accepted_bytes(length: usize, call: impl FnOnce(&mut [u8]) -> Answer) -> (Answer, Vec<u8>) {
    let mut bytes = vec![0; length];
    let answer = call(&mut bytes);
    bytes.truncate(if answer.number == 0 { answer.count } else { 0 });
    (answer, bytes)
}

/// The answer, and the buffer with its guard as they are then.  The bytes lent
/// vary; with another `turn` each is another, so a byte that is not written
/// shows with one of them, whatever it should be.
fn written(call: impl Fn(&mut [u8]) -> Answer, length: usize, turn: u8) -> (Answer, Vec<u8>) {
    let mut bytes: Vec<u8> = (0..length + GUARD)
        .map(|at| (at as u8).wrapping_mul(37) ^ turn)
        .collect();
    let answer = call(&mut bytes[..length]);
    (answer, bytes)
}

/// That two calls answer alike and leave every byte of a buffer of so many
/// alike; the answer.
pub fn same_written(
    what: impl Fn() -> String,
    text: &[u8],
    length: usize,
    ours: impl Fn(&mut [u8]) -> Answer,
    theirs: impl Fn(&mut [u8]) -> Answer,
) -> Result<Answer, Difference> {
    let mut answer = Answer::accepted(0, 0);
    for turn in TURNS {
        let (our_answer, our_bytes) = written(&ours, length, turn);
        let (their_answer, their_bytes) = written(&theirs, length, turn);
        if our_answer != their_answer {
            same(&what(), text, our_answer, their_answer)?;
        }
        for (index, (ours, theirs)) in our_bytes.iter().zip(&their_bytes).enumerate() {
            if ours != theirs {
                same(&format!("{}: byte {index}", what()), text, ours, theirs)?;
            }
        }
        answer = our_answer;
    }
    Ok(answer)
}

/// Lengths of a buffer: these, those around what is needed, and one by chance.
pub fn lengths(some: &[usize], need: usize, random: &mut Random) -> Vec<usize> {
    let mut lengths = some.to_vec();
    lengths.extend(need.saturating_sub(2)..=need + 2);
    lengths.push(random.below(2 * need + 40));
    lengths.sort_unstable();
    lengths.dedup();
    lengths
}

/// That each of these answers was given.
pub fn all_met(name: &str, answers: &[usize], numbers: &[usize]) -> Compared {
    match numbers.iter().find(|number| answers[**number] == 0) {
        Some(number) => Err(Difference(format!("the {name} never answered {number}"))),
        None => Ok(()),
    }
}

/// That each of these was met, so many times.
pub fn each_met(times: &[(&str, usize)]) -> Compared {
    match times.iter().find(|(_, times)| *times == 0) {
        Some((what, _)) => Err(Difference(format!("there was never {what}"))),
        None => Ok(()),
    }
}

/// Whether an escape out of range was refused: 5 at a backslash, which begins no
/// literal.
pub fn in_quotes(text: &[u8], answer: Answer) -> bool {
    answer.number == BAD_VALUE && text.get(answer.place) == Some(&b'\\')
}

/// That bad escapes were refused often enough for the comparison to mean much.
pub fn escapes_met(times: usize, least: usize) -> Compared {
    enough("bad escapes refused", times, least)
}

/// That something was met often enough for the comparison to mean much.
pub fn enough(what: &str, times: usize, least: usize) -> Compared {
    if times >= least {
        return Ok(());
    }
    Err(Difference(format!("{what}: {times} only, and not {least}")))
}

/// How many calls there were, and how many of them with each of these answers.
pub fn listed(answers: &[usize], numbers: &[usize]) -> String {
    let each = numbers
        .iter()
        .map(|number| format!("{number}: {}", answers[*number]));
    format!(
        "{} calls, answers {}",
        answers.iter().sum::<usize>(),
        each.collect::<Vec<String>>().join(", ")
    )
}

/// Prints how much was compared, and the disagreement if there is one.
pub fn finish(name: &str, compared: &str, outcome: Compared) -> ExitCode {
    progress::end();
    match outcome {
        Ok(()) => {
            println!("{name}: {compared}: all agree");
            ExitCode::SUCCESS
        }
        Err(Difference(report)) => {
            println!("{name}: disagreement after {compared}");
            println!("{report}");
            ExitCode::FAILURE
        }
    }
}
