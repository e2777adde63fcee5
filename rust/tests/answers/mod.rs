//! Answers as they should be, and what a call writes.

use muon::{Answer, Refusal};

const FILLED: u8 = 0xA5;

pub fn accepted(place: usize, count: usize) -> Answer {
    Answer {
        number: 0,
        place,
        count,
    }
}

pub fn refused(refusal: Refusal, place: usize, count: usize) -> Answer {
    Answer {
        number: refusal.number(),
        place,
        count,
    }
}

/// The answer, and what is written to a buffer of so many bytes; those behind
/// it stay.
pub fn written(call: impl FnOnce(&mut [u8]) -> Answer, room: usize) -> (Answer, Vec<u8>) {
    let mut buffer = vec![FILLED; room];
    let answer = call(&mut buffer);
    let written = match answer.is_accepted() {
        true => answer.count,
        false => 0,
    };
    assert!(buffer[written..].iter().all(|byte| *byte == FILLED));
    buffer.truncate(written);
    (answer, buffer)
}
