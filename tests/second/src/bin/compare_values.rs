//! Compares this package's value calls with those of the verified archive:
//! number, place and count, the integer, and every byte of the lent buffer.
//! Checks of both that the reader judges a Blob as the Blob call does, and a Text
//! as the Text call does, at the same place.
//!
//! Exits with 1 at the first disagreement.

use second::answer::{Answer, BAD_VALUE, NO_ROOM};
use second::compare::{escapes_met, finish, in_quotes, listed, same, Compared, Difference};
use second::generate::{
    escape_pieces, long_packed_pieces, long_pieces, packed_pieces, pieces, random_escape_pieces,
    random_packed_pieces, row_texts, sample_pieces, short_pieces, two_groups, Random,
};
use second::progress;
use second::{tree, value};
use std::process::ExitCode;

/// Pieces of a run, rounded: shown beside those that are done.
const ABOUT: usize = 1_293_000;
const SEED: u64 = 20_261_117;
const GENERATED: usize = 200_000;
const ESCAPES: usize = 40_000;
/// Texts that are refused for an escape at least.
const REFUSED_ESCAPES: usize = 10_000;
/// Of the texts with rows, one in so many.
const SPARSELY: usize = 7;
/// Bytes behind the lent buffer, which no call may touch.
const GUARD: usize = 8;
/// The answers that the Integer call can give.
const INTEGER_NUMBERS: &[usize] = &[0, 2, 3, 9, 10];

/// A call that writes to a buffer: this package's and the archive's, and the
/// answers that it can give.
struct Writing {
    name: &'static str,
    ours: Call,
    theirs: Call,
    numbers: &'static [usize],
}

type Call = fn(&[u8], &mut [u8]) -> Answer;

const WRITING: [Writing; 3] = [
    Writing {
        name: "text",
        ours: value::text,
        theirs: archive::text,
        numbers: &[0, 2, 3, 5, 8, 9],
    },
    Writing {
        name: "blob",
        ours: value::blob,
        theirs: archive::blob,
        numbers: &[0, 2, 3, 5, 8, 9],
    },
    Writing {
        name: "bits",
        ours: value::bits,
        theirs: archive::bits,
        numbers: &[0, 2, 3, 8, 9],
    },
];

/// A program's Blob call, its Text call and its reader.
struct Program {
    name: &'static str,
    calls: [(&'static str, Call); 2],
    read: fn(u32, &[u8], &mut [u32]) -> Answer,
}

const PROGRAMS: [Program; 2] = [
    Program {
        name: "second",
        calls: [("Blob", value::blob), ("Text", value::text)],
        read: tree::read,
    },
    Program {
        name: "archive",
        calls: [("Blob", archive::blob), ("Text", archive::text)],
        read: archive::read,
    },
];

/// The calls of the archive, by the package that wraps it.
mod archive {
    use second::answer::Answer;
    use second::value::IntAnswer;

    pub fn integer(piece: &[u8]) -> IntAnswer {
        let answer = muon::integer(piece);
        IntAnswer {
            number: answer.number,
            place: answer.place,
            count: answer.count,
            value: answer.value,
        }
    }

    pub fn read(level: u32, text: &[u8], table: &mut [u32]) -> Answer {
        muon::read(level, text, table).into()
    }

    pub fn text(piece: &[u8], buffer: &mut [u8]) -> Answer {
        muon::text(piece, buffer).into()
    }

    pub fn blob(piece: &[u8], buffer: &mut [u8]) -> Answer {
        muon::blob(piece, buffer).into()
    }

    pub fn bits(piece: &[u8], buffer: &mut [u8]) -> Answer {
        muon::bits(piece, buffer).into()
    }
}

/// The answer, and the buffer with its guard as they are then.  Lends
/// `length` bytes of values that UTF-8 and bits do not have, so every write
/// of these shows, and nearly every one of a Blob's bytes.
fn written(call: Call, piece: &[u8], length: usize) -> (Answer, Vec<u8>) {
    let mut bytes: Vec<u8> = (0xF8..=0xFF).cycle().take(length + GUARD).collect();
    let answer = call(piece, &mut bytes[..length]);
    (answer, bytes)
}

/// A Blob or a Text is refused with 5 by the reader, at both levels and at the
/// same place, exactly if it is by the call; else it is a text of one node, for
/// which no room is lent.  Whether the piece is one.
fn judged_alike(program: &Program, kind: usize, piece: &[u8]) -> Result<bool, Difference> {
    let (name, call) = program.calls[kind];
    let answer = call(piece, &mut []);
    let expected = match answer.number {
        BAD_VALUE => answer,
        0 | NO_ROOM => Answer::no_room(piece.len(), 1),
        _ => return Ok(false),
    };
    for level in [1, 2] {
        let read = (program.read)(level, piece, &mut []);
        if read != expected {
            return Err(Difference(format!(
                "b\"{}\" ({} bytes) in {}\n  {name} call: {answer:?}\n  level {level}:   {read:?}",
                piece.escape_ascii(),
                piece.len(),
                program.name
            )));
        }
    }
    Ok(true)
}

/// What was compared: pieces, Blobs and Texts among them that were read too,
/// Texts with an escape that is refused, and the answers of each call by their
/// numbers.
struct Counts {
    random: Random,
    pieces: usize,
    read: [usize; 2],
    escapes: usize,
    integers: [usize; 12],
    written: [[usize; 12]; WRITING.len()],
}

impl Counts {
    fn new() -> Counts {
        Counts {
            random: Random::new(SEED),
            pieces: 0,
            read: [0; 2],
            escapes: 0,
            integers: [0; 12],
            written: [[0; 12]; WRITING.len()],
        }
    }

    fn integer(&mut self, piece: &[u8]) -> Compared {
        let ours = value::integer(piece);
        same("integer", piece, ours, archive::integer(piece))?;
        self.integers[ours.number as usize] += 1;
        Ok(())
    }

    /// A call with a buffer of this length; the number that it answers.
    fn call(&self, writing: &Writing, piece: &[u8], length: usize) -> Result<usize, Difference> {
        let (ours, our_bytes) = written(writing.ours, piece, length);
        let (theirs, their_bytes) = written(writing.theirs, piece, length);
        let what = format!("{} in {length} bytes", writing.name);
        same(&what, piece, ours, theirs)?;
        for (index, (ours, theirs)) in our_bytes.iter().zip(&their_bytes).enumerate() {
            if ours != theirs {
                same(&format!("{what}: byte {index}"), piece, ours, theirs)?;
            }
        }
        Ok(ours.number as usize)
    }

    /// None, every length around what the piece needs, and some; a refused
    /// piece needs none.
    fn lengths(&mut self, writing: &Writing, piece: &[u8]) -> Vec<usize> {
        let need = (writing.ours)(piece, &mut []).count;
        let mut lengths: Vec<usize> = (need.saturating_sub(2)..=need + 2).collect();
        lengths.extend([0, self.random.below(2 * need + 40)]);
        lengths.sort_unstable();
        lengths.dedup();
        lengths
    }

    fn piece(&mut self, piece: &[u8]) -> Compared {
        self.pieces += 1;
        progress::step();
        self.integer(piece)?;
        for (index, writing) in WRITING.iter().enumerate() {
            for length in self.lengths(writing, piece) {
                let number = self.call(writing, piece, length)?;
                self.written[index][number] += 1;
            }
        }
        for program in &PROGRAMS {
            for (kind, read) in self.read.iter_mut().enumerate() {
                *read += usize::from(judged_alike(program, kind, piece)?);
            }
        }
        let text = archive::text(piece, &mut []);
        self.escapes += usize::from(in_quotes(piece, text));
        Ok(())
    }

    fn every_answer(&self) -> Compared {
        escapes_met(self.escapes, REFUSED_ESCAPES)?;
        met("integer", &self.integers, INTEGER_NUMBERS)?;
        let mut written = WRITING.iter().zip(&self.written);
        written.try_for_each(|(call, answers)| met(call.name, answers, call.numbers))
    }

    fn summary(&self) -> String {
        let integers = ("integer", &self.integers, INTEGER_NUMBERS);
        let written = WRITING.iter().zip(&self.written);
        let calls = written.map(|(call, answers)| (call.name, answers, call.numbers));
        let each = [integers]
            .into_iter()
            .chain(calls)
            .map(|(name, answers, numbers)| format!(", {name} ({})", listed(answers, numbers)));
        format!(
            "{} pieces{}, {} Blobs and {} Texts read, {} of these with a bad escape",
            self.pieces,
            each.collect::<String>(),
            self.read[0] / PROGRAMS.len(),
            self.read[1] / PROGRAMS.len(),
            self.escapes
        )
    }
}

fn met(call: &str, answers: &[usize; 12], numbers: &[usize]) -> Compared {
    match numbers.iter().find(|number| answers[**number] == 0) {
        None => Ok(()),
        Some(number) => Err(Difference(format!("no {call} call answered {number}"))),
    }
}

fn run(counts: &mut Counts) -> Compared {
    for piece in sample_pieces() {
        counts.piece(piece)?;
    }
    let lists = [
        short_pieces(),
        long_pieces(),
        pieces(SEED, GENERATED),
        escape_pieces(),
        random_escape_pieces(SEED, ESCAPES),
        packed_pieces(),
        two_groups(),
        long_packed_pieces(),
        random_packed_pieces(SEED, GENERATED),
        row_texts().into_iter().step_by(SPARSELY).collect(),
    ];
    for piece in lists.iter().flatten() {
        counts.piece(piece)?;
    }
    counts.every_answer()
}

fn main() -> ExitCode {
    progress::begin("compare_values", "pieces", Some(ABOUT));
    let mut counts = Counts::new();
    let outcome = run(&mut counts);
    finish("compare_values", &counts.summary(), outcome)
}
