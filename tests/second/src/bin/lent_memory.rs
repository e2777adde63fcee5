//! Reads a sample of texts, writes and checks their stored files, writes their
//! plain forms, converts them, asks for the values of a sample of pieces, tests
//! a sample of UTF-8 and asks for lines and columns in it, through the C interface
//! out of and into memory of exactly the size lent, to be run under valgrind: a
//! read or write outside of it is an error there, and so is an answer that depends
//! on what the table or buffer held, or on the words behind a text's, since nothing
//! is written to it before.
//!
//! Exits with 1 if an answer, a written word or byte, the text, the piece, the
//! file or the table is not as it should be.  `lent_memory overstated` tells one byte
//! more than there is, which valgrind must report: so it is known to look.  So
//! does `lent_memory overstated-word`, where that byte is the last of eight
//! that the UTF-8 test may read at once.

// links the archive
use muon as _;

use second::answer::{Answer, DEPTH_MAX, NODES_MAX, NODE_WORDS, TEXT_MAX};
use second::compare::{accepted_bytes, finish, same, Compared};
use second::generate::{
    around, arrow_texts, deep_forms, encoded_texts, escape_texts, flipped, framed,
    long_packed_pieces, long_texts, packed_pieces, pieces, random_bytes, random_escape_pieces,
    random_packed_pieces, row, sample_pieces, texts, Random, FRAMES, RUN_MAX,
};
use second::position::{position, Position};
use second::tree::Rules;
use second::utf8::{self, Tested};
use second::{file, plain, samples, tree, value};
use std::alloc::{alloc, dealloc, handle_alloc_error, Layout};
use std::process::ExitCode;
use std::ptr::NonNull;
use std::slice;

const SEED: u64 = 20_261_115;
const GENERATED: usize = 1_500;
const ARROWS: usize = 300;
const ESCAPES: usize = 300;
const RANDOM_BYTES: usize = 60_000;
/// Of the short pieces for Blobs and Bits, one in so many.
const SPARSELY: usize = 40;
/// Of the long ones.
const LONG_SPARSELY: usize = 4;
/// The bytes of a word, which may be read at once.
const WORD: usize = 8;
const LEVELS: [u32; 6] = [1, 2, 0, 3, 257, u32::MAX];

extern "C" {
    fn muon_read(
        level: u32,
        text: *const u8,
        text_len: usize,
        table: *mut u32,
        table_len: usize,
        place: *mut usize,
        count: *mut usize,
    ) -> u32;
    fn muon_text(
        piece: *const u8,
        piece_len: usize,
        buffer: *mut u8,
        buffer_len: usize,
        place: *mut usize,
        count: *mut usize,
    ) -> u32;
    fn muon_blob(
        piece: *const u8,
        piece_len: usize,
        buffer: *mut u8,
        buffer_len: usize,
        place: *mut usize,
        count: *mut usize,
    ) -> u32;
    fn muon_bits(
        piece: *const u8,
        piece_len: usize,
        buffer: *mut u8,
        buffer_len: usize,
        place: *mut usize,
        count: *mut usize,
    ) -> u32;
    fn muon_file_write(
        text: *const u8,
        text_len: usize,
        buffer: *mut u8,
        buffer_len: usize,
        place: *mut usize,
        count: *mut usize,
    ) -> u32;
    fn muon_file_check(
        text: *const u8,
        text_len: usize,
        file: *const u8,
        file_len: usize,
        place: *mut usize,
        count: *mut usize,
    ) -> u32;
    fn muon_plain(
        level: u32,
        text: *const u8,
        text_len: usize,
        table: *const u32,
        table_len: usize,
        buffer: *mut u8,
        buffer_len: usize,
        place: *mut usize,
        count: *mut usize,
    ) -> u32;
    fn muon_convert(
        level: u32,
        text: *const u8,
        text_len: usize,
        buffer: *mut u8,
        buffer_len: usize,
        place: *mut usize,
        count: *mut usize,
    ) -> u32;
    fn muon_utf8(text: *const u8, text_len: usize, place: *mut usize, steps: *mut usize) -> u32;
    fn muon_line_column(
        text: *const u8,
        text_len: usize,
        place: usize,
        line: *mut usize,
        column: *mut usize,
    );
}

/// A call of the archive that writes to a buffer, and this package's.
type Writing =
    unsafe extern "C" fn(*const u8, usize, *mut u8, usize, *mut usize, *mut usize) -> u32;
type Ours = fn(&[u8], &mut [u8]) -> Answer;

const WRITING: [(&str, Writing, Ours); 3] = [
    ("text", muon_text, value::text),
    ("blob", muon_blob, value::blob),
    ("bits", muon_bits, value::bits),
];
const FILE: (&str, Writing, Ours) = ("file", muon_file_write, file::write);

/// Memory of its own for so many items, with none of them written.
struct Lent<T> {
    start: NonNull<T>,
    layout: Layout,
}

impl<T: Copy> Lent<T> {
    fn new(length: usize) -> Lent<T> {
        let layout = Layout::array::<T>(length).expect("a small length");
        if layout.size() == 0 {
            let start = NonNull::dangling();
            return Lent { start, layout };
        }
        // SAFETY: the size is not 0.
        let memory = unsafe { alloc(layout) }.cast();
        match NonNull::new(memory) {
            Some(start) => Lent { start, layout },
            None => handle_alloc_error(layout),
        }
    }

    fn holding(items: &[T]) -> Lent<T> {
        Lent::holding_behind(0, items)
    }

    /// Ends with the items; so many in front of them are not written.
    fn holding_behind(front: usize, items: &[T]) -> Lent<T> {
        let lent = Lent::new(front + items.len());
        // SAFETY: there is memory for as many.
        unsafe {
            lent.start
                .add(front)
                .copy_from(NonNull::from(items).cast(), items.len())
        };
        lent
    }

    /// The first items, which have been written.
    unsafe fn written(&self, length: usize) -> &[T] {
        slice::from_raw_parts(self.start.as_ptr(), length)
    }
}

impl<T> Drop for Lent<T> {
    fn drop(&mut self) {
        if self.layout.size() > 0 {
            // SAFETY: allocated with this layout, and not freed before.
            unsafe { dealloc(self.start.as_ptr().cast(), self.layout) };
        }
    }
}

/// What the archive answers for a text and a table, each of which is lent
/// whole, with the length told of the text.
fn proved(level: u32, text: &Lent<u8>, told: usize, table: &Lent<u32>) -> Answer {
    // SAFETY: each pointer is to memory of its own, of the length that is
    // told, except by `overstated`.
    answered(|place, count| unsafe {
        muon_read(
            level,
            text.start.as_ptr(),
            told,
            table.start.as_ptr(),
            table.layout.size() / size_of::<u32>(),
            place,
            count,
        )
    })
}

/// What a call answers, which is given memory for place and count.
fn answered(call: impl FnOnce(*mut usize, *mut usize) -> u32) -> Answer {
    let place = Lent::<usize>::new(1);
    let count = Lent::<usize>::new(1);
    let number = call(place.start.as_ptr(), count.start.as_ptr());
    // SAFETY: both are written by every call.
    let [place, count] = [place, count].map(|number| unsafe { number.written(1)[0] });
    Answer {
        number,
        place,
        count,
    }
}

/// A byte behind the text is read, if valgrind does not stop it.
fn overstated() {
    let text = b"0123456789";
    let lent = Lent::holding(text);
    proved(2, &lent, text.len() + 1, &Lent::new(NODE_WORDS));
}

/// The same of the UTF-8 test, and eight bytes that end behind the text.
fn overstated_word() {
    let text = b"0123456789abcde";
    proved_utf8(&Lent::holding(text), 0, text.len() + 1);
}

/// What the archive's test answers for so many bytes, some behind the start.
fn proved_utf8(memory: &Lent<u8>, front: usize, told: usize) -> Tested {
    // SAFETY: the memory is as long, except by `overstated_word`.
    let answer = answered(|place, steps| unsafe {
        muon_utf8(memory.start.as_ptr().add(front), told, place, steps)
    });
    Tested {
        number: answer.number,
        place: answer.place,
        steps: answer.count,
    }
}

/// The test of a text which ends where its memory does, so many bytes behind
/// the start of it, held against the second program's.
fn compare_utf8(text: &[u8], front: usize) -> Compared {
    let memory = Lent::holding_behind(front, text);
    let theirs = proved_utf8(&memory, front, text.len());
    let what = format!("utf8 test behind {front} bytes");
    same(&what, text, utf8::test(text), theirs)
}

/// Line and column of a text's end, of a place before it and of one beyond, of
/// a text that ends where its memory does.
fn compare_positions(text: &[u8], front: usize) -> Compared {
    let memory = Lent::holding_behind(front, text);
    for place in [text.len() / 2, text.len(), usize::MAX] {
        let mut theirs = Position { line: 0, column: 0 };
        // SAFETY: the memory is as long.
        unsafe {
            muon_line_column(
                memory.start.as_ptr().add(front),
                text.len(),
                place,
                &mut theirs.line,
                &mut theirs.column,
            );
        }
        same("position", text, position(text, place), theirs)?;
    }
    Ok(())
}

/// One reading, held against the second program's.
fn compare(level: u32, text: &[u8], words: usize) -> Compared {
    let mut ours = vec![0; words];
    let answer = tree::read(level, text, &mut ours);
    let written = match answer.number {
        0 => answer.count * NODE_WORDS,
        _ => 0,
    };

    let bytes = Lent::holding(text);
    let table = Lent::<u32>::new(words);
    let theirs = proved(level, &bytes, text.len(), &table);
    let what = format!("reading at level {level} with {words} words");
    same(&what, text, answer, theirs)?;
    // SAFETY: the text is as long, and of an accepted one so many words are
    // written, which valgrind checks.
    let (after, theirs) = unsafe { (bytes.written(text.len()), table.written(written)) };
    same(
        &format!("{what}: the words"),
        text,
        &ours[..written],
        theirs,
    )?;
    same(&format!("{what}: the text"), text, text, after)
}

/// The value of a piece in a buffer of this length, held against the second
/// program's.
fn compare_value(call: &(&str, Writing, Ours), piece: &[u8], length: usize) -> Compared {
    let (name, theirs, ours) = *call;
    let (answer, bytes) = accepted_bytes(length, |buffer| ours(piece, buffer));

    let lent = Lent::holding(piece);
    let buffer = Lent::<u8>::new(length);
    // SAFETY: each pointer is to memory of its own, of the length that is told.
    let proved = answered(|place, count| unsafe {
        let (piece_start, start) = (lent.start.as_ptr(), buffer.start.as_ptr());
        theirs(piece_start, piece.len(), start, length, place, count)
    });
    let what = format!("{name} in {length} bytes");
    same(&what, piece, answer, proved)?;
    // SAFETY: the piece is as long, and of an accepted one so many bytes are
    // written, which valgrind checks.
    let (after, theirs) = unsafe { (lent.written(piece.len()), buffer.written(bytes.len())) };
    same(&format!("{what}: the bytes"), piece, &bytes[..], theirs)?;
    same(&format!("{what}: the piece"), piece, piece, after)
}

/// By every call, with no buffer, with what the piece needs, a byte less and
/// a byte more.
fn piece(piece: &[u8], values: &mut usize) -> Compared {
    for call in &WRITING {
        let need = (call.2)(piece, &mut []).count;
        for length in [0, need.saturating_sub(1), need, need + 1] {
            *values += 1;
            compare_value(call, piece, length)?;
        }
    }
    Ok(())
}

/// The check of a file, held against the second program's.
fn compare_check(text: &[u8], stored: &[u8]) -> Compared {
    let lent = Lent::holding(text);
    let kept = Lent::holding(stored);
    // SAFETY: each pointer is to memory of its own, of the length that is told.
    let proved = answered(|place, count| unsafe {
        let (start, file_start) = (lent.start.as_ptr(), kept.start.as_ptr());
        muon_file_check(start, text.len(), file_start, stored.len(), place, count)
    });
    let what = format!("check of b\"{}\" as the file", stored.escape_ascii());
    same(&what, text, file::check(text, stored), proved)?;
    // SAFETY: both are as long.
    let (text_after, file_after) =
        unsafe { (lent.written(text.len()), kept.written(stored.len())) };
    same(&format!("{what}: the text"), text, text, text_after)?;
    same(&format!("{what}: the file"), text, stored, file_after)
}

/// The plain form of a text in a buffer of this length, with a table of which
/// the words behind the first ones are not written; held against the second
/// program's.
fn compare_plain(level: u32, text: &[u8], words: &[u32], behind: usize, length: usize) -> Compared {
    let table = [words, &vec![0; behind]].concat();
    let ours = |buffer: &mut [u8]| plain::write(level, text, &table, buffer);
    let (answer, bytes) = accepted_bytes(length, ours);

    let lent = Lent::holding(text);
    let kept = Lent::<u32>::new(table.len());
    let buffer = Lent::<u8>::new(length);
    // SAFETY: each pointer is to memory of its own, of the length that is told.
    let proved = answered(|place, count| unsafe {
        kept.start
            .copy_from(NonNull::from(words).cast(), words.len());
        muon_plain(
            level,
            lent.start.as_ptr(),
            text.len(),
            kept.start.as_ptr(),
            table.len(),
            buffer.start.as_ptr(),
            length,
            place,
            count,
        )
    });
    let what = format!("plain form at level {level} in {length} bytes");
    same(&what, text, answer, proved)?;
    // SAFETY: text and words are as long, and of an accepted one so many bytes
    // are written, which valgrind checks.
    let (text_after, words_after, theirs) = unsafe {
        (
            lent.written(text.len()),
            kept.written(words.len()),
            buffer.written(bytes.len()),
        )
    };
    same(&format!("{what}: the bytes"), text, &bytes[..], theirs)?;
    same(&format!("{what}: the text"), text, text, text_after)?;
    same(&format!("{what}: the table"), text, words, words_after)
}

/// What a text is converted to in a buffer of this length, held against the
/// second program's.
fn compare_convert(level: u32, text: &[u8], length: usize) -> Compared {
    let ours = |buffer: &mut [u8]| plain::convert(level, text, buffer);
    let (answer, bytes) = accepted_bytes(length, ours);

    let lent = Lent::holding(text);
    let buffer = Lent::<u8>::new(length);
    // SAFETY: each pointer is to memory of its own, of the length that is told.
    let proved = answered(|place, count| unsafe {
        let (text_start, start) = (lent.start.as_ptr(), buffer.start.as_ptr());
        muon_convert(level, text_start, text.len(), start, length, place, count)
    });
    let what = format!("conversion at level {level} in {length} bytes");
    same(&what, text, answer, proved)?;
    // SAFETY: the text is as long, and of an accepted one so many bytes are
    // written, which valgrind checks.
    let (after, theirs) = unsafe { (lent.written(text.len()), buffer.written(bytes.len())) };
    same(&format!("{what}: the bytes"), text, &bytes[..], theirs)?;
    same(&format!("{what}: the text"), text, text, after)
}

/// With no buffer, with what the conversion needs, a byte less and a byte more.
fn converted(text: &[u8], conversions: &mut usize) -> Compared {
    for level in [1, 2] {
        let need = plain::convert(level, text, &mut []).count;
        for length in [0, need.saturating_sub(1), need, need + 1] {
            *conversions += 1;
            compare_convert(level, text, length)?;
        }
    }
    Ok(())
}

/// A text's plain form with no buffer, with what it needs, a byte less and a
/// byte more; with words behind its table, with one too few, and with its first
/// and its last word changed.  Of a refused text, with a table of which nothing
/// is written.
fn plainly(text: &[u8], forms: &mut usize) -> Compared {
    for level in [1, 2] {
        let mut words = vec![0; NODES_MAX * NODE_WORDS];
        let read = tree::read(level, text, &mut words);
        let mut compare = |words: &[u32], behind, length| {
            *forms += 1;
            compare_plain(level, text, words, behind, length)
        };
        if read.number != 0 {
            compare(&[], NODE_WORDS, text.len())?;
            continue;
        }
        words.truncate(read.count * NODE_WORDS);
        let need = plain::write(level, text, &words, &mut []).count;
        for length in [0, need.saturating_sub(1), need, need + 1] {
            compare(&words, 0, length)?;
        }
        compare(&words, 1, need)?;
        compare(&words, NODE_WORDS, need)?;
        compare(&words[..words.len() - 1], 0, need)?;
        for at in [0, words.len() - 1] {
            let mut other = words.clone();
            other[at] ^= 1;
            compare(&other, 0, need)?;
        }
    }
    Ok(())
}

/// A text's file with no buffer, with what it needs, a byte less and a byte
/// more; and checks of the one that it has by the old rules: whole, a byte
/// longer, cut off in its head, by a byte and by a node, and with its first, its
/// middle and its last byte changed.
fn stored(text: &[u8], files: &mut usize) -> Compared {
    let need = file::write(text, &mut []).count;
    for length in [0, need.saturating_sub(1), need, need + 1] {
        *files += 1;
        compare_value(&FILE, text, length)?;
    }
    let another = b"FNT\0\x01\0\x01\0\x01\0\x07\0\0\0\x01\0\0\0\0\0\x02";
    let whole = file::of(Rules::Old, text).unwrap_or_else(|_| another.to_vec());
    let mut check = |bytes: &[u8]| {
        *files += 1;
        compare_check(text, bytes)
    };
    check(&whole)?;
    check(&[&whole[..], &[0]].concat())?;
    for length in (0..=file::length(0)).chain([whole.len() - 12, whole.len() - 1]) {
        check(&whole[..length])?;
    }
    for at in [0, 4, whole.len() / 2, whole.len() - 1] {
        let mut other = whole.clone();
        other[at] ^= 1;
        check(&other)?;
    }
    Ok(())
}

/// At every level, with no table, the longest, what the text needs, and a
/// word less.
fn text(text: &[u8], readings: &mut usize) -> Compared {
    let most = NODES_MAX * NODE_WORDS;
    let need = (tree::read(2, text, &mut []).count * NODE_WORDS).min(most);
    for level in LEVELS {
        for words in [0, most, need, need.saturating_sub(1)] {
            *readings += 1;
            compare(level, text, words)?;
        }
    }
    Ok(())
}

/// Brackets as deep as may be, around and behind others.
fn deep_texts() -> Vec<Vec<u8>> {
    ["({", "([", "((", "{{", "[[", "{(a:", "[a..[", "(a,("]
        .iter()
        .flat_map(|open| [DEPTH_MAX / 2, DEPTH_MAX / 2 + 1].map(|times| (open, times)))
        .map(|(open, times)| {
            let close: String = open
                .chars()
                .rev()
                .filter_map(|sign| match sign {
                    '(' => Some(')'),
                    '{' => Some('}'),
                    '[' => Some(']'),
                    _ => None,
                })
                .collect();
            [&open.repeat(times), "5", &close.repeat(times)].concat()
        })
        .map(String::into_bytes)
        .collect()
}

fn all_values(values: &mut usize) -> Compared {
    for sample in sample_pieces().iter().step_by(SPARSELY) {
        piece(sample, values)?;
    }
    let lists = [
        packed_pieces().into_iter().step_by(SPARSELY).collect(),
        pieces(SEED, GENERATED),
        random_escape_pieces(SEED, ESCAPES),
        random_packed_pieces(SEED, GENERATED),
        long_packed_pieces()
            .into_iter()
            .step_by(LONG_SPARSELY)
            .collect(),
    ];
    lists
        .iter()
        .flatten()
        .try_for_each(|made| piece(made, values))
}

/// Rows of ASCII, alone and with a longer sequence, one that is none or one
/// that is broken off at every place, behind up to seven bytes: so each end
/// is met with each number of bytes before it that are no whole word.
fn all_tests(tests: &mut usize) -> Compared {
    let mut test = |text: &[u8], front: usize| {
        *tests += 1;
        compare_positions(text, front)?;
        compare_utf8(text, front)
    };
    for row in around(&[], RUN_MAX) {
        for front in 0..WORD {
            test(&row, front)?;
            for last in [
                &b"\xC3\xA9"[..],
                b"\xF0\x9F\x98",
                b"\xE2\x82",
                b"\xC3",
                b"\xFF",
            ] {
                test(&[&row, last].concat(), front)?;
            }
        }
    }
    for piece in [&b"\xC3\xA9"[..], b"\xE2\x82\xAC", b"\x80"] {
        let rows = around(&[piece], RUN_MAX);
        for (index, row) in rows.iter().enumerate() {
            test(row, index % WORD)?;
        }
    }
    for (index, text) in encoded_texts(SEED, GENERATED).iter().enumerate() {
        test(text, index % WORD)?;
    }
    Ok(())
}

fn written_texts() -> Vec<Vec<u8>> {
    let mut all: Vec<Vec<u8>> = samples::all()
        .iter()
        .map(|sample| sample.text.to_vec())
        .collect();
    all.extend(texts(SEED, GENERATED));
    all.extend(arrow_texts(SEED, ARROWS));
    all.extend(escape_texts(SEED, ESCAPES));
    all.extend(deep_texts());
    all.extend(deep_forms("<-").into_iter().step_by(LONG_SPARSELY));
    all.extend(long_texts().into_iter().step_by(LONG_SPARSELY));
    all.extend([2 * NODES_MAX, 2 * NODES_MAX + 2, TEXT_MAX, TEXT_MAX + 2].map(samples::members));
    all
}

fn all_files(files: &mut usize) -> Compared {
    written_texts()
        .iter()
        .try_for_each(|text| stored(text, files))
}

fn all_forms(forms: &mut usize) -> Compared {
    for text in written_texts() {
        plainly(&text, forms)?;
    }
    plainly(&b"::Set".repeat(TEXT_MAX / 5), forms)
}

fn all_conversions(conversions: &mut usize) -> Compared {
    for text in written_texts() {
        converted(&text, conversions)?;
    }
    let nesting = b"::Set".repeat(TEXT_MAX / 5 - 1);
    converted(&[b"(5<-", &nesting[..], b")"].concat(), conversions)
}

fn all_readings(readings: &mut usize) -> Compared {
    let mut random = Random::new(SEED);
    for sample in samples::all() {
        text(sample.text, readings)?;
        // broken off, and with a bit flipped
        text(
            &sample.text[..random.below(sample.text.len() + 1)],
            readings,
        )?;
        let flips = flipped(sample.text, &mut random);
        if !flips.is_empty() {
            text(&flips[random.below(flips.len())], readings)?;
        }
    }
    for generated in texts(SEED, GENERATED) {
        text(&generated, readings)?;
    }
    for arrows in arrow_texts(SEED, ARROWS) {
        text(&arrows, readings)?;
    }
    for escapes in escape_texts(SEED, ESCAPES) {
        text(&escapes, readings)?;
    }
    for bytes in random_bytes(SEED, RANDOM_BYTES) {
        text(&bytes, readings)?;
    }
    for deep in deep_texts() {
        text(&deep, readings)?;
    }
    for long in long_texts() {
        // the end of a long text, right in front of memory that isn't lent
        compare(2, &long, NODES_MAX * NODE_WORDS)?;
        *readings += 1;
    }
    // whole words up to the end, and what is left behind them
    for frame in FRAMES {
        for length in 0..=RUN_MAX {
            compare(2, &framed(frame, &row(length)), 10 * NODE_WORDS)?;
            *readings += 1;
        }
    }
    for length in [TEXT_MAX, TEXT_MAX + 1] {
        text(&samples::members(length), readings)?;
    }
    Ok(())
}

fn main() -> ExitCode {
    match std::env::args().nth(1).as_deref() {
        Some("overstated") => {
            overstated();
            return ExitCode::SUCCESS;
        }
        Some("overstated-word") => {
            overstated_word();
            return ExitCode::SUCCESS;
        }
        _ => {}
    }
    let (mut readings, mut files, mut forms) = (0, 0, 0);
    let (mut conversions, mut values, mut tests) = (0, 0, 0);
    let outcome = all_readings(&mut readings)
        .and_then(|()| all_files(&mut files))
        .and_then(|()| all_forms(&mut forms))
        .and_then(|()| all_conversions(&mut conversions))
        .and_then(|()| all_values(&mut values))
        .and_then(|()| all_tests(&mut tests));
    let compared = format!(
        "{readings} readings, {files} writings and checks of files, {forms} plain forms, {conversions} conversions, {values} values, {tests} UTF-8 tests with lines and columns"
    );
    finish("lent_memory", &compared, outcome)
}
