//! The answers that the documents show.
//!
//! In prose, with a text in code quotes; 6@4 is refusal 6 at place 4:
//!
//! * "TEXT is 6@4", "TEXT has the nodes NODE, NODE", "TEXT has 3 nodes": read
//!   at both levels, or at the one that the sentence names before; both so in a
//!   table of 6 words where it says "with a table of 6 words" before;
//! * "TEXT has the tokens PIECE, PIECE", at its end perhaps "and then 4@3";
//! * "TEXT has the value 29", by the Integer call; "TEXT has the characters
//!   OTHER" or "TEXT has no characters", by the Text call; "TEXT has the bytes
//!   A7 05" or "TEXT has no bytes", by the Blob call; "TEXT has the bits 0 1 1"
//!   or "TEXT has no bits", by the Bits call; where the sentence names a call
//!   before, "TEXT is 9@0" is that call's;
//! * "TEXT has 3 steps" and, where the sentence names it, "TEXT is 3@8 after 1
//!   step", by the UTF-8 call. There `\xFF` in a text is that byte;
//! * "TEXT has the file 46 4E 54", by the writer of stored files, whose refusal
//!   is "TEXT is 6@2" where the sentence says "to be stored" before; and "TEXT
//!   is 12@0" or "TEXT is accepted", by their checker, where it says "with the
//!   file 46 4E" before;
//! * "TEXT is written OTHER", its plain form at level 2, or at the one that the
//!   sentence names before; of a refusal "TEXT is 6@2" where the sentence says
//!   "to be written plainly" before, or "TEXT is 14@0" where it says "with the
//!   table of OTHER" before;
//! * "TEXT converts to OTHER", by the converter at level 2, or at the one that
//!   the sentence names before; of a refusal "TEXT is 6@2" where it says "to be
//!   converted" before;
//! * where the sentence says "by the old rules" before: "TEXT is 4@4", by the
//!   converter at both levels, since the old reading is seen there; and "TEXT
//!   has the nodes NODE, NODE", each of six words, by the checker of stored
//!   files, which takes the file with these nodes.
//!
//! In a table with the columns "text", "old reader" and "new reader" or "both
//! readers", "level 1" and "level 2", or "answer" for both levels: an answer,
//! nodes, a number of nodes, the root's kind with its children ("Tuple: name
//! Text, value Integer"), or "the same" as before. A cell may have several
//! texts. If the first column is "bytes", `\xFF` in a text is that byte. What a
//! column "write" has are texts that both levels accept.
//!
//! In code: a command behind `$`, and below it what it writes; and a text, then
//! a passage that begins with "is listed", then its listing at level 2, with
//! role, kind and literal as a note behind the words of each node.

use super::markup::{one_spaced, Block, Part, Passage};
use super::{shapes, Document, Finding};
use crate::answer::{Answer, NODES_MAX, NODE_WORDS, NO_TOKEN};
use crate::file::{FILE_MAX, STORED_WORDS};
use crate::token::Lexed;
use crate::{file, front, plain, token, tree, utf8, value};

#[derive(Clone, Debug, PartialEq, Eq)]
pub enum Call {
    Read(u32),
    /// At a level, in a table of so many words.
    ReadInto(u32, usize),
    /// At a level, of a text in which `\xFF` is that byte.
    ReadBytes(u32),
    /// The listing at a level.
    List(u32),
    Tokens,
    Integer,
    Text,
    Blob,
    Bits,
    Utf8,
    File,
    /// Of these bytes as the file.
    Check(Vec<u8>),
    /// Of the file that has the wanted nodes.
    CheckNodes,
    /// At a level, with the table of the text, or of another.
    Plain(u32, Option<String>),
    /// At a level.
    Convert(u32),
    /// The text is a command.
    Shell,
}

#[derive(Clone, Debug, PartialEq, Eq)]
pub enum Want {
    /// Number and place.
    Refused(u32, usize),
    /// Of a file that is checked, or of a text that is to be written instead.
    Accepted,
    Nodes(Vec<String>),
    Count(usize),
    /// The root's kind, and its children with their roles and kinds.
    Shape(String),
    /// As at level 1, word for word.
    Same,
    /// The root's detail.
    Detail(u32),
    /// Tokens, and where none starts behind them.
    Tokens(Vec<String>, Option<(u32, usize)>),
    Value(i64),
    Characters(String),
    /// Of a Blob or a stored file, or 0 and 1 of Bits.
    Bytes(Vec<u8>),
    /// Of the UTF-8 test.
    Steps(usize),
    /// The plain form.
    Form(String),
    Writes(String),
}

#[derive(Clone, Debug, PartialEq, Eq)]
pub struct Example {
    pub file: String,
    pub line: usize,
    pub text: String,
    pub call: Call,
    pub want: Want,
}

/// The level of a plain form, if the sentence names none.
const PLAIN_LEVEL: u32 = 2;
/// The word of a node that has its detail.
const DETAIL: usize = 5;
/// Between a text and its plain form.
const IS_WRITTEN: &str = " is written ";
/// Between a text and what the converter writes.
const CONVERTS_TO: &str = " converts to ";
/// In front of a text whose table is lent.
const TABLE_OF: &str = "ith the table of ";
/// Between a Text and its characters.
const CHARACTERS: &str = "the characters ";
/// Between a text in code and its listing.
const IS_LISTED: &str = "is listed";
/// The level of such a listing.
const LIST_LEVEL: u32 = 2;
/// The column of texts to be written instead of others.
const WRITE: &str = "write";

/// What a text is given to, as the sentence says.
#[derive(Clone, Debug, PartialEq, Eq)]
enum Asked {
    BothLevels,
    Level(u32),
    /// Both levels, in a table of so many words.
    Words(usize),
    Integer,
    Text,
    Blob,
    Bits,
    Utf8,
    File,
    Check(Vec<u8>),
    /// With the table of this text, if not of the same.
    Plain(Option<String>),
    Convert,
    OldRules,
}

impl Asked {
    fn calls(&self) -> Vec<Call> {
        match self {
            Asked::BothLevels => vec![Call::Read(1), Call::Read(2)],
            Asked::Level(level) => vec![Call::Read(*level)],
            Asked::Words(words) => [1, 2].map(|level| Call::ReadInto(level, *words)).to_vec(),
            Asked::Integer => vec![Call::Integer],
            Asked::Text => vec![Call::Text],
            Asked::Blob => vec![Call::Blob],
            Asked::Bits => vec![Call::Bits],
            Asked::Utf8 => vec![Call::Utf8],
            Asked::File => vec![Call::File],
            Asked::Check(bytes) => vec![Call::Check(bytes.clone())],
            Asked::Plain(_) => vec![self.plain()],
            Asked::Convert => vec![self.convert()],
            Asked::OldRules => vec![Call::Convert(1), Call::Convert(2)],
        }
    }

    /// The calls that tell a text's nodes.
    fn nodes(&self) -> Vec<Call> {
        match self {
            Asked::OldRules => vec![Call::CheckNodes],
            _ => self.calls(),
        }
    }

    /// The words of a node that these calls tell.
    fn node_words(&self) -> usize {
        match self {
            Asked::OldRules => STORED_WORDS,
            _ => NODE_WORDS,
        }
    }

    /// The call for the plain form of a text in such a sentence.
    fn plain(&self) -> Call {
        match self {
            Asked::Level(level) => Call::Plain(*level, None),
            Asked::Plain(other) => Call::Plain(PLAIN_LEVEL, other.clone()),
            _ => Call::Plain(PLAIN_LEVEL, None),
        }
    }

    /// The call that converts a text in such a sentence.
    fn convert(&self) -> Call {
        match self {
            Asked::Level(level) => Call::Convert(*level),
            _ => Call::Convert(PLAIN_LEVEL),
        }
    }
}

/// A document's examples, and answers that belong to none.
#[derive(Default)]
pub struct Shown {
    pub examples: Vec<Example>,
    pub findings: Vec<Finding>,
}

pub fn shown(document: &Document) -> Shown {
    let mut reader = Reader {
        file: &document.path,
        shown: Shown::default(),
    };
    for (at, block) in document.blocks.iter().enumerate() {
        match block {
            Block::Heading { .. } => {}
            Block::Passage(passage) => {
                if begins_with(passage, IS_LISTED) {
                    reader.listing(passage.line, &document.blocks, at);
                }
                reader.passage(passage);
            }
            Block::Table { heads, rows } if is_readers(heads) => {
                for row in rows {
                    reader.row(heads, row);
                }
            }
            Block::Table { rows, .. } => {
                rows.iter().flatten().for_each(|cell| reader.passage(cell))
            }
            Block::Code(lines) => reader.console(lines),
        }
    }
    reader.shown
}

/// The shapes of Intervals that the header lists with their details.
pub fn details(file: &str, header: &str) -> Vec<Example> {
    let mut found = Vec::new();
    for (at, line) in header.lines().enumerate() {
        let Some(rest) = line.strip_prefix("#define MUON_DETAIL_") else {
            continue;
        };
        let number = rest
            .split_whitespace()
            .nth(1)
            .and_then(|word| word.parse().ok());
        let comment = rest
            .split_once("/*")
            .and_then(|(_, end)| end.strip_suffix("*/"));
        let shape = comment
            .map(str::trim)
            .filter(|shape| shape.starts_with('['));
        if let (Some(number), Some(shape)) = (number, shape) {
            found.push(Example {
                file: file.to_string(),
                line: at + 1,
                text: shape.to_string(),
                call: Call::Read(2),
                want: Want::Detail(number),
            });
        }
    }
    found
}

fn begins_with(passage: &Passage, words: &str) -> bool {
    matches!(passage.parts.first(), Some(Part::Prose(prose)) if prose.starts_with(words))
}

/// Whether the columns of a table are texts and what is answered.
fn is_readers(heads: &[String]) -> bool {
    let texts = heads.first();
    texts.is_some_and(|head| ["text", "bytes"].contains(&head.as_str()))
        && heads.iter().any(|head| levels(head).is_some())
}

/// Whether a column of a table has texts, and so no names.
pub fn has_texts(heads: &[String], column: usize) -> bool {
    is_readers(heads) && (column == 0 || heads[column] == WRITE)
}

/// The levels that a column is about.
fn levels(head: &str) -> Option<Asked> {
    match head {
        "old reader" | "level 1" => Some(Asked::Level(1)),
        "new reader" | "level 2" => Some(Asked::Level(2)),
        "both readers" | "answer" => Some(Asked::BothLevels),
        _ => None,
    }
}

/// The number and place at the start, as in 6@4, and how long they are.
fn leading_answer(text: &str) -> Option<((u32, usize), usize)> {
    let digits = |text: &str| text.chars().take_while(char::is_ascii_digit).count();
    let at = digits(text);
    let place = text[at..].strip_prefix('@')?;
    let end = digits(place);
    Some((
        (text[..at].parse().ok()?, place[..end].parse().ok()?),
        at + 1 + end,
    ))
}

/// How many answers a prose has.
fn answers_in(prose: &str) -> usize {
    let starts = |at: usize| at == 0 || !prose[..at].ends_with(|c: char| c.is_ascii_digit());
    let places = prose.char_indices().map(|(at, _)| at);
    places
        .filter(|&at| starts(at) && leading_answer(&prose[at..]).is_some())
        .count()
}

/// The number at the start of a word row.
fn leading_number<T: std::str::FromStr>(text: &str) -> Option<T> {
    let word = text.split([' ', ',', ';', ':']).next()?;
    word.trim_end_matches('.').parse().ok()
}

/// The bytes at the start, each of so many hexadecimal digits, with a space
/// between.
fn leading_bytes(text: &str, digits: usize) -> Vec<u8> {
    let mut bytes = Vec::new();
    for word in text.split(' ') {
        let number = word.trim_end_matches([',', ';', ':', '.']);
        match u8::from_str_radix(number, 16) {
            Ok(byte) if number.len() == digits => bytes.push(byte),
            _ => break,
        }
        if number != word {
            break;
        }
    }
    bytes
}

/// What is said of a Blob, of Bits or of a text to be stored: the call, and its
/// bytes.
fn leading_value(text: &str) -> Option<(Call, Vec<u8>)> {
    for (call, name, digits) in [
        (Call::Blob, "bytes", 2),
        (Call::Bits, "bits", 1),
        (Call::File, "file", 2),
    ] {
        if text.starts_with(&format!("no {name}")) {
            return Some((call, Vec::new()));
        }
        if let Some(rest) = text.strip_prefix(&format!("the {name} ")) {
            return Some((call, leading_bytes(rest, digits)));
        }
    }
    None
}

/// "3 nodes", "1 node" or "1,024 nodes"; so of steps and of words.
fn leading_count(text: &str, noun: &str) -> Option<usize> {
    let (number, behind) = text.split_once(' ')?;
    let number = number.replace(',', "").parse().ok()?;
    behind.starts_with(noun).then_some(number)
}

/// Whether what looks like a name is a text, by the prose on its two sides: its
/// answer, its steps, its file, its node or its characters are told, it is
/// written plainly, converted or a plain form, it is the characters of another,
/// or its table is meant.
pub fn is_text(before: &str, behind: &str) -> bool {
    let told = behind.strip_prefix(" has ");
    let of_text = |rest: &str| {
        let nouns = ["the file ", "the node ", CHARACTERS];
        leading_count(rest, "step").is_some() || nouns.iter().any(|noun| rest.starts_with(noun))
    };
    let answer = behind.strip_prefix(" is ").and_then(leading_answer);
    told.is_some_and(of_text)
        || answer.is_some()
        || before.ends_with(CHARACTERS)
        || [before, behind]
            .iter()
            .any(|prose| [IS_WRITTEN, CONVERTS_TO].contains(prose))
        || before.ends_with(TABLE_OF)
}

/// The bytes of a text, in which `\xFF` is that byte.
fn unescaped(text: &str) -> Vec<u8> {
    let mut bytes = Vec::new();
    let mut rest = text;
    while let Some((before, behind)) = rest.split_once("\\x") {
        bytes.extend(before.bytes());
        let digits = behind.get(..2);
        match digits.and_then(|digits| u8::from_str_radix(digits, 16).ok()) {
            Some(byte) => {
                bytes.push(byte);
                rest = &behind[2..];
            }
            None => {
                bytes.extend(b"\\x");
                rest = behind;
            }
        }
    }
    bytes.extend(rest.bytes());
    bytes
}

/// What a sentence asks, after what stood before and this prose of it.
fn asked(before: Asked, prose: &str) -> Asked {
    let ended = prose.rfind(". ").max(prose.rfind("; "));
    let (mut asked, sentence) = match ended {
        Some(at) => (Asked::BothLevels, &prose[at..]),
        None => (before, prose),
    };
    let phrases = [
        ("evel 1", Asked::Level(1)),
        ("evel 2", Asked::Level(2)),
        ("Integer call", Asked::Integer),
        ("Text call", Asked::Text),
        ("Blob call", Asked::Blob),
        ("Bits call", Asked::Bits),
        ("UTF-8 call", Asked::Utf8),
        ("o be stored", Asked::File),
        ("o be written plainly", Asked::Plain(None)),
        ("o be converted", Asked::Convert),
        ("y the old rules", Asked::OldRules),
    ];
    for (phrase, call) in phrases {
        if sentence.contains(phrase) {
            asked = call;
        }
    }
    if let Some((_, words)) = sentence.split_once("ith a table of ") {
        asked = leading_count(words, "word").map_or(asked, Asked::Words);
    }
    if let Some((_, bytes)) = sentence.split_once("ith the file ") {
        asked = Asked::Check(leading_bytes(bytes, 2));
    }
    asked
}

/// Whether the text behind these parts is one whose table is lent.
fn behind_table_of(before: &[Part]) -> bool {
    matches!(before.last(), Some(Part::Prose(prose)) if one_spaced(prose).ends_with(TABLE_OF))
}

fn is_node(text: &str, length: usize) -> bool {
    let words: Vec<&str> = text.split(' ').collect();
    words.len() == length && words.iter().all(|word| word.parse::<u32>().is_ok())
}

struct Reader<'a> {
    file: &'a str,
    shown: Shown,
}

impl Reader<'_> {
    fn add(&mut self, line: usize, text: &str, calls: &[Call], want: &Want) {
        for call in calls {
            self.shown.examples.push(Example {
                file: self.file.to_string(),
                line,
                text: text.to_string(),
                call: call.clone(),
                want: want.clone(),
            });
        }
    }

    fn fail(&mut self, line: usize, reason: &str) {
        self.shown
            .findings
            .push(Finding::new(self.file, line, reason.to_string()));
    }

    fn passage(&mut self, passage: &Passage) {
        let mut context = Asked::BothLevels;
        let (mut used, mut answers) = (0, 0);
        for (at, part) in passage.parts.iter().enumerate() {
            match part {
                Part::Prose(prose) => {
                    context = asked(context, &one_spaced(prose));
                    answers += answers_in(prose);
                }
                Part::Code { text, .. } if behind_table_of(&passage.parts[..at]) => {
                    context = Asked::Plain(Some(text.clone()));
                }
                Part::Code { text, line, .. } => {
                    used += usize::from(self.statement(
                        text,
                        *line,
                        &passage.parts[at + 1..],
                        &context,
                    ));
                }
            }
        }
        if used < answers {
            self.fail(passage.line, "an answer that belongs to no text");
        }
    }

    /// What is said of a text; whether it used an answer.
    fn statement(&mut self, text: &str, line: usize, behind: &[Part], context: &Asked) -> bool {
        let Some(Part::Prose(prose)) = behind.first() else {
            return false;
        };
        let said = one_spaced(prose);
        if let Some(Part::Code { text: form, .. }) = behind.get(1) {
            let call = match &said[..] {
                IS_WRITTEN => Some(context.plain()),
                CONVERTS_TO => Some(context.convert()),
                _ => None,
            };
            if let Some(call) = call {
                self.add(line, text, &[call], &Want::Form(form.clone()));
                return false;
            }
        }
        if let Some(rest) = said.strip_prefix(" is ") {
            if matches!(context, Asked::Check(_)) && rest.starts_with("accepted") {
                self.add(line, text, &context.calls(), &Want::Accepted);
                return false;
            }
            let Some(((number, place), end)) = leading_answer(rest) else {
                return false;
            };
            self.add(line, text, &context.calls(), &Want::Refused(number, place));
            let after = rest[end..].strip_prefix(" after ");
            if let Some(steps) = after.and_then(|rest| leading_count(rest, "step")) {
                self.add(line, text, &[Call::Utf8], &Want::Steps(steps));
            }
            return true;
        }
        let Some(rest) = said.strip_prefix(" has ") else {
            return false;
        };
        if rest == "the tokens " {
            let (tokens, last) = listed(&behind[1..]);
            let last = last.strip_prefix(" and then ").and_then(leading_answer);
            let answer = last.map(|(answer, _)| answer);
            self.add(line, text, &[Call::Tokens], &Want::Tokens(tokens, answer));
            return answer.is_some();
        }
        if ["the node ", "the nodes "].contains(&rest) {
            let nodes = listed(&behind[1..])
                .0
                .into_iter()
                .take_while(|code| is_node(code, context.node_words()))
                .collect();
            self.add(line, text, &context.nodes(), &Want::Nodes(nodes));
        } else if let Some(count) = leading_count(rest, "node") {
            self.add(line, text, &context.calls(), &Want::Count(count));
        } else if let Some(steps) = leading_count(rest, "step") {
            self.add(line, text, &[Call::Utf8], &Want::Steps(steps));
        } else if let Some(value) = rest.strip_prefix("the value ").and_then(leading_number) {
            self.add(line, text, &[Call::Integer], &Want::Value(value));
        } else if rest.starts_with("no characters") {
            self.add(line, text, &[Call::Text], &Want::Characters(String::new()));
        } else if rest == CHARACTERS {
            let characters = listed(&behind[1..]).0.swap_remove(0);
            self.add(line, text, &[Call::Text], &Want::Characters(characters));
        } else if let Some((call, bytes)) = leading_value(rest) {
            self.add(line, text, &[call], &Want::Bytes(bytes));
        }
        false
    }

    /// A row of a table: texts, what readers answer to each, and what is said
    /// beside.
    fn row(&mut self, heads: &[String], row: &[Passage]) {
        let mut texts = listed(&row[0].parts[1..]).0;
        if texts.is_empty() {
            texts.push(String::new());
        }
        for (at, (cell, head)) in row.iter().zip(heads).enumerate() {
            if head == WRITE {
                self.to_be_written(cell);
            } else if !has_texts(heads, at) && levels(head).is_none() {
                self.passage(cell);
            }
            let Some(asked) = levels(head) else {
                continue;
            };
            let prose = match &cell.parts[0] {
                Part::Prose(prose) => prose.trim_start(),
                Part::Code { .. } => "",
            };
            let nodes: Vec<String> = all_codes(cell)
                .into_iter()
                .filter(|code| is_node(code, asked.node_words()))
                .collect();
            let want = if let Some(((number, place), _)) = leading_answer(prose) {
                Want::Refused(number, place)
            } else if prose.starts_with("the same") {
                Want::Same
            } else if !nodes.is_empty() {
                Want::Nodes(nodes)
            } else if let Some(count) = leading_count(prose, "node") {
                Want::Count(count)
            } else if shapes::is_shape(prose) {
                Want::Shape(prose.trim_end().to_string())
            } else {
                self.fail(cell.line, &format!("no answer that can be run: {prose}"));
                continue;
            };
            let mut calls = asked.calls();
            if heads[0] == "bytes" {
                calls = calls.into_iter().map(of_bytes).collect();
            }
            for text in &texts {
                self.add(cell.line, text, &calls, &want);
            }
        }
    }

    /// Texts to be written instead of others.
    fn to_be_written(&mut self, cell: &Passage) {
        for text in all_codes(cell) {
            let calls = Asked::BothLevels.calls();
            self.add(cell.line, &text, &calls, &Want::Accepted);
        }
    }

    /// A text and its listing, on the two sides of a passage.
    fn listing(&mut self, line: usize, blocks: &[Block], at: usize) {
        let before = at.checked_sub(1).and_then(|before| blocks.get(before));
        let (Some(Block::Code(text)), Some(Block::Code(lines))) = (before, blocks.get(at + 1))
        else {
            self.fail(line, "no text with its listing");
            return;
        };
        let text: String = text.iter().map(|(_, line)| format!("{line}\n")).collect();
        let lines: String = lines.iter().map(|(_, line)| shapes::line(line)).collect();
        self.add(line, &text, &[Call::List(LIST_LEVEL)], &Want::Writes(lines));
    }

    /// Commands, each with what it writes.
    fn console(&mut self, lines: &[(usize, String)]) {
        let mut lines = lines.iter().peekable();
        while let Some((line, text)) = lines.next() {
            let Some(command) = text.strip_prefix("$ ") else {
                continue;
            };
            let mut output = String::new();
            while let Some((_, text)) = lines.next_if(|(_, text)| !text.starts_with("$ ")) {
                output.push_str(text);
                output.push('\n');
            }
            self.add(*line, command, &[Call::Shell], &Want::Writes(output));
        }
    }
}

/// The call of a reading, for a text in which `\xFF` is that byte.
fn of_bytes(call: Call) -> Call {
    match call {
        Call::Read(level) => Call::ReadBytes(level),
        other => other,
    }
}

fn all_codes(passage: &Passage) -> Vec<String> {
    let code = |part: &Part| match part {
        Part::Code { text, .. } => Some(text.clone()),
        Part::Prose(_) => None,
    };
    passage.parts.iter().filter_map(code).collect()
}

/// Texts in code quotes with commas or "and" between, and the prose behind.
fn listed(parts: &[Part]) -> (Vec<String>, String) {
    let mut texts = Vec::new();
    let mut rest = parts.iter();
    while let Some(Part::Code { text, .. }) = rest.next() {
        texts.push(text.clone());
        match rest.next() {
            Some(Part::Prose(prose)) if [", ", " and "].contains(&one_spaced(prose).as_str()) => {}
            Some(Part::Prose(prose)) => return (texts, one_spaced(prose)),
            _ => break,
        }
    }
    (texts, String::new())
}

/// Number, place, and the words of the nodes.
type Reading = (u32, usize, Vec<u32>);

/// The calls of a library.
pub trait Library {
    /// With a table of so many words.
    fn read_into(&self, level: u32, text: &[u8], words: usize) -> Reading;
    /// With room enough.
    fn read(&self, level: u32, text: &[u8]) -> Reading {
        self.read_into(level, text, NODES_MAX * NODE_WORDS)
    }
    /// Number, place and value.
    fn integer(&self, piece: &[u8]) -> (u32, usize, i64);
    /// Number, place and bytes.
    fn text(&self, piece: &[u8]) -> (u32, usize, Vec<u8>);
    fn blob(&self, piece: &[u8]) -> (u32, usize, Vec<u8>);
    fn bits(&self, piece: &[u8]) -> (u32, usize, Vec<u8>);
    fn file(&self, text: &[u8]) -> (u32, usize, Vec<u8>);
    /// Number and place.
    fn check(&self, text: &[u8], file: &[u8]) -> (u32, usize);
    /// Number, place and bytes.
    fn plain(&self, level: u32, text: &[u8], table: &[u32]) -> (u32, usize, Vec<u8>);
    fn convert(&self, level: u32, text: &[u8]) -> (u32, usize, Vec<u8>);
    /// Number, place and steps.
    fn utf8(&self, text: &[u8]) -> (u32, usize, usize);
    /// Spans of the tokens, and the place where none starts.
    fn tokens(&self, text: &[u8]) -> (Vec<(usize, usize)>, Option<usize>);
}

/// This package's.
pub struct Second;

impl Library for Second {
    fn read_into(&self, level: u32, text: &[u8], words: usize) -> Reading {
        let mut table = vec![0; words];
        let answer = tree::read(level, text, &mut table);
        table.truncate(answer.count * NODE_WORDS);
        (answer.number, answer.place, table)
    }

    fn integer(&self, piece: &[u8]) -> (u32, usize, i64) {
        let answer = value::integer(piece);
        (answer.number, answer.place, answer.value)
    }

    fn text(&self, piece: &[u8]) -> (u32, usize, Vec<u8>) {
        written(value::text, piece)
    }

    fn blob(&self, piece: &[u8]) -> (u32, usize, Vec<u8>) {
        written(value::blob, piece)
    }

    fn bits(&self, piece: &[u8]) -> (u32, usize, Vec<u8>) {
        written(value::bits, piece)
    }

    fn file(&self, text: &[u8]) -> (u32, usize, Vec<u8>) {
        written(file::write, text)
    }

    fn check(&self, text: &[u8], file: &[u8]) -> (u32, usize) {
        let answer = file::check(text, file);
        (answer.number, answer.place)
    }

    fn plain(&self, level: u32, text: &[u8], table: &[u32]) -> (u32, usize, Vec<u8>) {
        let write = |text: &[u8], buffer: &mut [u8]| plain::write(level, text, table, buffer);
        written(write, text)
    }

    fn convert(&self, level: u32, text: &[u8]) -> (u32, usize, Vec<u8>) {
        let convert = |text: &[u8], buffer: &mut [u8]| plain::convert(level, text, buffer);
        written(convert, text)
    }

    fn utf8(&self, text: &[u8]) -> (u32, usize, usize) {
        let tested = utf8::test(text);
        (tested.number, tested.place, tested.steps)
    }

    fn tokens(&self, text: &[u8]) -> (Vec<(usize, usize)>, Option<usize>) {
        let mut spans = Vec::new();
        for found in token::list(text, front::begin(text)) {
            match found {
                Lexed::Token(token) => spans.push((token.first, token.end)),
                Lexed::NoToken(place) => return (spans, Some(place)),
                Lexed::End(_) => {}
            }
        }
        (spans, None)
    }
}

fn written(call: impl Fn(&[u8], &mut [u8]) -> Answer, piece: &[u8]) -> (u32, usize, Vec<u8>) {
    // room enough for the bits of any piece, for any file and for any plain form
    let mut buffer = vec![0; (4 * piece.len()).max(FILE_MAX)];
    let answer = call(piece, &mut buffer);
    buffer.truncate(answer.count);
    (answer.number, answer.place, buffer)
}

/// Runs an example; the text that was found instead, if it is another.
pub fn run(example: &Example, library: &dyn Library) -> Result<(), String> {
    let text = example.text.as_bytes();
    let found = match &example.call {
        Call::Read(level) => reading(&example.want, |at| library.read(at, text), *level),
        Call::ReadInto(level, words) => {
            let read = |at| library.read_into(at, text, *words);
            reading(&example.want, read, *level)
        }
        Call::ReadBytes(level) => {
            let bytes = unescaped(&example.text);
            reading(&example.want, |at| library.read(at, &bytes), *level)
        }
        Call::List(level) => match library.read(*level, text) {
            (0, _, words) => Want::Writes(shapes::listing(*level, text, &words)),
            (number, place, _) => Want::Refused(number, place),
        },
        Call::Tokens => tokens(text, library),
        Call::Integer => integer(&example.want, library.integer(text)),
        Call::Text => characters(&example.want, library.text(text)),
        Call::Blob => bytes(library.blob(text)),
        Call::Bits => bytes(library.bits(text)),
        Call::Utf8 => steps(&example.want, library.utf8(&unescaped(&example.text))),
        Call::File => bytes(library.file(text)),
        Call::Check(file) => checked(&Want::Accepted, library.check(text, file)),
        Call::CheckNodes => {
            let file = file_with(text, &example.want);
            checked(&example.want, library.check(text, &file))
        }
        Call::Plain(level, other) => {
            let read = other.as_ref().map_or(text, String::as_bytes);
            let (_, _, table) = library.read(*level, read);
            form(library.plain(*level, text, &table))
        }
        Call::Convert(level) => form(library.convert(*level, text)),
        Call::Shell => return Ok(()),
    };
    if found == example.want {
        return Ok(());
    }
    Err(format!(
        "{} by {:?}: {found:?}, not {:?}",
        example.text, example.call, example.want
    ))
}

/// What is true of a file if it is accepted, or its refusal.
fn checked(accepted: &Want, (number, place): (u32, usize)) -> Want {
    match number {
        0 => accepted.clone(),
        _ => Want::Refused(number, place),
    }
}

/// The stored file of a text with the nodes that are wanted.
fn file_with(text: &[u8], want: &Want) -> Vec<u8> {
    let Want::Nodes(nodes) = want else {
        return Vec::new();
    };
    let numbers = |words: &str| -> Vec<u16> {
        let numbers = words.split(' ').map(str::parse);
        numbers.map_while(Result::ok).collect()
    };
    let head = [1, nodes.len() as u16, text.len() as u16];
    let words = nodes.iter().flat_map(|node| numbers(node));
    let all = head.into_iter().chain(words);
    b"FNT"
        .iter()
        .copied()
        .chain(all.flat_map(u16::to_be_bytes))
        .collect()
}

/// What was read at a level, in the terms that are wanted.
fn reading(want: &Want, read: impl Fn(u32) -> Reading, level: u32) -> Want {
    let (number, place, words) = read(level);
    let line = |node: &[u32]| {
        node.iter()
            .map(u32::to_string)
            .collect::<Vec<_>>()
            .join(" ")
    };
    if number != 0 {
        return Want::Refused(number, place);
    }
    match want {
        Want::Accepted => Want::Accepted,
        Want::Count(_) => Want::Count(words.len() / NODE_WORDS),
        Want::Shape(_) => Want::Shape(shapes::shape(&words)),
        Want::Detail(_) => Want::Detail(words[DETAIL]),
        Want::Same if read(1) == (number, place, words.clone()) => Want::Same,
        _ => Want::Nodes(words.chunks(NODE_WORDS).map(line).collect()),
    }
}

fn tokens(text: &[u8], library: &dyn Library) -> Want {
    let (spans, none) = library.tokens(text);
    let piece =
        |&(first, end): &(usize, usize)| String::from_utf8_lossy(&text[first..end]).into_owned();
    Want::Tokens(
        spans.iter().map(piece).collect(),
        none.map(|place| (NO_TOKEN, place)),
    )
}

fn integer(want: &Want, (number, place, value): (u32, usize, i64)) -> Want {
    match (number, want) {
        (0, _) => Want::Value(value),
        _ => Want::Refused(number, place),
    }
}

fn characters(want: &Want, (number, place, bytes): (u32, usize, Vec<u8>)) -> Want {
    match (number, want) {
        (0, _) => Want::Characters(String::from_utf8_lossy(&bytes).into_owned()),
        _ => Want::Refused(number, place),
    }
}

fn bytes((number, place, bytes): (u32, usize, Vec<u8>)) -> Want {
    match number {
        0 => Want::Bytes(bytes),
        _ => Want::Refused(number, place),
    }
}

fn form((number, place, bytes): (u32, usize, Vec<u8>)) -> Want {
    match number {
        0 => Want::Form(String::from_utf8_lossy(&bytes).into_owned()),
        _ => Want::Refused(number, place),
    }
}

/// The steps are told of a refused text too, if they are wanted.
fn steps(want: &Want, (number, place, steps): (u32, usize, usize)) -> Want {
    match (number, want) {
        (0, _) | (_, Want::Steps(_)) => Want::Steps(steps),
        _ => Want::Refused(number, place),
    }
}

#[cfg(test)]
mod tests {
    use super::*;

    fn of(text: &str) -> Shown {
        shown(&Document::new("a.md", text))
    }

    fn wrong(text: &str) -> usize {
        let found = of(text);
        let wrong = found
            .examples
            .iter()
            .filter(|example| run(example, &Second).is_err());
        wrong.count() + found.findings.len()
    }

    #[test]
    fn right_answers() {
        let text = "`(5:y,)` is 6@4. At level 1 `[1]` is 7@0, and at level 2 `[1]` has 2 nodes. \
            `1..10` has the tokens `1`, `..`, `10`. `5 ~` has the tokens `5` and then 4@2. \
            `29 56` has the value 2956. `\"a\\n\"` has the characters `a\\n`, `\"\"` has no characters. \
            The Integer call: ` 5` is 9@0. `5` has the nodes `3 0 1 0 0 0 1`. \
            `0xxA705` has the bytes A7 05, `0xy` has no bytes, and `0bo17` has the bits 0 0 1 1 1 1. \
            `0bb` has no bits. The Blob call: `0xy====` is 5@0. The Bits call: `0xx` is 9@0. \
            `seventeen letters` has 3 steps. The UTF-8 call: `aaaaaaaa\\xC3\\x41` is 3@8 after 1 step, and `a\\xFF` has 1 step. \
            `x` has the file 46 4E 54 00 01 00 01 00 01 00 07 00 00 00 01 00 00 00 00 00 02. As a text to be stored, `(x` is 6@2. \
            With the file 46 4E 54 00, `x` is 12@0. With the file 46 4E 54 00 01, `(x` is 14@0. \
            `( , x : + 0d 1_0 , )` is written `(x:+0d10,)`, and `(x)` is written `x`. At level 1 `{b->a}` is written `{b:a}`. \
            As a text to be written plainly, `(x` is 6@2. With the table of `(x,y)`, `(x:y)` is 14@0; \
            with the table of `(a:b)`, `(x:y)` is written `(x:y)`, and with the table of `x`, `(x:y)` is 8@5. \
            `{a,b<-c}` is 15@4, but `(<-a)` is 6@1. As a text to be stored, `(b<-a)` is 15@2, and as one to be written plainly, `(b<-a)` is 15@2. \
            `(b<-a)` converts to `(a:b)`, and `x` converts to `x`. At level 1 `{b<-a}` converts to `{a:b}`. As a text to be converted, `(b<-` is 6@4. \
            By the old rules `(a<-$` is 4@4, and `(b<-a)` has the nodes `9 0 6 0 0 0`, `7 1 2 0 3 2`, `7 4 5 0 1 2`. \
            With the file 46 4E 54 00 01 00 01 00 01 00 07 00 00 00 01 00 00 00 00 00 02, `x` is accepted. \
            With a table of 6 words, `x` is 8@1, and with a table of 7 words, `x` has the node `7 0 1 0 0 2 1`.";
        let found = of(text);
        assert_eq!(found.examples.len(), 51);
        assert_eq!(wrong(text), 0);
    }

    #[test]
    fn wrong_answers() {
        assert_eq!(wrong("`(5:y,)` is 6@5"), 2);
        assert_eq!(wrong("At level 2 `[1]` has 3 nodes"), 1);
        assert_eq!(wrong("`1..10` has the tokens `1.`, `.10`"), 1);
        assert_eq!(wrong("`29 56` has the value 29"), 1);
        assert_eq!(wrong("`0xxA705` has the bytes A7 50"), 1);
        assert_eq!(wrong("`0xxA705` has the bytes A7, too"), 1);
        assert_eq!(wrong("`0xxA705` has no bytes"), 1);
        assert_eq!(wrong("`0bo17` has the bits 0 0 1 1 1"), 1);
        assert_eq!(wrong("The Blob call: `0xy` is 5@0"), 1);
        assert_eq!(wrong("`seventeen letters` has 4 steps"), 1);
        assert_eq!(wrong("The UTF-8 call: `aaaaaaaa\\xC3` is 3@9"), 1);
        assert_eq!(
            wrong("The UTF-8 call: `aaaaaaaa\\xC3` is 3@8 after 8 steps"),
            1
        );
        assert_eq!(wrong("The UTF-8 call: `aaaaaaaa\\xC3\\xA9` is 3@8"), 1);
        assert_eq!(wrong("`x` has the file 46 4E 54 00 01"), 1);
        assert_eq!(wrong("A text to be stored: `(x` is 6@1"), 1);
        assert_eq!(wrong("With the file 46 4E 54 00 02, `x` is 12@0"), 1);
        assert_eq!(wrong("With the file 46 4E 54 00 01, `x` is 13@0"), 1);
        assert_eq!(wrong("`{b->a}` is written `{a:b}`"), 1);
        assert_eq!(wrong("`{b<-a}` is written `{a:b}`"), 1);
        assert_eq!(wrong("`{b<-a}` converts to `{b:a}`"), 1);
        assert_eq!(wrong("At level 1 `{b<-[]}` converts to `{[]:b}`"), 1);
        assert_eq!(wrong("A text to be converted: `(b<-` is 15@2"), 1);
        assert_eq!(wrong("By the old rules `(a<-$` is 15@2"), 2);
        assert_eq!(
            wrong("By the old rules `(b<-a)` has the nodes `9 0 6 0 0 0`, `7 1 2 0 2 2`, `7 4 5 0 1 2`"),
            1
        );
        assert_eq!(wrong("With a table of 7 words, `x` is 8@1"), 2);
        assert_eq!(wrong("With a table of 13 words, `{x}` has 2 nodes"), 2);
        assert_eq!(wrong("With a table of 7,168 words, `{x}` is 8@3"), 2);
        assert_eq!(wrong("`5` has the nodes `3 0 1 0 0 0`"), 2);
        assert_eq!(wrong("`5` has the nodes `3 0 1 0 0 0 2`"), 2);
        assert_eq!(wrong("With the file 46 4E 54 00 01, `x` is accepted"), 1);
        assert_eq!(wrong("At level 1 `[ 5 ]` is written `[5]`"), 1);
        assert_eq!(wrong("A text to be written plainly: `(x` is 6@1"), 1);
        assert_eq!(wrong("With the table of `(x:y)`, `(x:y)` is 14@0"), 1);
        assert_eq!(
            wrong("With the table of `(x,y)`, `(x:y)` is written `(x:y)`"),
            1
        );
        assert_eq!(wrong("an answer, 6@4, without a text"), 1);
    }

    #[test]
    fn tables_of_readers() {
        let head = "| text | old reader | new reader |\n|---|---|---|\n";
        assert_eq!(
            wrong(&format!(
                "{head}| `[]` | 7@0 | 1 node |\n| nothing | 6@0 | 6@0 |\n"
            )),
            0
        );
        assert_eq!(
            wrong(&format!("{head}| `5` | `3 0 1 0 0 0 1` | the same |\n")),
            0
        );
        assert_eq!(wrong(&format!("{head}| `[]` | 7@1 | fine |\n")), 2);
    }

    #[test]
    fn tables_of_mistakes() {
        let head = "| text | answer | why | write |\n|---|---|---|---|\n";
        let rows = "| `true`, `null` | Text | a word | `0bTRUE` |\n\
            | `(x:1)` | Pair: this Text, that Integer | no comma | `(x:1,)`, `{}` |\n";
        assert_eq!(of(&format!("{head}{rows}")).examples.len(), 12);
        assert_eq!(wrong(&format!("{head}{rows}")), 0);
        assert_eq!(wrong(&format!("{head}| `5`, `a` | Text | | |\n")), 2);
        assert_eq!(
            wrong(&format!(
                "{head}| `(x:1,)` | Tuple: this Text, value Integer | | |\n"
            )),
            2
        );
        assert_eq!(wrong(&format!("{head}| `5` | Integer | | `[1]` |\n")), 1);
        assert_eq!(
            wrong(&format!(
                "{head}| `{{1 2}}` | Lot: this Integer | `1 2` has the value 1 | |\n"
            )),
            1
        );
        let levels = "| text | level 1 | level 2 |\n|---|---|---|\n";
        assert_eq!(
            wrong(&format!(
                "{levels}| `[1]` | 7@0 | Interval: single Integer |\n"
            )),
            0
        );
        assert_eq!(wrong(&format!("{levels}| `[1]` | Interval | 7@0 |\n")), 2);
    }

    #[test]
    fn tables_of_bytes() {
        let head = "| bytes | answer |\n|---|---|\n";
        assert_eq!(
            wrong(&format!(
                "{head}| `\\xEF\\xBB\\xBF5` | Integer |\n| `\\xFF` | 3@0 |\n"
            )),
            0
        );
        assert_eq!(wrong(&format!("{head}| `a\\xFF` | 3@0 |\n")), 2);
    }

    #[test]
    fn listings() {
        let text = "    (x:\n    5,)\n\nis listed so:\n\n";
        let lines = "    ok 2 3\n    10 0 7 0 0 0 3  root Tuple\n    7 1 2 0 4 2 2   name Text x\n";
        let right = format!("{text}{lines}    3 4 5 0 5 0 3   value Integer 5\n");
        assert_eq!((of(&right).examples.len(), wrong(&right)), (1, 0));
        assert_eq!(wrong(&right.replace("0 5 0 3", "0 5 0 2")), 1);
        assert_eq!(wrong(&right.replace("value Integer", "that Integer")), 1);
        assert_eq!(wrong(&right.replace("5,)", "6,)")), 1);
        assert_eq!(wrong(&right.replace("5,)", "5,,)")), 1);
        assert_eq!(wrong(text), 1);
    }

    #[test]
    fn commands() {
        let found = of("    $ a\n    b\n    c\n    $ d\n");
        assert_eq!(found.examples.len(), 2);
        assert_eq!(found.examples[0].want, Want::Writes("b\nc\n".to_string()));
    }
}
