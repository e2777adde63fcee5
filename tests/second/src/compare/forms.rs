//! Plain forms, and how the archive reads them again.

use super::{lengths, same, Difference};
use crate::answer::{Answer, NODE_WORDS};
use crate::generate::Random;
use crate::plain::turned;
use muon::Kind;

pub const LEVELS: [u32; 2] = [1, 2];
const NO_LEVELS: [u32; 4] = [0, 3, 258, u32::MAX];

/// One that there is not.
pub fn no_level(random: &mut Random) -> u32 {
    NO_LEVELS[random.below(NO_LEVELS.len())]
}

/// Lengths of a buffer for the form of a text, which needs so many bytes; none and
/// what is always enough among them.
pub fn form_lengths(text: &[u8], need: usize, random: &mut Random) -> Vec<usize> {
    let enough = 2 * text.len();
    lengths(&[0, 1, enough, enough + 1], need, random)
}

/// The words of a text that the archive accepts, or its refusal.
pub fn read(level: u32, text: &[u8]) -> Result<Vec<u32>, Answer> {
    let mut table = vec![0; muon::TABLE_MAX];
    let answer = muon::read(level, text, &mut table);
    if !answer.is_accepted() {
        return Err(answer.into());
    }
    table.truncate(answer.count * muon::NODE_WORDS);
    Ok(table)
}

/// Number and count of a reading.
pub fn end(read: &Result<Vec<u32>, Answer>) -> (u32, usize) {
    match read {
        Ok(words) => (0, words.len() / NODE_WORDS),
        Err(refusal) => (refusal.number, refusal.count),
    }
}

/// A form that was read again.
pub struct Again {
    /// Its own words.
    pub words: Vec<u32>,
    /// Whether its nodes have another order than the text's.
    pub turned: bool,
    /// Literals whose values were compared.
    pub values: usize,
}

/// That the archive reads a form of a text, whose words these are, with the
/// same nodes and values, each this before its that.
pub fn read_again(
    level: u32,
    text: &[u8],
    words: &[u32],
    form: &[u8],
) -> Result<Again, Difference> {
    let Ok(after) = read(level, form) else {
        let (text, form) = (text.escape_ascii(), form.escape_ascii());
        return Err(Difference(format!(
            "the archive does not read its form b\"{form}\" of b\"{text}\""
        )));
    };
    let ((nodes, from), (read, order)) = (turned(words), turned(&after));
    same("nodes of the form", text, &nodes, &read)?;
    same("order of the form's nodes", form, in_order(&order), true)?;
    let mut values = 0;
    for (at, node) in nodes.iter().enumerate() {
        let of = |text, words, index| {
            let found = value(node.kind, piece(text, words, index));
            found.map(|(answer, value)| (answer.number, value))
        };
        let (before, behind) = (of(text, words, from[at]), of(form, &after, order[at]));
        values += usize::from(before.is_some());
        same("value in the form", text, before, behind)?;
    }
    Ok(Again {
        words: after,
        turned: !in_order(&from),
        values,
    })
}

/// What a literal of this kind stands for, if there is a call that tells: its
/// answer, and the value as bytes.
pub(super) fn value(kind: u32, piece: &[u8]) -> Option<(Answer, Vec<u8>)> {
    let call = match Kind::from_number(kind)? {
        Kind::Integer => {
            let found = muon::integer(piece);
            let answer = Answer {
                number: found.number,
                place: found.place,
                count: found.count,
            };
            return Some((answer, found.value.to_be_bytes().to_vec()));
        }
        Kind::Bits => muon::bits,
        Kind::Blob => muon::blob,
        Kind::Text => muon::text,
        _ => return None,
    };
    let mut buffer = vec![0; 4 * piece.len()];
    let answer = call(piece, &mut buffer);
    buffer.truncate(answer.count);
    Some((answer.into(), buffer))
}

fn in_order(indices: &[usize]) -> bool {
    indices.windows(2).all(|pair| pair[0] < pair[1])
}

/// The bytes of a node.
pub(super) fn piece<'a>(text: &'a [u8], words: &[u32], index: usize) -> &'a [u8] {
    let node = &words[index * NODE_WORDS..];
    &text[node[1] as usize..node[2] as usize]
}
