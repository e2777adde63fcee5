//! Bare words and the thirteen head words.

use super::{Form, Kind, Match};

/// In the paper's order, which the comparison's numbers follow.
#[derive(Clone, Copy, Debug, PartialEq, Eq)]
pub enum Head {
    Array,
    Set,
    Bag,
    Mix,
    IntervalSet,
    IntervalBag,
    TupleArray,
    Relation,
    TupleBag,
    Article,
    Excuse,
    Heading,
    Renaming,
}

fn head(word: &[u8]) -> Option<Head> {
    Some(match word {
        b"Array" => Head::Array,
        b"Set" => Head::Set,
        b"Bag" => Head::Bag,
        b"Mix" => Head::Mix,
        b"Interval_Set" => Head::IntervalSet,
        b"Interval_Bag" => Head::IntervalBag,
        b"Tuple_Array" => Head::TupleArray,
        b"Relation" => Head::Relation,
        b"Tuple_Bag" => Head::TupleBag,
        b"Article" => Head::Article,
        b"Excuse" => Head::Excuse,
        b"Heading" => Head::Heading,
        b"Renaming" => Head::Renaming,
        _ => return None,
    })
}

pub fn text(text: &[u8], at: usize) -> Option<Match> {
    let rest = text.get(at..)?;
    if rest.first()?.is_ascii_digit() {
        return None;
    }
    let letter = |byte: &u8| byte.is_ascii_alphanumeric() || *byte == b'_';
    let length = rest.iter().take_while(|&byte| letter(byte)).count();
    let kind = Kind::Text(Form::Word(head(&rest[..length])));
    (length > 0).then(|| Match::good(kind, at + length))
}
