//! Texts with the answers the papers give for them.

pub mod before;
pub mod escapes;
pub mod readings;
pub mod scope;
pub mod source;

/// Kind, first byte, byte after the last, role, detail: a node without its
/// parent's index.
pub type Row = [u32; 5];

/// An expected answer of the reader.
#[derive(Clone, Copy, Debug)]
pub enum Want {
    /// Number, place, count.
    Refused(u32, usize, usize),
    /// Number of nodes, and the nodes themselves where they are given.
    Accepted(usize, &'static [Row]),
}

/// A text and its answers at levels 1 and 2, with room enough.
#[derive(Clone, Copy, Debug)]
pub struct Sample {
    pub text: &'static [u8],
    pub one: Want,
    pub two: Want,
    /// Those by the old rules.
    pub old: [Want; 2],
}

const fn no(number: u32, place: usize) -> Want {
    Want::Refused(number, place, 0)
}

const fn lacks(place: usize, needed: usize) -> Want {
    Want::Refused(crate::answer::NO_ROOM, place, needed)
}

const fn count(nodes: usize) -> Want {
    Want::Accepted(nodes, &[])
}

const fn ok(nodes: &'static [Row]) -> Want {
    Want::Accepted(nodes.len(), nodes)
}

const fn both(text: &'static [u8], want: Want) -> Sample {
    each(text, want, want)
}

const fn each(text: &'static [u8], one: Want, two: Want) -> Sample {
    let old = [one, two];
    Sample {
        text,
        one,
        two,
        old,
    }
}

/// An arrow at this place is refused at both levels; by the old rules both
/// answer so.
const fn retired(text: &'static [u8], place: usize, old: Want) -> Sample {
    let old = [old, old];
    let today = both(text, no(crate::answer::RETIRED_ARROW, place));
    Sample { old, ..today }
}

/// All samples of all papers, and those of escapes out of range.
pub fn all() -> Vec<Sample> {
    let readings = readings::EXAMPLES.iter().flat_map(|(_, samples)| *samples);
    let others = scope::EXAMPLES.iter().chain(source::EXAMPLES);
    let all = others.chain(readings).chain(escapes::EXAMPLES);
    all.copied().collect()
}

/// A Lot of this even length with as many members `a` as fit.
pub fn members(length: usize) -> Vec<u8> {
    let mut text = vec![b'{'];
    while text.len() + 1 < length {
        text.extend(b"a,");
    }
    text.push(b'}');
    text
}

/// A digit before and a digit behind space, each text so many bytes.
pub fn digit_at_either_end(length: usize) -> [Vec<u8>; 2] {
    [0, length - 1].map(|at| {
        let mut text = vec![b' '; length];
        text[at] = b'5';
        text
    })
}
