//! What the calls answer, and the sizes they keep.

/// The longest text or piece, in bytes.
pub const TEXT_MAX: usize = 32_768;
/// The most brackets open at once.
pub const DEPTH_MAX: usize = 32;
/// The most nodes a table takes, however long it is.
pub const NODES_MAX: usize = 1_024;
/// Words of one node.
pub const NODE_WORDS: usize = 7;
/// The seventh among them: the index just past the node's last descendant.
pub const SKIP: usize = 6;

pub const LEVEL: u32 = 1;
pub const TOO_LONG: u32 = 2;
pub const NOT_UTF8: u32 = 3;
pub const NO_TOKEN: u32 = 4;
pub const BAD_VALUE: u32 = 5;
pub const WRONG_PLACE: u32 = 6;
pub const NEWER_FORM: u32 = 7;
pub const NO_ROOM: u32 = 8;
pub const NOT_THE_LITERAL: u32 = 9;
pub const OUT_OF_RANGE: u32 = 10;
pub const TOO_DEEP: u32 = 11;
pub const NOT_THE_MARK: u32 = 12;
pub const OTHER_VERSION: u32 = 13;
pub const NOT_THE_FILE: u32 = 14;
pub const RETIRED_ARROW: u32 = 15;

/// Number 0 means accepted.
#[derive(Clone, Copy, Debug, PartialEq, Eq)]
pub struct Answer {
    pub number: u32,
    pub place: usize,
    pub count: usize,
}

impl Answer {
    pub fn accepted(place: usize, count: usize) -> Answer {
        Answer {
            number: 0,
            place,
            count,
        }
    }

    pub fn refused(number: u32, place: usize) -> Answer {
        Answer {
            number,
            place,
            count: 0,
        }
    }

    pub fn no_room(place: usize, needed: usize) -> Answer {
        Answer {
            number: NO_ROOM,
            place,
            count: needed,
        }
    }
}
