//! Why a call refuses.

use crate::numbered::numbered;

numbered! {
    /// The refusals, with their numbers and the place that each one gives.
    ///
    /// Places are bytes, counted from 0 at the start of the text or piece; a
    /// byte-order mark and a first line `#!` of a text are counted too.  Shown, a
    /// refusal is its message; [`name`](Refusal::name) is shorter.
    ///
    /// ```
    /// use muon::Refusal;
    ///
    /// let refusal = Refusal::from_number(6).expect("a refusal");
    /// assert_eq!(refusal, Refusal::WrongPlace);
    /// assert_eq!(refusal.number(), 6);
    /// assert_eq!(refusal.to_string(), "a token in the wrong place");
    /// assert_eq!(refusal.name(), "wrong place");
    /// assert_eq!(Refusal::from_number(0), None);
    /// ```
    pub enum Refusal {
        /// The level is not 1 or 2.  Place 0.
        Level = 1, "a level other than 1 and 2";
        /// The text or piece is longer than [`TEXT_MAX`](crate::TEXT_MAX).  Place 0.
        /// [`utf8`](crate::utf8()) takes any length.
        TooLong = 2, "longer than 32,768 bytes";
        /// Not UTF-8.  The first byte at which, reading well-formed sequences from
        /// the front, none begins.
        NotUtf8 = 3, "not UTF-8";
        /// No token starts here.  That byte.
        NoToken = 4, "no token starts here";
        /// A bad value in a literal: a code point outside 0..D7FF and E000..10FFFF,
        /// denominator 0, radix below 2, or a base-64 Blob that RFC 4648 does not
        /// have (see [`blob`](crate::blob)).  For a code point in quotes, the
        /// backslash of its escape, the first such one in the literal, in whichever
        /// segment; else the literal's first byte, in a Nesting that of the Text.
        BadValue = 5, "a bad value in a literal";
        /// A token in the wrong place.  Its first byte; the end counts as a token at
        /// the text's length.
        WrongPlace = 6, "a token in the wrong place";
        /// A newer form: a construct beyond the level at a place for a value.  The
        /// construct's first byte.
        NewerForm = 7, "a newer form than the level has";
        /// The table or buffer is too short, or there are more than
        /// [`NODES_MAX`](crate::NODES_MAX) nodes.  The length of the text or piece;
        /// the count is the nodes or bytes needed.
        NoRoom = 8, "no room in the table or buffer";
        /// The piece is not exactly one literal of the asked kind.  Place 0.  Of the
        /// value calls only.
        NotTheLiteral = 9, "not exactly one literal of the asked kind";
        /// An Integer outside -2^63 to 2^63 - 1.  Place 0.  Of
        /// [`integer`](crate::integer) only.
        OutOfRange = 10, "an Integer out of range";
        /// More than [`DEPTH_MAX`](crate::DEPTH_MAX) brackets.  The bracket that
        /// would be the 33rd open.
        TooDeep = 11, "more than 32 brackets open at once";
        /// Not a stored file: it has fewer than five bytes, or does not begin with
        /// the mark.  Place 0.  This and the next are of
        /// [`file::check`](crate::file::check) only.
        NotTheMark = 12, "not a stored file";
        /// A stored file of another version than
        /// [`file::VERSION`](crate::file::VERSION).  Place 0.
        OtherVersion = 13, "a stored file of another version";
        /// Not the stored file of the text, or, from
        /// [`plain::write`](crate::plain::write()), not its table.  Place 0.
        NotTheFile = 14, "not the file or table of the text";
        /// An arrow `<-` where one was allowed until it was retired: between the two
        /// values of a pair, in `(b<-a)` and in `{b<-a}`.  Its first byte.
        /// Elsewhere it is [`WrongPlace`](Refusal::WrongPlace), as before.  Never of
        /// [`file::check`](crate::file::check) and of
        /// [`convert`](mod@crate::convert), which still read it.
        RetiredArrow = 15, "a retired arrow, <-";
    }
}

impl Refusal {
    /// A short name, of two or three words at most.
    #[must_use]
    pub const fn name(self) -> &'static str {
        match self {
            Refusal::Level => "level",
            Refusal::TooLong => "too long",
            Refusal::NotUtf8 => "not UTF-8",
            Refusal::NoToken => "no token",
            Refusal::BadValue => "bad value",
            Refusal::WrongPlace => "wrong place",
            Refusal::NewerForm => "newer form",
            Refusal::NoRoom => "no room",
            Refusal::NotTheLiteral => "not the literal",
            Refusal::OutOfRange => "out of range",
            Refusal::TooDeep => "too deep",
            Refusal::NotTheMark => "not the mark",
            Refusal::OtherVersion => "other version",
            Refusal::NotTheFile => "not the file",
            Refusal::RetiredArrow => "retired arrow",
        }
    }
}

impl core::error::Error for Refusal {}
