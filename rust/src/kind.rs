//! Kinds, roles and details of nodes.

use crate::numbered::numbered;
use core::fmt;

numbered! {
    /// The kind of a node.  A group `(v)` makes no node, and the names in a Nesting
    /// are no nodes either.
    ///
    /// ```
    /// use muon::Kind;
    ///
    /// assert_eq!(Kind::Tuple.number(), 10);
    /// assert_eq!(Kind::from_number(10), Some(Kind::Tuple));
    /// assert_eq!(Kind::Tuple.to_string(), "Tuple");
    /// assert_eq!([0, 16].map(Kind::from_number), [None; 2]);
    /// ```
    pub enum Kind {
        /// `0sIGNORANCE`
        Ignorance = 1, "Ignorance";
        /// `0bFALSE`, `0bTRUE`; its detail tells which.
        Boolean = 2, "Boolean";
        /// `29 56`, `-0xFF`
        Integer = 3, "Integer";
        /// `1.5`, `1/2`, `-1.5*2^3`
        Fraction = 4, "Fraction";
        /// `0bb101`, `0bo17`, `0bxA`
        Bits = 5, "Bits";
        /// `0xxA705`, `0xyAQ==`
        Blob = 6, "Blob";
        /// `"a text"`, `word`, `0c65`; its detail tells which.
        Text = 7, "Text";
        /// `::a::b`.  It has no children.
        Nesting = 8, "Nesting";
        /// `(a:b)`, `(a->b)`
        Pair = 9, "Pair";
        /// `(a:b,)`, `(a:b,c)`, `()`
        Tuple = 10, "Tuple";
        /// `{a,b:c}`
        Lot = 11, "Lot";
        /// `(Array:{a,b})`.  This and the next three are of level 2 only.
        Array = 12, "Array";
        /// `(Set:{a,b})`
        Set = 13, "Set";
        /// `(Bag:{a,b:2})`
        Bag = 14, "Bag";
        /// `[a..b]` and others; its detail tells the form.
        Interval = 15, "Interval";
    }
}

numbered! {
    /// What a node is to its parent.
    ///
    /// ```
    /// use muon::Role;
    ///
    /// assert_eq!(Role::Name.number(), 4);
    /// assert_eq!(Role::from_number(4), Some(Role::Name));
    /// assert_eq!(Role::Name.to_string(), "name");
    /// assert_eq!(Role::from_number(10), None);
    /// ```
    pub enum Role {
        /// The root, which has no parent.
        Root = 0, "root";
        /// The left side of `a:b` and `a->b`, in files stored before the right side
        /// of `b<-a`; a member by itself.
        This = 1, "this";
        /// The right side of `a:b` and `a->b`.
        ThatAfter = 2, "that";
        /// The left side of `b<-a`: only in files stored before the arrow was
        /// retired, no reading gives it.  Shown as `that`, as the other one is.
        ThatBefore = 3, "that";
        /// The name of an attribute of a Tuple; the node right behind it is the
        /// value.
        Name = 4, "name";
        /// The value of an attribute of a Tuple; a member of an Array, a Set or a
        /// Bag.
        Value = 5, "value";
        /// Behind a member of an Array, a Set or a Bag.
        Count = 6, "count";
        /// The low end of an Interval.
        Low = 7, "low";
        /// The high end of an Interval.
        High = 8, "high";
        /// The one value of `[v]`.
        Single = 9, "single";
    }
}

numbered! {
    /// How a Text is written.
    ///
    /// ```
    /// use muon::TextForm;
    ///
    /// assert_eq!(TextForm::from_number(2), Some(TextForm::Word));
    /// assert_eq!(TextForm::Word.to_string(), "word");
    /// assert_eq!(TextForm::from_number(0), None);
    /// ```
    pub enum TextForm {
        /// In quotes: `"a text"`
        Quoted = 1, "quoted";
        /// A bare word: `word`
        Word = 2, "word";
        /// A code point: `0c65`
        CodePoint = 3, "code point";
    }
}

numbered! {
    /// The form of an Interval: whether it is empty, one value or has ends, and
    /// which of them are part of it.
    ///
    /// ```
    /// use muon::IntervalForm;
    ///
    /// assert_eq!(IntervalForm::from_number(3), Some(IntervalForm::HighOpen));
    /// assert_eq!(IntervalForm::HighOpen.to_string(), "[a<=*<b]");
    /// assert_eq!(IntervalForm::from_number(12), None);
    /// ```
    pub enum IntervalForm {
        /// `[]`
        Empty = 0, "[]";
        /// `[v]`
        One = 1, "[v]";
        /// `[a<=*<=b]`
        Closed = 2, "[a<=*<=b]";
        /// `[a<=*<b]`
        HighOpen = 3, "[a<=*<b]";
        /// `[a<*<=b]`
        LowOpen = 4, "[a<*<=b]";
        /// `[a<*<b]`
        Open = 5, "[a<*<b]";
        /// `[a<=*]`
        From = 6, "[a<=*]";
        /// `[a<*]`
        Above = 7, "[a<*]";
        /// `[*<=b]`
        UpTo = 8, "[*<=b]";
        /// `[*<b]`
        Below = 9, "[*<b]";
        /// `[*]`
        Unlimited = 10, "[*]";
        /// `[a..b]`
        Dots = 11, "[a..b]";
    }
}

/// A further detail of a node's kind.
///
/// ```
/// use muon::{Detail, Kind, TextForm};
///
/// let detail = Detail::from_number(Kind::Text, 2);
/// assert_eq!(detail, Some(Detail::Text(TextForm::Word)));
/// assert_eq!(Detail::from_number(Kind::Boolean, 1), Some(Detail::Boolean(true)));
/// assert_eq!(Detail::from_number(Kind::Lot, 0), Some(Detail::None));
/// assert_eq!(Detail::from_number(Kind::Lot, 1), None);
/// assert_eq!(Detail::Boolean(true).number(), 1);
/// assert_eq!(Detail::Boolean(true).to_string(), "TRUE");
/// ```
#[derive(Clone, Copy, Debug, PartialEq, Eq, Hash)]
pub enum Detail {
    /// Of every kind but the three below; its number is 0, and it is shown as
    /// nothing.
    None,
    /// Of a Boolean: 0 is FALSE, 1 is TRUE.
    Boolean(bool),
    /// Of a Text.
    Text(TextForm),
    /// Of an Interval.
    Interval(IntervalForm),
}

impl Detail {
    /// The header's number, which means something only beside the kind.
    #[must_use]
    pub const fn number(self) -> u32 {
        match self {
            Detail::None => 0,
            Detail::Boolean(value) => value as u32,
            Detail::Text(form) => form.number(),
            Detail::Interval(form) => form.number(),
        }
    }

    /// The detail with this number of a node of this kind, if there is one.
    #[must_use]
    pub fn from_number(kind: Kind, number: u32) -> Option<Detail> {
        match (kind, number) {
            (Kind::Boolean, 0 | 1) => Some(Detail::Boolean(number == 1)),
            (Kind::Boolean, _) => None,
            (Kind::Text, _) => TextForm::from_number(number).map(Detail::Text),
            (Kind::Interval, _) => IntervalForm::from_number(number).map(Detail::Interval),
            (_, 0) => Some(Detail::None),
            _ => None,
        }
    }
}

impl fmt::Display for Detail {
    fn fmt(&self, out: &mut fmt::Formatter<'_>) -> fmt::Result {
        match self {
            Detail::None => Ok(()),
            Detail::Boolean(false) => out.pad("FALSE"),
            Detail::Boolean(true) => out.pad("TRUE"),
            Detail::Text(form) => form.fmt(out),
            Detail::Interval(form) => form.fmt(out),
        }
    }
}
