//! Why an attribute is not found by its name.

use crate::{Kind, Position};
use core::fmt;

/// Why and where [`Branch::get`](crate::Branch::get) finds no value, and by which
/// name; shown as `1:1: no attribute has the name "speed"`, so that behind a
/// file's name and a colon an editor finds it.
///
/// It keeps the name as it was asked for.  With a literal `?` hands it on as a
/// boxed error; with a name that is made at run time it is good as long as that,
/// and its [string](fmt::Display) is what to hand on.
///
/// ```
/// use muon::{Document, LookupReason, TABLE_MAX};
///
/// fn speed(text: &[u8]) -> Result<i64, Box<dyn core::error::Error>> {
///     let mut table = [0; TABLE_MAX];
///     let document = Document::read(2, text, &mut table)?;
///     Ok(document.root().get("speed")?.integer()?)
/// }
///
/// let shown = |text| speed(text).expect_err("no speed").to_string();
/// assert_eq!(shown(b"(sped : 3000,)"), r#"1:1: no attribute has the name "speed""#);
/// assert_eq!(
///     shown(b"(speed : 3000,\n speed : 30)"),
///     r#"2:2: a second attribute has the name "speed""#
/// );
/// // braces make a Lot, and one attribute without a comma a Pair
/// assert_eq!(
///     shown(br#"{"speed": 3000, "site": "creek"}"#),
///     r#"1:1: no attribute has the name "speed": the kind is Lot, and only a Tuple has attributes"#
/// );
///
/// let mut table = [0; TABLE_MAX];
/// let document = Document::read(2, b"(speed : 3000)", &mut table)?;
/// let lookup = document.root().get("speed").expect_err("a Pair");
/// assert_eq!(lookup.name, "speed");
/// assert_eq!(lookup.reason, LookupReason::NotATuple(muon::Kind::Pair));
/// # Ok::<(), muon::Error>(())
/// ```
#[derive(Clone, Copy, Debug, PartialEq, Eq, Hash)]
#[non_exhaustive]
pub struct Lookup<'n> {
    /// The name that was asked for.
    pub name: &'n str,
    /// Why.
    pub reason: LookupReason,
    /// Where: the second such name if it is repeated, else the node that was
    /// asked.
    pub position: Position,
}

/// Why no value is found by a name.
#[derive(Clone, Copy, Debug, PartialEq, Eq, Hash)]
#[non_exhaustive]
pub enum LookupReason {
    /// No attribute has the name.
    Missing,
    /// More than one has it.
    Repeated,
    /// The node is of this kind, which has no attributes: only a Tuple has.
    NotATuple(Kind),
}

impl fmt::Display for Lookup<'_> {
    fn fmt(&self, out: &mut fmt::Formatter<'_>) -> fmt::Result {
        let Lookup { name, position, .. } = self;
        match self.reason {
            LookupReason::Missing => {
                write!(out, "{position}: no attribute has the name {name:?}")
            }
            LookupReason::Repeated => {
                write!(out, "{position}: a second attribute has the name {name:?}")
            }
            LookupReason::NotATuple(kind) => write!(
                out,
                "{position}: no attribute has the name {name:?}: \
                 the kind is {kind}, and only a Tuple has attributes"
            ),
        }
    }
}

impl core::error::Error for Lookup<'_> {}
