//! The attributes of a Tuple.

use crate::{text, Branch, Children, Role};
use core::iter::FusedIterator;

/// The longest name that an attribute is found by, in bytes.
pub const NAME_MAX: usize = 256;

/// An attribute of a Tuple.
#[derive(Clone, Copy, Debug)]
pub struct Attribute<'a> {
    /// A Text or a Nesting; none if the attribute is a value alone.
    pub name: Option<Branch<'a>>,
    /// The value.
    pub value: Branch<'a>,
}

impl Attribute<'_> {
    /// Whether its name is the Text with these characters, however that is
    /// written: `speed`, `"speed"` and `"\spee\<0c100>"` are one name.  A Nesting
    /// is no such name, and none is longer than [`NAME_MAX`].
    ///
    /// ```
    /// use muon::{Document, TABLE_MAX};
    ///
    /// let mut table = [0; TABLE_MAX];
    /// let text = br#"(speed : 1, "spe" "ed" : 2, ::speed : 3, speed, Speed : 5)"#;
    /// let document = Document::read(1, text, &mut table)?;
    /// let attributes = document.root().attributes();
    /// let named: Vec<bool> = attributes.map(|one| one.is_named("speed")).collect();
    /// assert_eq!(named, [true, true, false, false, false]);
    /// # Ok::<(), muon::Error>(())
    /// ```
    #[must_use]
    pub fn is_named(&self, name: &str) -> bool {
        let mut buffer = [0; NAME_MAX];
        // No room for more than is asked for: a longer name is another one.
        let Some(room) = buffer.get_mut(..name.len()) else {
            return false;
        };
        let Some(branch) = self.name else {
            return false;
        };
        let answer = text(branch.bytes(), room);
        answer.is_accepted() && room[..answer.count] == *name.as_bytes()
    }
}

/// The attributes of a Tuple; see [`Branch::attributes`].
#[derive(Clone, Debug)]
#[must_use = "nothing is walked until it is asked for"]
pub struct Attributes<'a> {
    children: Children<'a>,
}

impl<'a> Attributes<'a> {
    pub(crate) fn of(children: Children<'a>) -> Attributes<'a> {
        Attributes { children }
    }
}

impl<'a> Iterator for Attributes<'a> {
    type Item = Attribute<'a>;

    fn next(&mut self) -> Option<Attribute<'a>> {
        let first = self.children.next()?;
        if first.role() != Role::Name {
            return Some(Attribute {
                name: None,
                value: first,
            });
        }
        Some(Attribute {
            name: Some(first),
            value: self.children.next()?,
        })
    }
}

impl FusedIterator for Attributes<'_> {}
