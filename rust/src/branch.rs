//! A node of a document, with all that is below it.

use crate::{
    bits, blob, integer, line_column, text, Answer, Attribute, Attributes, Detail, Document, Error,
    Kind, Lookup, LookupReason, Node, Position, Refusal, Role, NODE_WORDS,
};
use core::iter::FusedIterator;
use core::ops::Range;

#[cfg(feature = "alloc")]
use alloc::{string::String, vec, vec::Vec};

/// A node of a [`Document`], and with it all that is below: a whole branch is
/// passed at once, so that children and siblings are found without a look at
/// what is below them.
///
/// The header's `muon_first_child` and `muon_next_sibling` go the same way; they
/// stand in the header whole and not in the archive, so they are not called here.
///
/// ```
/// use muon::{Document, TABLE_MAX};
///
/// let mut table = [0; TABLE_MAX];
/// let document = Document::read(1, b"{machines : {7, {8, 9}}, site}", &mut table)?;
/// let name = document.root().first_child().expect("a member");
/// let lot = name.next_sibling().expect("a that");
/// let site = lot.next_sibling().expect("a member");
/// assert_eq!(site.bytes(), b"site");
/// assert_eq!((lot.index(), site.index()), (2, 7));
/// assert!(site.next_sibling().is_none() && site.first_child().is_none());
/// # Ok::<(), muon::Error>(())
/// ```
#[derive(Clone, Copy, Debug)]
pub struct Branch<'a> {
    document: Document<'a>,
    index: usize,
}

/// What it is, and where.
impl<'a> Branch<'a> {
    pub(crate) fn at(document: Document<'a>, index: usize) -> Option<Branch<'a>> {
        let is_there = index < document.words().len() / NODE_WORDS;
        is_there.then_some(Branch { document, index })
    }

    /// The document that it is a node of.
    #[must_use]
    pub fn document(&self) -> Document<'a> {
        self.document
    }

    /// Its words, as numbers.
    #[must_use]
    pub fn node(&self) -> Node {
        let mut words = [0; NODE_WORDS];
        words.copy_from_slice(&self.document.words()[self.index * NODE_WORDS..][..NODE_WORDS]);
        Node::from(words)
    }

    /// Its index among the nodes; 0 is the root.
    #[must_use]
    pub fn index(&self) -> usize {
        self.index
    }

    /// What it is.
    #[must_use]
    pub fn kind(&self) -> Kind {
        Kind::from_number(self.node().kind).expect("a kind of a reading")
    }

    /// What it is to its parent.
    #[must_use]
    pub fn role(&self) -> Role {
        Role::from_number(self.node().role).expect("a role of a reading")
    }

    /// The detail of a Boolean, a Text and an Interval; [`Detail::None`] of
    /// every other kind.
    ///
    /// ```
    /// use muon::{Detail, Document, IntervalForm, TextForm, TABLE_MAX};
    ///
    /// let mut table = [0; TABLE_MAX];
    /// let document = Document::read(2, b"{7, 0bTRUE, fan, [1<=*<2]}", &mut table)?;
    /// let details: Vec<Detail> = document.root().children().map(|one| one.detail()).collect();
    /// assert_eq!(details[..2], [Detail::None, Detail::Boolean(true)]);
    /// assert_eq!(details[2], Detail::Text(TextForm::Word));
    /// assert_eq!(details[3], Detail::Interval(IntervalForm::HighOpen));
    /// # Ok::<(), muon::Error>(())
    /// ```
    #[must_use]
    pub fn detail(&self) -> Detail {
        let number = self.node().detail;
        Detail::from_number(self.kind(), number).expect("a detail of a reading")
    }

    /// The places of its bytes in the text.
    #[must_use]
    pub fn span(&self) -> Range<usize> {
        self.node().span()
    }

    /// Its bytes, as they stand in the text.
    #[must_use]
    pub fn bytes(&self) -> &'a [u8] {
        &self.document.text()[self.span()]
    }

    /// The line and the column of its first byte.
    ///
    /// ```
    /// use muon::{Document, TABLE_MAX};
    ///
    /// let mut table = [0; TABLE_MAX];
    /// let document = Document::read(1, b"(x : 1,\n y : 2)", &mut table)?;
    /// assert_eq!(document.root().get("y")?.position().to_string(), "2:6");
    /// # Ok::<(), Box<dyn std::error::Error>>(())
    /// ```
    #[must_use]
    pub fn position(&self) -> Position {
        line_column(self.document.text(), self.span().start)
    }
}

/// What is around it.
impl<'a> Branch<'a> {
    /// The index just past the branch.
    fn end(&self) -> usize {
        self.node().skip as usize
    }

    /// How many nodes are below it, at any depth.
    #[must_use]
    pub fn below(&self) -> usize {
        self.end().saturating_sub(self.index + 1)
    }

    /// The node above; none for the root.
    #[must_use]
    pub fn parent(&self) -> Option<Branch<'a>> {
        match self.index {
            0 => None,
            _ => Branch::at(self.document, self.node().parent as usize),
        }
    }

    /// The first child, if it has one.
    #[must_use]
    pub fn first_child(&self) -> Option<Branch<'a>> {
        self.children().next()
    }

    /// The next child of the same parent; none for the last one, and for the
    /// root.
    #[must_use]
    pub fn next_sibling(&self) -> Option<Branch<'a>> {
        let (next, end) = (self.end(), self.parent()?.end());
        // a skip that does not go on is none of a reading's
        if next <= self.index || next >= end {
            return None;
        }
        Branch::at(self.document, next)
    }

    /// Its children in the order of the text; each is passed with all that is
    /// below it.
    ///
    /// ```
    /// use muon::{Document, Role, TABLE_MAX};
    ///
    /// let mut table = [0; TABLE_MAX];
    /// let document = Document::read(1, b"{2 -> fan, {a, b}, 3 -> (x : y)}", &mut table)?;
    /// let thats: Vec<&[u8]> = document
    ///     .root()
    ///     .children()
    ///     .filter(|child| child.role() == Role::ThatAfter)
    ///     .map(|child| child.bytes())
    ///     .collect();
    /// assert_eq!(thats, [&b"fan"[..], b"(x : y)"]);
    /// # Ok::<(), muon::Error>(())
    /// ```
    pub fn children(&self) -> Children<'a> {
        Children {
            document: self.document,
            next: self.index + 1,
            end: self.end(),
        }
    }

    /// The attributes of a Tuple in the order of the text, each with its name if
    /// it has one.  None of any other kind: the two sides of a Pair, the members
    /// of a Lot and those of an Array, a Set or a Bag with their counts are
    /// [children](Branch::children) only.
    ///
    /// ```
    /// use muon::{Document, TABLE_MAX};
    ///
    /// let text = b"(start : -1.5, engines : {7, 8}, spare)";
    /// let mut table = [0; TABLE_MAX];
    /// let document = Document::read(1, text, &mut table)?;
    /// let attributes: Vec<(Option<&[u8]>, &[u8])> = document
    ///     .root()
    ///     .attributes()
    ///     .map(|one| (one.name.map(|name| name.bytes()), one.value.bytes()))
    ///     .collect();
    /// assert_eq!(attributes[0], (Some(&b"start"[..]), &b"-1.5"[..]));
    /// assert_eq!(attributes[1], (Some(&b"engines"[..]), &b"{7, 8}"[..]));
    /// assert_eq!(attributes[2], (None, &b"spare"[..]));
    /// assert_eq!(attributes.len(), 3);
    /// # Ok::<(), muon::Error>(())
    /// ```
    pub fn attributes(&self) -> Attributes<'a> {
        let mut children = self.children();
        if self.kind() != Kind::Tuple {
            children.end = 0;
        }
        Attributes::of(children)
    }

    /// The value of the one attribute of a Tuple that has this name.  Names are
    /// compared as Texts: `speed` and `"speed"` are one name; see
    /// [`Attribute::is_named`].
    ///
    /// # Errors
    ///
    /// [`Missing`](LookupReason::Missing) if no attribute has the name;
    /// [`Repeated`](LookupReason::Repeated) if more than one has it, since a text
    /// such as `(x:1,x:2)` is accepted; [`NotATuple`](LookupReason::NotATuple) of a
    /// node of another kind, such as the Pair `(x:1)` and the Lot `{x:1,y:2}`.
    ///
    /// ```
    /// use muon::{Document, LookupReason, TABLE_MAX};
    ///
    /// let text = br#"("speed" : 3000, x : 1, x : 2)"#;
    /// let mut table = [0; TABLE_MAX];
    /// let document = Document::read(1, text, &mut table)?;
    /// let root = document.root();
    /// assert_eq!(root.get("speed")?.integer()?, 3000);
    /// let missing = root.get("Speed").expect_err("another name");
    /// assert_eq!(missing.reason, LookupReason::Missing);
    /// let repeated = root.get("x").expect_err("two of them");
    /// assert_eq!(repeated.reason, LookupReason::Repeated);
    /// # Ok::<(), Box<dyn std::error::Error>>(())
    /// ```
    pub fn get<'n>(&self, name: &'n str) -> Result<Branch<'a>, Lookup<'n>> {
        let failed = |reason, at: &Branch| Lookup {
            name,
            reason,
            position: at.position(),
        };
        let kind = self.kind();
        if kind != Kind::Tuple {
            return Err(failed(LookupReason::NotATuple(kind), self));
        }
        let mut named = self.attributes().filter(|one| one.is_named(name));
        let Some(first) = named.next() else {
            return Err(failed(LookupReason::Missing, self));
        };
        match named.next().and_then(|again| again.name) {
            Some(again) => Err(failed(LookupReason::Repeated, &again)),
            None => Ok(first.value),
        }
    }

    /// The first attribute of a Tuple that has none of these names, so that a
    /// setting that is misspelt, or one that a comma broke in two, is not passed
    /// over: its name, or its value if it has no name.  A Nesting is none of the
    /// names.  Of a node that is no Tuple it is the node itself.
    ///
    /// Names are compared as by [`Branch::get`], which tells of one that is there
    /// twice.
    ///
    /// ```
    /// use muon::{Document, TABLE_MAX};
    ///
    /// let mut table = [0; TABLE_MAX];
    /// let mut unknown = |text: &'static str| {
    ///     let document = Document::read(2, text.as_bytes(), &mut table).expect("a good text");
    ///     let first = document.root().unknown(&["speed", "site"])?;
    ///     Some(&text[first.span()])
    /// };
    /// assert_eq!(unknown(r#"(site : creek, "speed" : 3_000)"#), None);
    /// assert_eq!(unknown("(site : creek, sped : 3_000)"), Some("sped"));
    /// assert_eq!(unknown("(site : creek, speed : 3,000)"), Some("000"));
    /// // one attribute without a comma is a Pair
    /// assert_eq!(unknown("(speed : 3_000)"), Some("(speed : 3_000)"));
    /// ```
    #[must_use]
    pub fn unknown(&self, known: &[&str]) -> Option<Branch<'a>> {
        if self.kind() != Kind::Tuple {
            return Some(*self);
        }
        let is_known = |one: &Attribute| known.iter().any(|name| one.is_named(name));
        let first = self.attributes().find(|one| !is_known(one))?;
        Some(first.name.unwrap_or(first.value))
    }
}

/// What it stands for.  A node of another kind than asked for is refused as
/// [`NotTheLiteral`](Refusal::NotTheLiteral); places are those in the text.
impl Branch<'_> {
    fn refused(&self, refusal: Refusal, place: usize, count: usize) -> Error {
        let place = self.span().start + place;
        Error::at(self.document.text(), refusal, place, count)
    }

    fn count(&self, answer: Answer) -> Result<usize, Error> {
        let refused = |refusal| self.refused(refusal, answer.place, answer.count);
        answer.accepted().map_err(refused)
    }

    /// Whether a Boolean is `0bTRUE`.
    ///
    /// # Errors
    ///
    /// [`NotTheLiteral`](Refusal::NotTheLiteral): the words `TRUE` and `true` are
    /// Texts, for one.
    ///
    /// ```
    /// use muon::{Document, TABLE_MAX};
    ///
    /// let mut table = [0; TABLE_MAX];
    /// let document = Document::read(1, b"(on : 0bTRUE, off : false)", &mut table)?;
    /// let root = document.root();
    /// assert!(root.get("on")?.boolean()?);
    /// let error = root.get("off")?.boolean().expect_err("a Text");
    /// assert_eq!(
    ///     error.to_string(),
    ///     "1:21: refused (9): not exactly one literal of the asked kind"
    /// );
    /// # Ok::<(), Box<dyn std::error::Error>>(())
    /// ```
    pub fn boolean(&self) -> Result<bool, Error> {
        match self.detail() {
            Detail::Boolean(value) => Ok(value),
            _ => Err(self.refused(Refusal::NotTheLiteral, 0, 0)),
        }
    }

    /// The integer of an Integer; see [`integer`](crate::integer).
    ///
    /// # Errors
    ///
    /// [`NotTheLiteral`](Refusal::NotTheLiteral), or
    /// [`OutOfRange`](Refusal::OutOfRange) for one that is no [`i64`].
    ///
    /// ```
    /// use muon::{Document, Refusal, TABLE_MAX};
    ///
    /// let mut table = [0; TABLE_MAX];
    /// let document = Document::read(1, b"{29 56, 0xFFFFFFFFFFFFFFFF}", &mut table)?;
    /// let mut members = document.root().children();
    /// assert_eq!(members.next().expect("the first").integer()?, 2956);
    /// let error = members.next().expect("the second").integer().expect_err("2^64 - 1");
    /// assert_eq!((error.refusal, error.place), (Refusal::OutOfRange, 8));
    /// # Ok::<(), muon::Error>(())
    /// ```
    pub fn integer(&self) -> Result<i64, Error> {
        let answer = integer(self.bytes());
        let refused = |refusal| self.refused(refusal, answer.place, answer.count);
        answer.accepted().map_err(refused)
    }

    /// The characters of a Text, written to the start of a lent buffer; see
    /// [`text`](crate::text()).  As many bytes as the node has are room enough.
    ///
    /// # Errors
    ///
    /// [`NotTheLiteral`](Refusal::NotTheLiteral), or
    /// [`NoRoom`](Refusal::NoRoom) with the bytes needed.
    ///
    /// ```
    /// use muon::{Document, Refusal, TABLE_MAX};
    ///
    /// let mut table = [0; TABLE_MAX];
    /// let document = Document::read(1, br#""\caf\<0cxE9>""#, &mut table)?;
    /// let mut buffer = [0; 5];
    /// assert_eq!(document.root().text(&mut buffer)?, "café");
    /// let error = document.root().text(&mut buffer[..4]).expect_err("too short");
    /// assert_eq!((error.refusal, error.count), (Refusal::NoRoom, 5));
    /// # Ok::<(), muon::Error>(())
    /// ```
    pub fn text<'b>(&self, buffer: &'b mut [u8]) -> Result<&'b str, Error> {
        let count = self.count(text(self.bytes(), buffer))?;
        Ok(core::str::from_utf8(&buffer[..count]).expect("the call writes UTF-8"))
    }

    /// The bytes of a Blob, written to the start of a lent buffer; see
    /// [`blob`](crate::blob).  As many bytes as the node has are room enough.
    ///
    /// # Errors
    ///
    /// [`NotTheLiteral`](Refusal::NotTheLiteral), or
    /// [`NoRoom`](Refusal::NoRoom) with the bytes needed.
    ///
    /// ```
    /// use muon::{Document, TABLE_MAX};
    ///
    /// let mut table = [0; TABLE_MAX];
    /// let document = Document::read(1, b"0xxA7_05 FF", &mut table)?;
    /// assert_eq!(document.root().blob(&mut [0; 11])?, [0xA7, 0x05, 0xFF]);
    /// # Ok::<(), muon::Error>(())
    /// ```
    pub fn blob<'b>(&self, buffer: &'b mut [u8]) -> Result<&'b [u8], Error> {
        let count = self.count(blob(self.bytes(), buffer))?;
        Ok(&buffer[..count])
    }

    /// The bits of a Bits, written to the start of a lent buffer, a byte 0 or 1
    /// for each; see [`bits`](crate::bits).  Four times the node's bytes are room
    /// enough.
    ///
    /// # Errors
    ///
    /// [`NotTheLiteral`](Refusal::NotTheLiteral), or
    /// [`NoRoom`](Refusal::NoRoom) with the bytes needed.
    ///
    /// ```
    /// use muon::{Document, TABLE_MAX};
    ///
    /// let mut table = [0; TABLE_MAX];
    /// let document = Document::read(1, b"0bo17", &mut table)?;
    /// assert_eq!(document.root().bits(&mut [0; 20])?, [0, 0, 1, 1, 1, 1]);
    /// # Ok::<(), muon::Error>(())
    /// ```
    pub fn bits<'b>(&self, buffer: &'b mut [u8]) -> Result<&'b [u8], Error> {
        let count = self.count(bits(self.bytes(), buffer))?;
        Ok(&buffer[..count])
    }
}

/// The same as a string or a vector.
#[cfg(feature = "alloc")]
impl Branch<'_> {
    /// The characters of a Text; see [`Branch::text`].
    ///
    /// # Errors
    ///
    /// [`NotTheLiteral`](Refusal::NotTheLiteral), and no other.
    ///
    /// ```
    /// use muon::{Document, TABLE_MAX};
    ///
    /// let mut table = [0; TABLE_MAX];
    /// let document = Document::read(1, b"(site : creek,)", &mut table)?;
    /// assert_eq!(document.root().get("site")?.to_text()?, "creek");
    /// # Ok::<(), Box<dyn std::error::Error>>(())
    /// ```
    pub fn to_text(&self) -> Result<String, Error> {
        let mut buffer = vec![0; self.bytes().len()];
        self.text(&mut buffer).map(String::from)
    }

    /// The bytes of a Blob; see [`Branch::blob`].
    ///
    /// # Errors
    ///
    /// [`NotTheLiteral`](Refusal::NotTheLiteral), and no other.
    ///
    /// ```
    /// use muon::{Document, TABLE_MAX};
    ///
    /// let mut table = [0; TABLE_MAX];
    /// let document = Document::read(1, b"0xyTWE=", &mut table)?;
    /// assert_eq!(document.root().to_blob()?, b"Ma");
    /// # Ok::<(), muon::Error>(())
    /// ```
    pub fn to_blob(&self) -> Result<Vec<u8>, Error> {
        let mut buffer = vec![0; self.bytes().len()];
        self.blob(&mut buffer).map(Vec::from)
    }

    /// The bits of a Bits; see [`Branch::bits`].
    ///
    /// # Errors
    ///
    /// [`NotTheLiteral`](Refusal::NotTheLiteral), and no other.
    ///
    /// ```
    /// use muon::{Document, TABLE_MAX};
    ///
    /// let mut table = [0; TABLE_MAX];
    /// let document = Document::read(1, b"0bb1_0 1", &mut table)?;
    /// assert_eq!(document.root().to_bits()?, [1, 0, 1]);
    /// # Ok::<(), muon::Error>(())
    /// ```
    pub fn to_bits(&self) -> Result<Vec<u8>, Error> {
        let mut buffer = vec![0; 4 * self.bytes().len()];
        self.bits(&mut buffer).map(Vec::from)
    }
}

/// The children of a node; see [`Branch::children`].
#[derive(Clone, Debug)]
#[must_use = "nothing is walked until it is asked for"]
pub struct Children<'a> {
    document: Document<'a>,
    /// The index of the next one, if it is before the end.
    next: usize,
    end: usize,
}

impl<'a> Iterator for Children<'a> {
    type Item = Branch<'a>;

    fn next(&mut self) -> Option<Branch<'a>> {
        if self.next >= self.end {
            return None;
        }
        let child = Branch::at(self.document, self.next)?;
        // goes on even by a skip that is none of a reading's
        self.next = child.end().max(self.next + 1);
        Some(child)
    }
}

impl FusedIterator for Children<'_> {}
