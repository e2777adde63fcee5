//! What a call answers.

use crate::{Error, Refusal};

/// The refusal with this number; none for 0.  To take a number that no call
/// answers for accepted would be wrong.
fn refusal(number: u32) -> Option<Refusal> {
    if number == 0 {
        return None;
    }
    Some(Refusal::from_number(number).expect("the number of a refusal"))
}

/// The answer of a call: 0 and what was written, or a refusal and its place.
///
/// A refusal leaves the table or buffer as it was.
#[derive(Clone, Copy, Debug, PartialEq, Eq, Hash)]
#[must_use = "a refusal would be passed over"]
pub struct Answer {
    /// 0 for accepted, else the refusal's number.
    pub number: u32,
    /// The length of the text or piece if accepted, else the refusal's place
    /// in bytes.
    pub place: usize,
    /// The nodes or bytes written, or the bytes of the file that was checked;
    /// under [`Refusal::NoRoom`] those needed; else 0.
    pub count: usize,
}

impl Answer {
    /// The answer of a call that returns the number, and writes place and
    /// count.
    pub(crate) fn of(call: impl FnOnce(&mut usize, &mut usize) -> u32) -> Answer {
        // What the call did not write would not look like an answer.
        let (mut place, mut count) = (usize::MAX, usize::MAX);
        let number = call(&mut place, &mut count);
        Answer {
            number,
            place,
            count,
        }
    }

    /// Whether the text, piece or file was accepted.
    #[must_use]
    pub fn is_accepted(&self) -> bool {
        self.number == 0
    }

    /// Why it was refused, if it was.
    ///
    /// # Panics
    ///
    /// If the number is no refusal's, which no call answers.
    #[must_use]
    pub fn refusal(&self) -> Option<Refusal> {
        refusal(self.number)
    }

    /// The count if accepted, else the refusal, for use with `?`.
    ///
    /// ```
    /// fn nodes_of(text: &[u8]) -> Result<usize, muon::Refusal> {
    ///     muon::read(2, text, &mut [0; 600]).accepted()
    /// }
    /// assert_eq!(nodes_of(b"29 56"), Ok(1));
    /// assert_eq!(nodes_of(b"1/0"), Err(muon::Refusal::BadValue));
    /// ```
    pub fn accepted(&self) -> Result<usize, Refusal> {
        self.refusal().map_or(Ok(self.count), Err)
    }

    /// The count if accepted, else the refusal with its line and column in the
    /// text that the call was given.
    ///
    /// ```
    /// fn nodes_of(text: &[u8]) -> Result<usize, muon::Error> {
    ///     muon::read(2, text, &mut [0; 600]).accepted_in(text)
    /// }
    /// assert_eq!(nodes_of(b"29 56"), Ok(1));
    /// let error = nodes_of(b"{1,\n1/0}").expect_err("no denominator");
    /// assert_eq!(error.to_string(), "2:1: refused (5): a bad value in a literal");
    /// ```
    pub fn accepted_in(&self, text: &[u8]) -> Result<usize, Error> {
        let error = |refusal| Error::at(text, refusal, self.place, self.count);
        self.accepted().map_err(error)
    }
}

/// The answer of [`integer`](crate::integer).
#[derive(Clone, Copy, Debug, PartialEq, Eq, Hash)]
#[must_use = "a refusal would be passed over"]
pub struct IntegerAnswer {
    /// 0 for accepted, else the refusal's number.
    pub number: u32,
    /// The piece's length if accepted, else the refusal's place in bytes.
    pub place: usize,
    /// Always 0.
    pub count: usize,
    /// The integer; 0 if refused.
    pub value: i64,
}

impl IntegerAnswer {
    /// Whether the piece was accepted.
    #[must_use]
    pub fn is_accepted(&self) -> bool {
        self.number == 0
    }

    /// Why the piece was refused, if it was.
    ///
    /// # Panics
    ///
    /// If the number is no refusal's, which no call answers.
    #[must_use]
    pub fn refusal(&self) -> Option<Refusal> {
        refusal(self.number)
    }

    /// The integer if accepted, else the refusal, for use with `?`.
    ///
    /// ```
    /// fn product(a: &[u8], b: &[u8]) -> Result<i64, muon::Refusal> {
    ///     Ok(muon::integer(a).accepted()? * muon::integer(b).accepted()?)
    /// }
    /// assert_eq!(product(b"6", b"7"), Ok(42));
    /// assert_eq!(product(b"6", b"7.0"), Err(muon::Refusal::NotTheLiteral));
    /// ```
    pub fn accepted(&self) -> Result<i64, Refusal> {
        self.refusal().map_or(Ok(self.value), Err)
    }
}

/// The answer of [`utf8`](crate::utf8()).
#[derive(Clone, Copy, Debug, PartialEq, Eq, Hash)]
#[must_use = "a refusal would be passed over"]
pub struct Utf8Answer {
    /// 0 for accepted, else 3, the number of [`Refusal::NotUtf8`].
    pub number: u32,
    /// The text's length if accepted, else the first byte at which no
    /// well-formed sequence begins.
    pub place: usize,
    /// The steps up to the place.
    pub steps: usize,
}

impl Utf8Answer {
    /// Whether the text is well-formed.
    #[must_use]
    pub fn is_accepted(&self) -> bool {
        self.number == 0
    }

    /// [`Refusal::NotUtf8`], if the text isn't.
    ///
    /// # Panics
    ///
    /// If the number is no refusal's, which no call answers.
    #[must_use]
    pub fn refusal(&self) -> Option<Refusal> {
        refusal(self.number)
    }

    /// The steps if accepted, else the refusal, for use with `?`.
    ///
    /// ```
    /// assert_eq!(muon::utf8(b"north field").accepted(), Ok(4));
    /// assert_eq!(muon::utf8(b"\xFF").accepted(), Err(muon::Refusal::NotUtf8));
    /// ```
    pub fn accepted(&self) -> Result<usize, Refusal> {
        self.refusal().map_or(Ok(self.steps), Err)
    }

    /// The steps if accepted, else the refusal with its line and column in the
    /// text that the call was given.
    ///
    /// ```
    /// let text = b"north\nfield \xFF";
    /// let error = muon::utf8(text).accepted_in(text).expect_err("no such byte");
    /// assert_eq!(error.to_string(), "2:7: refused (3): not UTF-8");
    /// ```
    pub fn accepted_in(&self, text: &[u8]) -> Result<usize, Error> {
        let error = |refusal| Error::at(text, refusal, self.place, 0);
        self.accepted().map_err(error)
    }
}
