//! What stands before a place that tokens lead up to, as before that of a
//! refusal 4 or 6: brackets are told from those in quotes and comments.

const MARK: [u8; 3] = [0xEF, 0xBB, 0xBF];

/// The tokens before a place, as far as hints ask for them.
#[derive(Default)]
pub struct Before {
    /// Where each bracket that is open stands, the innermost last.
    pub open: Vec<usize>,
    /// The last byte of the last token.
    pub last: Option<usize>,
    /// Where the last quotes begin.
    pub quotes: usize,
}

impl Before {
    pub fn of(text: &[u8], place: usize) -> Before {
        let mut before = Before::default();
        let mut at = front(text);
        while at < place {
            at = before.step(text, at);
        }
        before
    }

    /// Takes what begins at a place, and gives where it ends.
    fn step(&mut self, text: &[u8], at: usize) -> usize {
        let end = match text[at] {
            b'`' => return closed(text, at),
            byte if is_space(byte) => return at + 1,
            b'"' => {
                self.quotes = at;
                closed(text, at)
            }
            _ => at + 1,
        };
        match text[at] {
            b'(' | b'{' | b'[' => self.open.push(at),
            b')' | b'}' | b']' => drop(self.open.pop()),
            _ => (),
        }
        self.last = Some(end - 1);
        end
    }
}

pub fn is_space(byte: u8) -> bool {
    matches!(byte, b'\t' | b'\n' | b'\r' | b' ')
}

/// Where space and comments at a place end.
pub fn skip(text: &[u8], mut at: usize) -> usize {
    loop {
        at = match text.get(at) {
            Some(b'`') => closed(text, at),
            Some(byte) if is_space(*byte) => at + 1,
            _ => return at,
        };
    }
}

/// Behind the next byte that is the one at a place, which closes it.
fn closed(text: &[u8], at: usize) -> usize {
    let behind = &text[at + 1..];
    let length = behind.iter().position(|byte| *byte == text[at]);
    length.map_or(text.len(), |length| at + 1 + length + 1)
}

/// Behind a byte-order mark and a first line that begins with `#!`.
fn front(text: &[u8]) -> usize {
    let start = if text.starts_with(&MARK) {
        MARK.len()
    } else {
        0
    };
    let line = &text[start..];
    match line.starts_with(b"#!") {
        true => start + line.iter().take_while(|byte| **byte != b'\n').count(),
        false => start,
    }
}
