//! Texts made by the grammar of level 2, arrows `<-` among them.

use super::random::Random;

/// A text and the number of its nodes, if it is accepted.
pub struct Made {
    pub text: Vec<u8>,
    pub nodes: usize,
}

/// What a text has that is refused.
#[derive(Clone, Copy)]
pub struct Mischief {
    /// Some literals have bad values, and some constructs are newer forms.
    pub bad: bool,
    /// One pair in so many has an arrow `<-`.
    pub arrows: Option<usize>,
}

/// A random value with dividing space around it.
pub fn text(random: &mut Random, mischief: Mischief) -> Made {
    let front = match random.once_in(12) {
        true => random.pick(&["\u{FEFF}", "#!x\n", "\u{FEFF}#!`\r\n"]),
        false => "",
    };
    let depth = match mischief.bad && random.once_in(12) {
        true => 40,
        false => 1 + random.below(5),
    };
    let mut writer = Writer {
        random,
        mischief,
        text: front.as_bytes().to_vec(),
        nodes: 0,
    };
    writer.space();
    if depth == 40 {
        writer.deep();
    } else {
        writer.value(depth);
    }
    writer.space();
    Made {
        text: writer.text,
        nodes: writer.nodes,
    }
}

struct Writer<'a> {
    random: &'a mut Random,
    mischief: Mischief,
    text: Vec<u8>,
    nodes: usize,
}

type Choice<'a> = fn(&mut Writer<'a>, usize);

impl<'a> Writer<'a> {
    fn put(&mut self, bytes: &str) {
        self.text.extend(bytes.bytes());
    }

    fn put_one(&mut self, choices: &[&str]) {
        let chosen = self.random.pick(choices);
        self.put(chosen);
    }

    fn node(&mut self) {
        self.nodes += 1;
    }

    /// Dividing space or none.
    fn space(&mut self) {
        if self.random.once_in(3) {
            self.some_space();
        }
    }

    fn some_space(&mut self) {
        const STRETCHES: &[&str] = &[
            " ",
            "\n    ",
            "\t",
            "\r\n",
            "``",
            "`c`",
            " `(0b1:\"x\") {` ",
            "`\u{E9}\0`\n`5`",
        ];
        self.put_one(STRETCHES);
    }

    /// A sign with optional dividing space on both sides.
    fn between(&mut self, sign: &str) {
        self.space();
        self.put(sign);
        self.space();
    }

    /// The sign of a pair.
    fn between_sides(&mut self) {
        let arrow = |times| self.random.once_in(times);
        let sign = match self.mischief.arrows.is_some_and(arrow) {
            true => "<-",
            false => self.random.pick(&[":", "->"]),
        };
        self.between(sign);
    }

    fn value(&mut self, depth: usize) {
        if self.mischief.bad && self.random.once_in(60) {
            return self.newer(depth);
        }
        if depth == 0 || self.random.once_in(3) {
            return self.opaque();
        }
        let forms: [Choice<'a>; 7] = [
            Writer::group,
            Writer::pair,
            Writer::tuple,
            Writer::tuple,
            Writer::lot,
            Writer::counted,
            Writer::interval,
        ];
        forms[self.random.below(forms.len())](self, depth - 1);
    }

    fn newer(&mut self, depth: usize) {
        const HEADS: &[&str] = &[
            "Mix",
            "Interval_Set",
            "Interval_Bag",
            "Tuple_Array",
            "Relation",
            "Tuple_Bag",
            "Article",
            "Excuse",
            "Heading",
            "Renaming",
        ];
        if depth == 0 || self.random.once_in(2) {
            return self.put_one(&["0Lct", "0Lci@y2001|m4", "0Lgp@+920", "0L"]);
        }
        self.put("(");
        self.space();
        self.put_one(HEADS);
        self.between(":");
        self.lot(depth - 1);
        self.put(")");
    }

    fn opaque(&mut self) {
        self.node();
        match self.random.below(10) {
            0 => self.put("0sIGNORANCE"),
            1 => self.put_one(&["0bTRUE", "0bFALSE"]),
            2 | 3 => self.integer(),
            4 => self.fraction(),
            5 => self.bits(),
            6 => self.blob(),
            7 => self.nesting(),
            _ => self.text_literal(),
        }
    }

    fn sign(&mut self) {
        if self.random.once_in(3) {
            self.put_one(&["+", "-"]);
            self.space();
        }
    }

    fn integer(&mut self) {
        self.sign();
        self.unsigned();
    }

    fn unsigned(&mut self) {
        let digits = self.mark();
        self.groups(digits, 1, 1);
    }

    /// A base mark or none; the digits of that base.
    fn mark(&mut self) -> &'static str {
        let (mark, digits) = match self.random.below(7) {
            0 => ("0b", "01"),
            1 => ("0o", "01234567"),
            2 => ("0d", "0123456789"),
            3 => ("0x", "0123456789ABCDEF"),
            _ => ("", "0123456789"),
        };
        self.put(mark);
        if !mark.is_empty() {
            self.space();
        }
        digits
    }

    /// At least `least` groups of whole units, joined.
    fn groups(&mut self, digits: &str, unit: usize, least: usize) {
        let groups = least + self.random.below(3);
        for index in 0..groups {
            match (index, self.random.once_in(2)) {
                (0, _) => (),
                (_, true) => self.put("_"),
                (_, false) => self.some_space(),
            }
            let length = unit * (1 + self.random.below(3));
            for _ in 0..length {
                let digit = digits.as_bytes()[self.random.below(digits.len())];
                self.text.push(digit);
            }
        }
    }

    fn fraction(&mut self) {
        self.sign();
        let digits = self.mark();
        self.groups(digits, 1, 1);
        if self.random.once_in(2) {
            self.between(".");
            self.groups(digits, 1, 1);
        } else {
            self.between("/");
            self.not_below(1);
        }
        if self.random.once_in(2) {
            self.between("*");
            self.not_below(2);
            self.between("^");
            self.integer();
        }
    }

    /// An unsigned number of at least `least`, unless mischief is made.
    fn not_below(&mut self, least: usize) {
        if self.mischief.bad && self.random.once_in(8) {
            return self.put_one(&["0", "0x0_0", "0b 0", "0o0", "1", "0b1"]);
        }
        match least {
            1 => self.put_one(&["1", "0b0 1", "0xF", "7_0", "0d 12"]),
            _ => self.put_one(&["2", "0b1 0", "0xA0", "1_0", "0o 2"]),
        }
    }

    fn bits(&mut self) {
        let (mark, digits) = match self.random.below(3) {
            0 => ("0bb", "01"),
            1 => ("0bo", "01234567"),
            _ => ("0bx", "0123456789ABCDEF"),
        };
        self.packed(mark, digits, 1);
    }

    fn blob(&mut self) {
        match self.random.below(4) {
            0 => self.packed("0xb", "01", 8),
            1 => self.packed("0xx", "0123456789ABCDEF", 2),
            2 if self.mischief.bad => self.packed("0xy", "AZaz09+/=", 4),
            _ => self.base64(),
        }
    }

    /// With padding, or without.
    fn base64(&mut self) {
        self.packed("0xy", "AZaz09+/", 4);
        match self.random.below(6) {
            0 | 1 => self.put_one(&["AA==", "+Q==", "TWE=", "/wA="]),
            2 if self.mischief.bad => self.put_one(&["====", "A===", "AB==", "AAB="]),
            _ => (),
        }
    }

    fn packed(&mut self, mark: &str, digits: &str, unit: usize) {
        self.put(mark);
        if self.random.once_in(4) {
            return;
        }
        self.space();
        self.groups(digits, unit, 1);
    }

    fn text_literal(&mut self) {
        match self.random.below(4) {
            0 => self.quoted(),
            1 => self.code_point(),
            2 => self.put_one(&["Array", "Set", "Bag", "Mix", "Relation", "Renaming"]),
            _ => self.put_one(&["a", "x", "_", "b2", "Ceres", "first_name", "L", "TRUE"]),
        }
    }

    fn quoted(&mut self) {
        for _ in 0..self.random.below(3) {
            self.segment();
            self.space();
        }
        // The last segment ends the literal.
        self.segment();
    }

    fn segment(&mut self) {
        const PLAIN: &[&str] = &[
            "",
            "a",
            "(x:y)",
            " ",
            "\\n",
            "1/0",
            "\u{E9}",
            "\u{7F}",
            "\u{A0}",
            "\u{FEFF}",
            "\u{30B5}",
            "\u{10FFFF}",
            "\\",
            "\\\\<0c65>",
        ];
        const ESCAPED: &[&str] = &["\\q", "\\g", "\\b", "\\t", "\\n", "\\r", "x", "\u{E9}", "<"];
        self.put("\"");
        if self.random.once_in(2) {
            self.put("\\");
            for _ in 0..self.random.below(4) {
                self.put_one(ESCAPED);
                self.escaped_code_point();
            }
        } else {
            // A backslash in front would make it an escaped segment.
            self.put_one(&["", "-"]);
            if self.text.ends_with(b"-") {
                self.put_one(PLAIN);
            }
        }
        self.put("\"");
    }

    fn escaped_code_point(&mut self) {
        if self.random.once_in(3) {
            self.put("\\<");
            self.code_point();
            self.put(">");
        }
    }

    fn code_point(&mut self) {
        if self.mischief.bad && self.random.once_in(8) {
            return self.put_one(&["0cxD800", "0c57343", "0cx110000", "0cd9999999"]);
        }
        self.put_one(&[
            "0c0",
            "0c65",
            "0cd65",
            "0cb0100",
            "0co101",
            "0cxD7FF",
            "0cxE000",
            "0cx10FFFF",
            "0cx85",
        ]);
    }

    fn nesting(&mut self) {
        for index in 0..1 + self.random.below(3) {
            if index > 0 {
                self.space();
            }
            self.put("::");
            self.space();
            self.text_literal();
        }
    }

    fn group(&mut self, depth: usize) {
        self.put("(");
        self.space();
        self.not_a_head(depth);
        self.space();
        self.put(")");
    }

    /// A value after `(` that cannot be mistaken for a head's word.
    fn not_a_head(&mut self, depth: usize) {
        if self.random.once_in(2) {
            self.node();
            return self.put_one(&["x", "\"Set\"", "::Set", "0c65", "Arrays", "5"]);
        }
        let start = self.text.len();
        self.value(depth);
        // Head words begin with capitals, and no other value does.
        if self.text[start].is_ascii_uppercase() {
            self.text.insert(start, b'"');
            self.put("\"");
        }
    }

    fn pair(&mut self, depth: usize) {
        self.node();
        self.put("(");
        self.space();
        self.not_a_head(depth);
        self.between_sides();
        self.value(depth);
        self.space();
        self.put(")");
    }

    fn tuple(&mut self, depth: usize) {
        self.node();
        self.put("(");
        self.space();
        let attributes = self.random.below(4);
        let leading = attributes > 0 && self.random.once_in(3);
        if leading {
            self.put(",");
            self.space();
        }
        for index in 0..attributes {
            if index > 0 {
                self.between(",");
            }
            self.attribute(depth, index == 0 && !leading);
        }
        // One attribute alone would be a group or a Pair.
        let alone = attributes == 1 && !leading;
        if alone || (attributes > 0 && self.random.once_in(3)) {
            self.space();
            self.put(",");
        }
        self.space();
        self.put(")");
    }

    fn attribute(&mut self, depth: usize, first: bool) {
        if self.random.once_in(2) {
            self.node();
            self.name(first);
            self.between(":");
        }
        self.value(depth);
    }

    fn name(&mut self, first: bool) {
        match self.random.below(4) {
            0 => self.nesting(),
            1 => self.quoted(),
            2 if !first => self.text_literal(),
            _ => self.put_one(&["x", "y", "name", "0c0", "0c1", "Arrays"]),
        }
    }

    fn lot(&mut self, depth: usize) {
        self.node();
        self.braces(depth, |writer, depth| {
            writer.value(depth);
            if writer.random.once_in(2) {
                writer.between_sides();
                writer.value(depth);
            }
        });
    }

    fn braces(&mut self, depth: usize, member: Choice<'a>) {
        self.put("{");
        self.space();
        if self.random.once_in(4) {
            self.put(",");
            self.space();
        }
        for index in 0..self.random.below(4) {
            if index > 0 {
                self.between(",");
            }
            member(self, depth);
        }
        if self.random.once_in(4) {
            self.space();
            self.put(",");
        }
        self.space();
        self.put("}");
    }

    fn counted(&mut self, depth: usize) {
        self.node();
        self.put("(");
        self.space();
        let head = self.random.pick(&["Array", "Bag", "Set"]);
        self.put(head);
        self.between(":");
        let member: Choice<'a> = match head {
            "Set" => |writer, depth| writer.set_member(depth),
            _ => |writer, depth| writer.counted_member(depth),
        };
        self.braces(depth, member);
        self.space();
        self.put(")");
    }

    fn counted_member(&mut self, depth: usize) {
        self.value(depth);
        if self.random.once_in(2) {
            self.between(":");
            self.node();
            self.unsigned();
        }
    }

    fn set_member(&mut self, depth: usize) {
        self.value(depth);
        if self.random.once_in(2) {
            self.between(":");
            self.node();
            self.put_one(&["0bTRUE", "0bFALSE"]);
        }
    }

    fn interval(&mut self, depth: usize) {
        const WITH_LOW: &[&str] = &["<=*", "<*"];
        const WITH_HIGH: &[&str] = &["*<=", "*<"];
        const WITH_BOTH: &[&str] = &["<=*<=", "<=*<", "<*<=", "<*<", ".."];
        self.node();
        self.put("[");
        self.space();
        let (low, signs, high): (bool, &[&str], bool) = match self.random.below(6) {
            0 => (false, &["", "*"], false),
            1 => (true, &[""], false),
            2 => (true, WITH_LOW, false),
            3 => (false, WITH_HIGH, true),
            _ => (true, WITH_BOTH, true),
        };
        if low {
            self.value(depth);
        }
        let sign = self.random.pick(signs);
        self.between(sign);
        if high {
            self.value(depth);
        }
        self.space();
        self.put("]");
    }

    /// About as many open brackets as may be open, or a few more.
    fn deep(&mut self) {
        let depth = 29 + self.random.below(7);
        let mut closers = Vec::new();
        while closers.len() < depth {
            let (open, close) = self.random.pick(&[
                &("{", "}"),
                &("(", ")"),
                &("[", "]"),
                &("(x:", ")"),
                &("(,", ")"),
                &("(Set:{", "})"),
                &("{a,b:", "}"),
            ]);
            self.put(open);
            closers.push(*close);
            self.space();
        }
        self.put("x");
        for close in closers.iter().rev() {
            self.put(close);
        }
    }
}
