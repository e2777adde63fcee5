//! Long texts that would be slow if anything were scanned again and again.

/// Most of the longest text.
const LENGTH: usize = 32_000;

/// A front, what is repeated behind it, and a rear.
pub struct Shape {
    front: String,
    unit: &'static str,
    rear: String,
}

impl Shape {
    /// The unit as often as fits into so many bytes.
    pub fn text(&self, length: usize) -> Vec<u8> {
        let room = length - self.front.len() - self.rear.len();
        let inside = self.unit.repeat(room / self.unit.len());
        [&self.front, inside.as_str(), &self.rear]
            .concat()
            .into_bytes()
    }
}

fn filled(front: &str, unit: &'static str, rear: &str) -> Shape {
    Shape {
        front: front.to_string(),
        unit,
        rear: rear.to_string(),
    }
}

/// One comment, filling the text, between `front` and `rear`.
fn commented(front: &str, rear: &str) -> Shape {
    filled(&format!("{front}`"), "c", &format!("`{rear}"))
}

pub fn long_shapes() -> Vec<Shape> {
    let all = [segments(), escapes(), groups(), comments(), tokens()];
    all.into_iter().flatten().collect()
}

pub fn long_texts() -> Vec<Vec<u8>> {
    let shapes = long_shapes();
    shapes.iter().map(|shape| shape.text(LENGTH)).collect()
}

fn segments() -> Vec<Shape> {
    vec![
        filled("", "\"\"", ""),
        filled("", "\"a\" ", ""),
        filled("", "\"\" ", "\"unclosed"),
        filled("", "\"\" ", "\"\\\\"),
        filled("", "\"\"``", "\"`\""),
        filled("\"", "a", "\""),
        filled("\"", "a", ""),
        filled("\"\\", "\\<0c65>", "\""),
        filled("\"\\", "\\n", "\\"),
        filled("\"\\", "\\<0cx", "0>\""),
        filled("\"\\\\<0cx", "0", ">\""),
        filled("::", "\"a\" ", "\""),
    ]
}

/// With an escape out of range, or many.
fn escapes() -> Vec<Shape> {
    vec![
        filled("\"\\", "a", "\\<0cxD800>\""),
        filled("\"\\", "\\<0c65>", "\\<0cxD800>\""),
        filled("\"\\", "\\<0cxD800>", "\""),
        filled("\"\\\\<0cxD800>", "a", "\""),
        filled("\"\\\\<0cx", "0", "D800>\""),
        filled("\"\\\\<0c", "9", ">\""),
        filled("", "\"a\" ", "\"\\\\<0cxD800>\""),
        filled("", "\"a\\<0cxD800>\" ", "\"\\\\<0cxD800>\""),
        filled("", "\"\\\\<0cxD800>\" ", "\"unclosed"),
        filled("\"a\"`", "c", "`\"\\\\<0cxD800>\""),
        filled("{", "\"\\\\<0c65>\",", "\"\\\\<0cxD800>\"}"),
        filled("", "::\"\\\\<0c65>\"", "::\"\\\\<0cxD800>\""),
        filled("", "(\"\\\\<0cxD800>\":", ""),
    ]
}

fn groups() -> Vec<Shape> {
    vec![
        filled("1", " 1", ""),
        filled("1", "_1", "_"),
        filled("1", "``1", "`"),
        filled("0b1", " 1", " 2"),
        filled("0x", " F", " /"),
        filled("-", " 5", ". "),
        filled("1/1", " 0", "*"),
        filled("1/0", "_0", ""),
        filled("1.5*2", " 0", "^"),
        filled("1.5*2^1", "_0", "_"),
        filled("0bb", "_1", ""),
        filled("0bx", " F", " g"),
        filled("0xb", " 10101010", " 1"),
        filled("0xx", " FF", " F"),
        filled("0xy", " AAAA", " AAA"),
        filled("0xy", " =AAA", ""),
        filled("0xy", " AAA", ""),
        filled("0c", "9", ""),
        filled("", "9", ""),
    ]
}

fn comments() -> Vec<Shape> {
    vec![
        commented("5", "x"),
        commented("5", "5"),
        commented("-", "5"),
        commented("-", "x"),
        commented("0x", "F"),
        commented("0x", "g"),
        commented("1", ".5"),
        commented("1.", "5"),
        commented("1.", "x"),
        commented("1/", "2"),
        commented("1/2", "*3^4"),
        commented("1/2*", "3^4"),
        commented("1/2*3", "^4"),
        commented("1/2*3^", "4"),
        commented("1/2*3^-", "4"),
        commented("1/2*3^-", "x"),
        commented("1/2*3", "x"),
        commented("0bb", "x"),
        commented("0xy", "AAAA"),
        commented("\"a\"", "\"b\""),
        commented("\"a\"", "\"b"),
        filled("1.5*2^3`", "c", ""),
        filled("1", "``", "."),
        filled("{1/2", "` ` ", "}"),
    ]
}

fn tokens() -> Vec<Shape> {
    vec![
        filled("", "(", ""),
        filled("{", "a,", "}"),
        filled("{", "0xb1,", "}"),
        filled("{1", ",1", "}"),
        filled("", "1/2*", ""),
        filled("", "1/2*3", ""),
        filled("[", "1.5*2", "]"),
        filled("", ":", ""),
        filled("", "::a", ""),
        filled("", "::: ", ""),
        filled("", "a ", ""),
        filled("", "a", ""),
        filled("(", "Array:", ")"),
        filled("", "<=*<= ", ""),
        filled("", "*", ""),
        filled("", "0b", ""),
        filled("", "0x ", ""),
        filled("", "0L", ""),
        filled("", "-", ""),
        filled("", "- ", "5"),
        filled("", "..", ""),
        filled("", "` `", "`"),
        filled("", " ", ""),
        filled("#!", "x", ""),
        filled("\u{FEFF}#!", "x", "\n5"),
    ]
}
