//! The byte-order mark and the interpreter line at the very front.

const MARK: &[u8] = b"\xEF\xBB\xBF";

/// The place where tokens begin.
pub fn begin(text: &[u8]) -> usize {
    let at = if text.starts_with(MARK) {
        MARK.len()
    } else {
        0
    };
    let rest = &text[at..];
    if !rest.starts_with(b"#!") {
        return at;
    }
    // Without a line feed the whole text is that line.
    match rest.iter().position(|&byte| byte == b'\n') {
        Some(line_feed) => at + line_feed + 1,
        None => text.len(),
    }
}

#[cfg(test)]
mod tests {
    use super::begin;

    #[test]
    fn each_part_once_and_in_this_order() {
        assert_eq!(begin(b""), 0);
        assert_eq!(begin(b"\xEF\xBB"), 0);
        assert_eq!(begin(b"\xEF\xBB\xBF5"), 3);
        assert_eq!(begin(b"\xEF\xBB\xBF\xEF\xBB\xBF5"), 3);
        assert_eq!(begin(b"\xEF\xBB\xBF#!x\n5"), 7);
        assert_eq!(begin(b"#!x\n#!y\n5"), 4);
        assert_eq!(begin(b"#!x\r5"), 5);
        assert_eq!(begin(b"#"), 0);
        assert_eq!(begin(b" #!\n"), 0);
    }
}
