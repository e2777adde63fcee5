//! The program's output.

use crate::answer::{NODES_MAX, NODE_WORDS};
use crate::tree;

/// The program's input buffer; if it fills, the text is too long.
pub const BUFFER: usize = 32_769;

/// The output for standard input holding these bytes.
pub fn listing(input: &[u8]) -> Vec<u8> {
    let text = &input[..input.len().min(BUFFER)];
    let mut table = [0u32; NODES_MAX * NODE_WORDS];
    // A full buffer is longer than a text may be, so the reader refuses it.
    let answer = tree::read(2, text, &mut table);
    if answer.number != 0 {
        return format!("no {} {}\n", answer.number, answer.place).into_bytes();
    }
    let mut out = format!("ok 2 {}\n", answer.count);
    for node in table.chunks(NODE_WORDS).take(answer.count) {
        let words: Vec<String> = node.iter().map(u32::to_string).collect();
        out.push_str(&words.join(" "));
        out.push('\n');
    }
    out.into_bytes()
}

#[cfg(test)]
mod tests {
    use super::{listing, BUFFER};
    use crate::samples::{readings, scope};

    #[test]
    fn listings_of_the_papers() {
        for (input, want) in readings::LISTINGS.iter().chain([&scope::LISTING]) {
            assert_eq!(listing(input), *want);
        }
    }

    #[test]
    fn too_many_nodes() {
        assert_eq!(listing(&crate::samples::members(2050)), b"no 8 2050\n");
        let most = listing(&crate::samples::members(2048));
        assert!(most.starts_with(b"ok 2 1024\n11 0 2048 0 0 0 1024\n7 1 2 0 1 2 2\n"));
        assert_eq!(most.iter().filter(|&&byte| byte == b'\n').count(), 1025);
    }

    #[test]
    fn a_full_buffer_is_too_long_whatever_it_holds() {
        assert_eq!(listing(&[0xFF; BUFFER]), b"no 2 0\n");
        assert_eq!(listing(&[b' '; BUFFER + 9]), b"no 2 0\n");
        assert_eq!(listing(&[b' '; BUFFER - 1]), b"no 6 32768\n");
    }
}
