//! Base 64 by RFC 4648, section 4, read back.
//!
//! The RFC encodes 24 bits as four characters, the last of them perhaps with
//! fewer bits: "When fewer than 24 input bits are available in an input
//! group, bits with value zero are added (on the right) to form an integral
//! number of 6-bit groups", and `=` stands for what is missing.

/// The bytes whose encoding these characters are, if they are one.
pub fn bytes(characters: &[u8]) -> Option<Vec<u8>> {
    let mut groups = characters.chunks_exact(4);
    if !groups.remainder().is_empty() {
        return None;
    }
    let last = groups.next_back();
    let mut bytes = Vec::with_capacity(characters.len() / 4 * 3);
    for group in groups {
        bytes.extend(full(group)?);
    }
    match *last.unwrap_or(&[]) {
        [] => (),
        [a, b, b'=', b'='] => bytes.push(eight_bits(a, b)?),
        [a, b, c, b'='] => bytes.extend(sixteen_bits(a, b, c)?),
        ref group => bytes.extend(full(group)?),
    }
    Some(bytes)
}

/// Case (1): 24 bits.
fn full(group: &[u8]) -> Option<[u8; 3]> {
    let &[a, b, c, d] = group else { return None };
    let [a, b, c, d] = [sextet(a)?, sextet(b)?, sextet(c)?, sextet(d)?];
    Some([a << 2 | b >> 4, b << 4 | c >> 2, c << 6 | d])
}

/// Case (2): 8 bits in two characters, four bits added.
fn eight_bits(a: u8, b: u8) -> Option<u8> {
    let (a, b) = (sextet(a)?, sextet(b)?);
    (b % 16 == 0).then_some(a << 2 | b >> 4)
}

/// Case (3): 16 bits in three characters, two bits added.
fn sixteen_bits(a: u8, b: u8, c: u8) -> Option<[u8; 2]> {
    let (a, b, c) = (sextet(a)?, sextet(b)?, sextet(c)?);
    (c % 4 == 0).then_some([a << 2 | b >> 4, b << 4 | c >> 2])
}

/// Table 1, "The Base 64 Alphabet"; the pad is no value of it.
fn sextet(character: u8) -> Option<u8> {
    match character {
        b'A'..=b'Z' => Some(character - b'A'),
        b'a'..=b'z' => Some(character - b'a' + 26),
        b'0'..=b'9' => Some(character - b'0' + 52),
        b'+' => Some(62),
        b'/' => Some(63),
        _ => None,
    }
}

#[cfg(test)]
mod tests {
    use super::{bytes, sextet};

    const ALPHABET: &[u8] = b"ABCDEFGHIJKLMNOPQRSTUVWXYZabcdefghijklmnopqrstuvwxyz0123456789+/";

    /// Section 4 as it is written: 24 bits at a time, a pad for each missing
    /// byte of the last group.
    fn encoded(input: &[u8]) -> Vec<u8> {
        let mut output = Vec::new();
        for group in input.chunks(3) {
            let mut bits = [group, &[0; 3]].concat();
            bits.truncate(3);
            let bits = u32::from_be_bytes([0, bits[0], bits[1], bits[2]]);
            for (place, shift) in [18, 12, 6, 0].into_iter().enumerate() {
                output.push(match place <= group.len() {
                    true => ALPHABET[(bits >> shift & 0x3F) as usize],
                    false => b'=',
                });
            }
        }
        output
    }

    /// Section 10.
    const VECTORS: [(&str, &str); 7] = [
        ("", ""),
        ("f", "Zg=="),
        ("fo", "Zm8="),
        ("foo", "Zm9v"),
        ("foob", "Zm9vYg=="),
        ("fooba", "Zm9vYmE="),
        ("foobar", "Zm9vYmFy"),
    ];

    #[test]
    fn test_vectors_of_the_rfc() {
        for (plain, text) in VECTORS {
            assert_eq!(bytes(text.as_bytes()).as_deref(), Some(plain.as_bytes()));
            assert_eq!(encoded(plain.as_bytes()), text.as_bytes());
        }
    }

    #[test]
    fn the_alphabet_of_the_rfc() {
        for byte in 0..=255 {
            let place = ALPHABET.iter().position(|&character| character == byte);
            assert_eq!(sextet(byte).map(usize::from), place);
        }
    }

    /// Every group of one byte or two, behind none and behind a full one: the
    /// characters have bytes exactly if they are the encoding of these.
    #[test]
    fn only_what_encodes_some_bytes_has_bytes() {
        let with_pad = [ALPHABET, b"="].concat();
        for front in [&b""[..], b"TWFu"] {
            for &b in &with_pad {
                for &c in &with_pad {
                    for &d in b"=Az" {
                        let text = [front, &[b'A', b, c, d]].concat();
                        let canonical = |bytes: &Vec<u8>| encoded(bytes) == text;
                        let found = bytes(&text);
                        assert!(found.as_ref().is_none_or(canonical));
                        let sound = sextet(b).is_some()
                            && match (sextet(c), sextet(d)) {
                                (Some(_), Some(_)) => true,
                                (Some(c), None) => c % 4 == 0,
                                (None, None) => sextet(b).is_some_and(|b| b % 16 == 0),
                                (None, Some(_)) => false,
                            };
                        assert_eq!(found.is_some(), sound);
                    }
                }
            }
        }
    }

    #[test]
    fn no_encodings() {
        for text in [
            "A", "AA", "AAA", "AAAAA", "====", "A===", "=AAA", "A=AA", "AA=A", "AA==AAAA",
            "AAA=AAAA", "AA==AA==", "AAAA====", "AB==", "AAB=", "AA-_", "AA\n=",
        ] {
            assert_eq!(bytes(text.as_bytes()), None, "{text}");
        }
    }

    #[test]
    fn what_was_encoded_is_read_back() {
        for length in 0..200 {
            let plain: Vec<u8> = (0..length).map(|at| (at * 167 + 13) as u8).collect();
            assert_eq!(bytes(&encoded(&plain)), Some(plain));
        }
    }
}
