//! The values of literals: integers, texts, Blobs and Bits.

use muon::{Answer, IntegerAnswer, Refusal};

const FILLED: u8 = 0xA5;

type Call = fn(&[u8], &mut [u8]) -> Answer;

/// The bytes that a call writes, or the refusal and its place.
type Outcome = Result<Vec<u8>, (Refusal, usize)>;

fn text(piece: &[u8]) -> Outcome {
    asked(muon::text, piece, piece.len())
}

fn blob(piece: &[u8]) -> Outcome {
    asked(muon::blob, piece, 3 * piece.len() / 4)
}

fn bits(piece: &[u8]) -> Outcome {
    asked(muon::bits, piece, 4 * piece.len())
}

/// The value of a piece, which is at most so many bytes.  They are asked for
/// with room to spare, with just enough, and with too little; what is not to
/// be written stays.
fn asked(call: Call, piece: &[u8], most: usize) -> Outcome {
    let mut buffer = vec![FILLED; most + 4];
    let answer = call(piece, &mut buffer);
    let written = match answer.refusal() {
        None => answer.count,
        Some(_) => 0,
    };
    assert!(buffer[written..].iter().all(|byte| *byte == FILLED));
    if let Some(refusal) = answer.refusal() {
        assert_eq!(answer.count, 0);
        return Err((refusal, answer.place));
    }
    assert!(answer.count <= most);
    assert_eq!(answer.place, piece.len());
    buffer.truncate(written);

    let mut enough = vec![FILLED; written];
    assert_eq!(call(piece, &mut enough), answer);
    assert_eq!(enough, buffer);
    if written > 0 {
        let mut short = vec![FILLED; written - 1];
        let refused = Answer {
            number: Refusal::NoRoom.number(),
            ..answer
        };
        assert_eq!(call(piece, &mut short), refused);
        assert_eq!(short, vec![FILLED; written - 1]);
    }
    Ok(buffer)
}

#[test]
fn integers() {
    for (piece, value) in [
        ("29 56", 2956),
        ("29_56", 2956),
        ("0", 0),
        ("-0", 0),
        ("+7", 7),
        ("- 5", -5),
        ("-`c`\n5", -5),
        ("0b1_0 1", 5),
        ("0o 77", 63),
        ("0d 10", 10),
        ("-0x F_F", -255),
        ("9223372036854775807", i64::MAX),
        ("-9223372036854775808", i64::MIN),
        ("-0x8000_0000_0000_0000", i64::MIN),
        ("0000000000000000000000000000001", 1),
    ] {
        let answer = IntegerAnswer {
            number: 0,
            place: piece.len(),
            count: 0,
            value,
        };
        assert_eq!(muon::integer(piece.as_bytes()), answer, "{piece}");
        assert_eq!(answer.accepted(), Ok(value));
    }
}

#[test]
fn refused_integers() {
    for (piece, refusal, place) in [
        (b"".to_vec(), Refusal::NotTheLiteral, 0),
        (b" 5".to_vec(), Refusal::NotTheLiteral, 0),
        (b"5 ".to_vec(), Refusal::NotTheLiteral, 0),
        (b"\xEF\xBB\xBF5".to_vec(), Refusal::NotTheLiteral, 0),
        (b"#!\n5".to_vec(), Refusal::NotTheLiteral, 0),
        (b"5,".to_vec(), Refusal::NotTheLiteral, 0),
        (b"1.5".to_vec(), Refusal::NotTheLiteral, 0),
        (b"0b2".to_vec(), Refusal::NotTheLiteral, 0),
        (b"five".to_vec(), Refusal::NotTheLiteral, 0),
        (b"x\xFF".to_vec(), Refusal::NotUtf8, 1),
        (b"9223372036854775808".to_vec(), Refusal::OutOfRange, 0),
        (b"-9223372036854775809".to_vec(), Refusal::OutOfRange, 0),
        (vec![b'9'; muon::TEXT_MAX], Refusal::OutOfRange, 0),
        (vec![0xFF; muon::TEXT_MAX + 1], Refusal::TooLong, 0),
    ] {
        let answer = IntegerAnswer {
            number: refusal.number(),
            place,
            count: 0,
            value: 0,
        };
        assert_eq!(muon::integer(&piece), answer, "{refusal}");
        assert_eq!(answer.accepted(), Err(refusal));
    }
}

#[test]
fn texts() {
    for (piece, characters) in [
        (r#""""#, ""),
        (r#""\""#, ""),
        (r#""a\n""#, r"a\n"),
        (r#""a\b""#, r"a\b"),
        (r#""\a\n""#, "a\n"),
        (r#""\\b""#, r"\"),
        (r#""\\q\g\b\t\n\r""#, "\"`\\\t\n\r"),
        (
            r#""\\<0cx41>\<0co102>\<0cb1000011>\<0cd68>\<0c69>""#,
            "ABCDE",
        ),
        (r#""a" "\\n" "\n" "\\b""#, "a\nn\\"),
        ("\"a\"`c`\n\"b\"\"c\"", "abc"),
        ("\"caf\u{e9} \u{1F600}\"", "caf\u{e9} \u{1F600}"),
        ("word_2", "word_2"),
        ("Array", "Array"),
        ("0c65", "A"),
        ("0cxE9", "\u{e9}"),
        ("0cxD7FF", "\u{D7FF}"),
        ("0cxE000", "\u{E000}"),
        ("0cx10FFFF", "\u{10FFFF}"),
    ] {
        let characters = Ok(characters.as_bytes().to_vec());
        assert_eq!(text(piece.as_bytes()), characters, "{piece}");
    }
}

#[test]
fn refused_texts() {
    for (piece, refusal, place) in [
        (b"".to_vec(), Refusal::NotTheLiteral, 0),
        (b" a".to_vec(), Refusal::NotTheLiteral, 0),
        (b"\"a\" ".to_vec(), Refusal::NotTheLiteral, 0),
        (b"\xEF\xBB\xBFa".to_vec(), Refusal::NotTheLiteral, 0),
        (b"a b".to_vec(), Refusal::NotTheLiteral, 0),
        (b"5".to_vec(), Refusal::NotTheLiteral, 0),
        (b"::a".to_vec(), Refusal::NotTheLiteral, 0),
        (b"\"a".to_vec(), Refusal::NotTheLiteral, 0),
        (b"\"a`c`\"".to_vec(), Refusal::NotTheLiteral, 0),
        (br#""\\x""#.to_vec(), Refusal::NotTheLiteral, 0),
        (b"\"a\xC3\"".to_vec(), Refusal::NotUtf8, 2),
        (b"0cxD800".to_vec(), Refusal::BadValue, 0),
        (b"0cx110000".to_vec(), Refusal::BadValue, 0),
        (br#""\\<0cxD800>""#.to_vec(), Refusal::BadValue, 2),
        (br#""a" "\\<0cxDFFF>""#.to_vec(), Refusal::BadValue, 6),
        (br#""a" "\x\<0cxD800>""#.to_vec(), Refusal::BadValue, 7),
        (
            br#""\\<0cxDFFF>" "\\<0cxD800>""#.to_vec(),
            Refusal::BadValue,
            2,
        ),
        (
            br#""a\<0cxD800>" "\b\<0c1114112>""#.to_vec(),
            Refusal::BadValue,
            17,
        ),
        (vec![b'a'; muon::TEXT_MAX + 1], Refusal::TooLong, 0),
    ] {
        assert_eq!(text(&piece), Err((refusal, place)), "{refusal}");
    }
}

#[test]
fn a_bad_value_comes_before_no_room() {
    let bad = muon::text(br#""abc" "\\<0cxD800>""#, &mut []);
    assert_eq!(bad.accepted(), Err(Refusal::BadValue));
    assert_eq!((bad.place, bad.count), (8, 0));
}

/// Every number that is no character's, by its escape and at its backslash.
#[test]
fn every_escape_out_of_range() {
    for number in (0xD800..0xE000).chain([0x11_0000, u32::MAX]) {
        for escape in [
            format!(r"\<0c{number}>"),
            format!(r"\<0cx{number:X}>"),
            format!(r"\<0co{number:o}>"),
            format!(r"\<0cb{number:b}>"),
        ] {
            let piece = format!(r#""\ {escape}""#);
            let refused = Err((Refusal::BadValue, 3));
            assert_eq!(text(piece.as_bytes()), refused, "{piece}");
        }
    }
}

#[test]
fn the_longest_text() {
    let piece = vec![b'a'; muon::TEXT_MAX];
    assert_eq!(text(&piece), Ok(piece));
}

/// Every code point by its shortest number: the characters, and that a buffer
/// as long as the piece is enough.
#[test]
fn every_code_point() {
    let mut bytes = [0; 4];
    for number in 0..=0x110000 {
        let expected = match char::from_u32(number) {
            Some(character) => Ok(character.encode_utf8(&mut bytes).as_bytes().to_vec()),
            None => Err((Refusal::BadValue, 0)),
        };
        assert_eq!(text(format!("0cx{number:X}").as_bytes()), expected);
    }
}

#[test]
fn blobs() {
    for (piece, bytes) in [
        ("0xb", &b""[..]),
        ("0xx", b""),
        ("0xy", b""),
        ("0xb00000001", b"\x01"),
        ("0xb10100111_00000101", b"\xA7\x05"),
        ("0xxA7_05 FF", b"\xA7\x05\xFF"),
        ("0xx`A7`\nA7`05`FF", b"\xA7\xFF"),
        ("0xyZg==", b"f"),
        ("0xyZm8=", b"fo"),
        ("0xy Zm9v", b"foo"),
        ("0xyZm9v_Yg==", b"foob"),
        ("0xyZm9v`=`YmE=", b"fooba"),
        ("0xyZm9v YmFy", b"foobar"),
        ("0xy+/+/", b"\xFB\xFF\xBF"),
    ] {
        assert_eq!(blob(piece.as_bytes()), Ok(bytes.to_vec()), "{piece}");
    }
}

#[test]
fn bits_of_every_base() {
    for (piece, expected) in [
        ("0bb", &[][..]),
        ("0bo", &[]),
        ("0bx", &[]),
        ("0bb1_0 1", &[1, 0, 1]),
        ("0bb `1`0`1`1", &[0, 1]),
        ("0bo17", &[0, 0, 1, 1, 1, 1]),
        ("0bo6`0`4", &[1, 1, 0, 1, 0, 0]),
        ("0bxA", &[1, 0, 1, 0]),
        ("0bx1_8", &[0, 0, 0, 1, 1, 0, 0, 0]),
    ] {
        assert_eq!(bits(piece.as_bytes()), Ok(expected.to_vec()), "{piece}");
    }
}

#[test]
fn refused_blobs() {
    for (piece, refusal, place) in [
        (b"".to_vec(), Refusal::NotTheLiteral, 0),
        (b" 0xx".to_vec(), Refusal::NotTheLiteral, 0),
        (b"0xx ".to_vec(), Refusal::NotTheLiteral, 0),
        (b"\xEF\xBB\xBF0xx".to_vec(), Refusal::NotTheLiteral, 0),
        (b"0xxA".to_vec(), Refusal::NotTheLiteral, 0),
        (b"0xxa7".to_vec(), Refusal::NotTheLiteral, 0),
        (b"0xxA7__05".to_vec(), Refusal::NotTheLiteral, 0),
        (b"0xb1010_1010".to_vec(), Refusal::NotTheLiteral, 0),
        (b"0xyAAA".to_vec(), Refusal::NotTheLiteral, 0),
        (b"0bb1".to_vec(), Refusal::NotTheLiteral, 0),
        (b"0xyA\xFF".to_vec(), Refusal::NotUtf8, 4),
        (b"0xy====".to_vec(), Refusal::BadValue, 0),
        (b"0xyA===".to_vec(), Refusal::BadValue, 0),
        (b"0xyAA=A".to_vec(), Refusal::BadValue, 0),
        (b"0xyAB==".to_vec(), Refusal::BadValue, 0),
        (b"0xyAAB=".to_vec(), Refusal::BadValue, 0),
        (b"0xyAA== AAAA".to_vec(), Refusal::BadValue, 0),
        (b"0xyAAAA====".to_vec(), Refusal::BadValue, 0),
        (vec![b'A'; muon::TEXT_MAX + 1], Refusal::TooLong, 0),
    ] {
        assert_eq!(blob(&piece), Err((refusal, place)), "{refusal}");
    }
    let bad = muon::blob(b"0xyAAAAAB==", &mut []);
    assert_eq!(bad.accepted(), Err(Refusal::BadValue));
}

#[test]
fn refused_bits() {
    for (piece, refusal, place) in [
        (b"".to_vec(), Refusal::NotTheLiteral, 0),
        (b"0bb ".to_vec(), Refusal::NotTheLiteral, 0),
        (b"0bb_1".to_vec(), Refusal::NotTheLiteral, 0),
        (b"0bb2".to_vec(), Refusal::NotTheLiteral, 0),
        (b"0bo8".to_vec(), Refusal::NotTheLiteral, 0),
        (b"0bxG".to_vec(), Refusal::NotTheLiteral, 0),
        (b"0bTRUE".to_vec(), Refusal::NotTheLiteral, 0),
        (b"0xx".to_vec(), Refusal::NotTheLiteral, 0),
        (b"0bb1\xFF".to_vec(), Refusal::NotUtf8, 4),
        (vec![b'0'; muon::TEXT_MAX + 1], Refusal::TooLong, 0),
    ] {
        assert_eq!(bits(&piece), Err((refusal, place)), "{refusal}");
    }
}

/// A mark and so many digits that the piece is as long as it may be.
fn longest(mark: &str, digit: &str) -> Vec<u8> {
    let digits = digit.repeat(muon::TEXT_MAX);
    let mut piece = format!("{mark}{digits}").into_bytes();
    piece.truncate(muon::TEXT_MAX);
    piece
}

#[test]
fn the_longest_bits_and_blob() {
    let ones = bits(&longest("0bx", "F"));
    assert_eq!(ones, Ok(vec![1; muon::BITS_MAX - 12]));
    assert_eq!(blob(&longest("0xx ", "41")), Ok(vec![b'A'; 16_382]));
    assert_eq!(blob(&longest("0xy ", "QUFB")), Ok(vec![b'A'; 24_573]));
}

/// The answer at both levels, and the Blobs of the text.
fn blobs_read(text: &[u8]) -> (Answer, Vec<&[u8]>) {
    let mut table = [0; muon::TABLE_MAX];
    let answer = muon::read(1, text, &mut table);
    assert_eq!(muon::read(2, text, &mut table), answer);
    let count = answer.accepted().unwrap_or(0);
    let blobs = muon::nodes(&table, count).filter(|node| node.kind == muon::Kind::Blob.number());
    (answer, blobs.map(|node| &text[node.span()]).collect())
}

/// A Blob that the call refuses is none of a node's: the reader refuses it at
/// its first byte.
#[test]
fn padding_of_a_node() {
    for piece in [
        "0xy====",
        "0xyA===",
        "0xyAB==",
        "0xyAAB=",
        "0xyAA=A",
        "0xyAAA=_====",
        "0xyAA== AAAA",
    ] {
        assert_eq!(blob(piece.as_bytes()), Err((Refusal::BadValue, 0)));
        for (front, rear) in [("", ""), ("(mark : ", ")"), ("{0xyAA==, ", ",,"), ("(", "")] {
            let text = format!("{front}{piece}{rear}");
            let refused = Answer {
                number: Refusal::BadValue.number(),
                place: front.len(),
                count: 0,
            };
            assert_eq!(blobs_read(text.as_bytes()), (refused, vec![]), "{text}");
        }
    }
}

#[test]
fn every_blob_of_a_text_has_bytes() {
    let text = b"{0xy : 0xyAA==, 0xyAAA= : 0xy TWFu_TWE=, 0xxA7 : 0xb}";
    let (answer, blobs) = blobs_read(text);
    assert!(answer.is_accepted());
    let bytes: Vec<Outcome> = blobs.into_iter().map(blob).collect();
    let expected: [&[u8]; 6] = [b"", b"\0", b"\0\0", b"ManMa", b"\xA7", b""];
    assert_eq!(bytes, expected.map(|bytes| Ok(bytes.to_vec())));
}

/// What fills no group of four is not part of the Blob.
#[test]
fn no_group_of_four() {
    for (text, refusal, place) in [
        ("0xyTWF", Refusal::WrongPlace, 3),
        ("0xyAAAAA", Refusal::WrongPlace, 7),
        ("0xyAA=", Refusal::WrongPlace, 3),
        ("0xy=", Refusal::NoToken, 3),
    ] {
        let (answer, _) = blobs_read(text.as_bytes());
        assert_eq!((answer.refusal(), answer.place), (Some(refusal), place));
        let call = blob(text.as_bytes());
        assert_eq!(call, Err((Refusal::NotTheLiteral, 0)), "{text}");
    }
}
