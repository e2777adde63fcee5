use super::{bits, blob, integer, text, IntAnswer};
use crate::answer::{Answer, BAD_VALUE};
use crate::samples::{self, readings};
use crate::tree;

fn integer_is(piece: &[u8], number: u32, place: usize, value: i64) {
    let want = IntAnswer {
        number,
        place,
        count: 0,
        value,
    };
    assert_eq!(integer(piece), want, "{:?}", String::from_utf8_lossy(piece));
}

type Call = fn(&[u8], &mut [u8]) -> Answer;

/// A call with a buffer of `room` bytes; bytes behind the written ones stay.
fn writes(call: Call, piece: &[u8], room: usize, want: Answer, bytes: &[u8]) {
    let mut buffer = vec![0xA5; room];
    let answer = call(piece, &mut buffer);
    assert_eq!(answer, want, "{:?}", String::from_utf8_lossy(piece));
    let written = if answer.number == 0 { answer.count } else { 0 };
    assert_eq!(&buffer[..written], bytes);
    assert!(buffer[written..].iter().all(|&byte| byte == 0xA5));
}

fn text_is(piece: &[u8], room: usize, want: Answer, bytes: &[u8]) {
    writes(text, piece, room, want, bytes);
}

fn accepted_by(call: Call, piece: &[u8], bytes: &[u8]) {
    let want = Answer::accepted(piece.len(), bytes.len());
    writes(call, piece, 400, want, bytes);
}

fn accepted(piece: &[u8], bytes: &[u8]) {
    accepted_by(text, piece, bytes);
}

fn refused_by(call: Call, piece: &[u8], number: u32, place: usize) {
    writes(call, piece, 400, Answer::refused(number, place), b"");
}

#[test]
fn integers_of_the_readings() {
    for &(piece, number, place, value) in readings::INTEGERS {
        integer_is(piece, number, place, value);
    }
}

#[test]
fn texts_blobs_and_bits_of_the_readings() {
    let calls = [
        (text as Call, readings::TEXTS),
        (blob, readings::BLOBS),
        (bits, readings::BITS),
    ];
    for (call, readings) in calls {
        for &(piece, room, number, place, count, bytes) in readings {
            let want = Answer {
                number,
                place,
                count,
            };
            writes(call, piece, room, want, bytes);
        }
    }
}

#[test]
fn integers_of_the_source_and_the_scope_paper() {
    integer_is(b"29 56", 0, 5, 2956);
    integer_is(b"20_597_460_196_915", 0, 18, 20_597_460_196_915);
    integer_is(b"-3", 0, 2, -3);
    integer_is(b"+42", 0, 3, 42);
    integer_is(b"0d39", 0, 4, 39);
    integer_is(b"0xDEADBEEF", 0, 10, 0xDEAD_BEEF);
    integer_is(b"0o644", 0, 5, 0o644);
    integer_is(b"0b11001001", 0, 10, 0b1100_1001);
    integer_is(b"2`9`9", 0, 5, 29);
    integer_is(b"1/1", 9, 0, 0);
    integer_is(b"1/0", 9, 0, 0);
    integer_is(b"0bb1", 9, 0, 0);
}

#[test]
fn integers_at_the_bounds_in_every_base() {
    integer_is(b"0x7FFF_FFFF_FFFF_FFFF", 0, 21, i64::MAX);
    integer_is(b"0x8000_0000_0000_0000", 10, 0, 0);
    integer_is(b"-0x8000_0000_0000_0000", 0, 22, i64::MIN);
    integer_is(b"-0x8000_0000_0000_0001", 10, 0, 0);
    integer_is(b"-0o1_000_000_000_000_000_000_000", 0, 32, i64::MIN);
    let ones = [b"0b".to_vec(), b"1".repeat(63)].concat();
    integer_is(&ones, 0, 65, i64::MAX);
    integer_is(&b"9".repeat(32_768), 10, 0, 0);
    integer_is(&b"9".repeat(32_769), 2, 0, 0);
    integer_is(&b"0".repeat(32_768), 0, 32_768, 0);
}

#[test]
fn texts_of_the_source() {
    accepted(b"Ceres", b"Ceres");
    accepted("\"サンプル\"".as_bytes(), "サンプル".as_bytes());
    accepted(
        b"\"\\This isn't not escaped.\\n\"",
        b"This isn't not escaped.\n",
    );
    accepted(b"\"\\\\<0cx263A>\\<0c65>\"", "\u{263A}A".as_bytes());
    accepted(b"\"First Name\"", b"First Name");
    accepted(b"0c0", b"\0");
    accepted(b"\"\\\\<0c0>\"", b"\0");
    accepted(
        b"\"\\study, write, study,\\n\"\n    \"\\do review (each word) if time.\\n\"\n    \
          \"\\close book. sleep? what's that?\\n\"",
        b"study, write, study,\ndo review (each word) if time.\nclose book. sleep? what's that?\n",
    );
    accepted(b"\"\\\"", b"");
    accepted(b"\"a\\n\"", b"a\\n");
}

#[test]
fn texts_of_every_spelling() {
    accepted(b"0cx10FFFF", "\u{10FFFF}".as_bytes());
    accepted(b"0cb1000001", b"A");
    accepted(b"0co101", b"A");
    accepted(b"0cd65", b"A");
    accepted(b"\"\\\\<0cxE9>\" `\"` \"\xC3\xA9\"", b"\xC3\xA9\xC3\xA9");
    let lacking = |count| Answer::no_room(4, count);
    text_is(b"\"ab\"", 1, lacking(2), b"");
    text_is(b"\"ab\"", 2, Answer::accepted(4, 2), b"ab");
    text_is(b" a", 9, Answer::refused(9, 0), b"");
    text_is(b"\"a\"\xFF", 9, Answer::refused(3, 3), b"");
    text_is(&b"a".repeat(32_769), 9, Answer::refused(2, 0), b"");
}

/// The place is counted within the piece, and no buffer is looked at.
#[test]
fn texts_with_an_escape_out_of_range() {
    for (piece, place) in [
        (r#""\\<0cxD800>""#, 2),
        (r#""a" "\x\<0cxD800>""#, 7),
        (r#""a" "\b\<0c65>\<0cxD800>\<0cxDFFF>""#, 14),
        (r#""a\<0cxD800>" "\\<0cxDFFF>""#, 16),
        (r#""\\<0cxDFFF>" "\\<0cxD800>""#, 2),
        ("\"\"`\\\\<0cxD800>`\"\\é\\<0cx110000>\"", 19),
        (r#""\\<0c0065>\<0cb1101100000000000>""#, 11),
        (r#""\\<0co4200000>\<0c1114112>""#, 2),
        // not in quotes
        ("0cxD800", 0),
        ("0cb1101100000000000", 0),
    ] {
        for room in [0, 400] {
            text_is(piece.as_bytes(), room, Answer::refused(5, place), b"");
        }
    }
    // 9 and 3 come first
    for piece in [
        r#""\\<0cxD800>" "#,
        r#" "\\<0cxD800>""#,
        r#""\\<0cxD800>" "\\x""#,
        r#""\\<0cxD800>" "a"#,
        r#""\\<0cxD800>\x""#,
        r#"::"\\<0cxD800>""#,
    ] {
        refused_by(text, piece.as_bytes(), 9, 0);
    }
    refused_by(text, b"\"\\\\<0cxD800>\xFF\"", 3, 12);
    accepted(br#""\<0cxD800>""#, b"<0cxD800>");
    accepted(br#""a\<0cxD800>""#, br"a\<0cxD800>");
}

/// A piece that the Text call refuses with 5 is a text that the reader refuses
/// so, at the same place.
#[test]
fn texts_are_refused_as_by_the_reader() {
    let mut refused = 0;
    for sample in samples::all() {
        let call = text(sample.text, &mut []);
        if call.number == BAD_VALUE {
            refused += 1;
            for level in [1, 2] {
                assert_eq!(tree::read(level, sample.text, &mut []), call);
            }
        }
    }
    assert!(refused > 20, "{refused}");
}

#[test]
fn blobs_of_the_source() {
    accepted_by(blob, b"0xx", b"");
    accepted_by(blob, b"0xxA705E416", b"\xA7\x05\xE4\x16");
    accepted_by(blob, b"0xxA705_E416", b"\xA7\x05\xE4\x16");
    accepted_by(blob, b"0xb00101110_10001011", b"\x2E\x8B");
    accepted_by(
        blob,
        b"0xy
        TWFuIGlzIGRpc3Rpbmd1aXNoZWQsIG5vdCBvbmx5IGJ5IGhpcyByZWFzb24sIGJ1dCBieSB0aGlz
        IHNpbmd1bGFyIHBhc3Npb24gZnJvbSBvdGhlciBhbmltYWxzLCB3aGljaCBpcyBhIGx1c3Qgb2Yg
        dGhlIG1pbmQsIHRoYXQgYnkgYSBwZXJzZXZlcmFuY2Ugb2YgZGVsaWdodCBpbiB0aGUgY29udGlu
        dWVkIGFuZCBpbmRlZmF0aWdhYmxlIGdlbmVyYXRpb24gb2Yga25vd2xlZGdlLCBleGNlZWRzIHRo
        ZSBzaG9ydCB2ZWhlbWVuY2Ugb2YgYW55IGNhcm5hbCBwbGVhc3VyZS4=",
        b"Man is distinguished, not only by his reason, but by this singular passion from \
          other animals, which is a lust of the mind, that by a perseverance of delight in \
          the continued and indefatigable generation of knowledge, exceeds the short \
          vehemence of any carnal pleasure.",
    );
}

#[test]
fn bits_of_the_source() {
    let of = |digits: &str| {
        digits
            .bytes()
            .map(|digit| digit - b'0')
            .collect::<Vec<u8>>()
    };
    accepted_by(bits, b"0bb", b"");
    accepted_by(bits, b"0bb00101110100010", &of("00101110100010"));
    accepted_by(bits, b"0bb00101110_100010", &of("00101110100010"));
    accepted_by(bits, b"0bo644", &of("110100100"));
    accepted_by(bits, b"0bxA705E", &of("10100111000001011110"));
}

/// RFC 4648, section 10, in base 64 and in base 16.
#[test]
fn blobs_of_the_rfc() {
    accepted_by(blob, b"0xy", b"");
    accepted_by(blob, b"0xyZg==", b"f");
    accepted_by(blob, b"0xyZm8=", b"fo");
    accepted_by(blob, b"0xyZm9v", b"foo");
    accepted_by(blob, b"0xyZm9vYg==", b"foob");
    accepted_by(blob, b"0xyZm9vYmE=", b"fooba");
    accepted_by(blob, b"0xyZm9vYmFy", b"foobar");
    accepted_by(blob, b"0xx66", b"f");
    accepted_by(blob, b"0xx666F", b"fo");
    accepted_by(blob, b"0xx666F6F", b"foo");
    accepted_by(blob, b"0xx666F6F62", b"foob");
    accepted_by(blob, b"0xx666F6F6261", b"fooba");
    accepted_by(blob, b"0xx666F6F626172", b"foobar");
}

#[test]
fn joints_stand_for_nothing() {
    accepted_by(blob, b"0xx `FF` A7`_`05\n`=` FF", b"\xA7\x05\xFF");
    accepted_by(blob, b"0xb`1`00000001`0``1` 11111111", b"\x01\xFF");
    accepted_by(blob, b"0xy Zm9v_YmE=", b"fooba");
    accepted_by(blob, b"0xy`AAAA`Zm9v`=`Yg==", b"foob");
    accepted_by(bits, b"0bb `1`0`0`\t1_1", b"\0\x01\x01");
    accepted_by(bits, b"0bo 1`7`0", b"\0\0\x01\0\0\0");
    accepted_by(bits, b"0bx`F`8_1", b"\x01\0\0\0\0\0\0\x01");
}

#[test]
fn blobs_and_bits_that_are_refused() {
    for piece in [
        "0xy====",
        "0xyA===",
        "0xyAB==",
        "0xyAAB=",
        "0xyAA== AAAA",
        "0xyAAAA====",
        "0xyAA==_AA==",
        "0xy=AAA",
        "0xyAA=A",
    ] {
        refused_by(blob, piece.as_bytes(), 5, 0);
        refused_by(bits, piece.as_bytes(), 9, 0);
    }
    for piece in [
        "",
        "0",
        "0x",
        "0xxA",
        "0xxA7_0",
        "0xx A7 ",
        " 0xxA7",
        "0xx_A7",
        "0xxA7__05",
        "0xxA7_ 05",
        "0xxa7",
        "0xb1010_1010",
        "0xb101010102",
        "0xyAAA",
        "0xyAAA_A",
        "0xy`A`AA=",
        "0bb1",
        "0xFF",
        "\"0xx\"",
        "0xxA7`",
        "0xxA7)",
    ] {
        refused_by(blob, piece.as_bytes(), 9, 0);
    }
    for piece in [
        "0b1", "0b", "0bb2", "0bb1_", "0bb_1", "0bo8", "0bxG", "0bb1 ", "0bb``", "0bTRUE", "0xb",
    ] {
        refused_by(bits, piece.as_bytes(), 9, 0);
    }
    for (call, mark) in [(blob as Call, &b"0xx"[..]), (bits, b"0bx")] {
        refused_by(call, &[mark, b"F7\xFF"].concat(), 3, 5);
        refused_by(call, &[mark, &[b'0'; 32_766]].concat(), 2, 0);
        refused_by(call, &[mark, &[0xFF; 32_766]].concat(), 2, 0);
    }
}

#[test]
fn blobs_and_bits_without_room() {
    writes(blob, b"0xxA705FF", 2, Answer::no_room(9, 3), b"");
    let all = Answer::accepted(9, 3);
    writes(blob, b"0xxA705FF", 3, all, b"\xA7\x05\xFF");
    writes(bits, b"0bo6", 2, Answer::no_room(4, 3), b"");
    writes(bits, b"0bo6", 3, Answer::accepted(4, 3), b"\x01\x01\0");
    // a bad value comes before no room
    writes(blob, b"0xyAAAAAB==", 0, Answer::refused(5, 0), b"");
}

/// Four bits a digit, behind a mark of three bytes.
#[test]
fn the_longest_bits() {
    let piece = [b"0bx".to_vec(), vec![b'F'; 32_765]].concat();
    let mut buffer = vec![0; 4 * 32_765];
    assert_eq!(bits(&piece, &mut buffer), Answer::accepted(32_768, 131_060));
    assert!(buffer.iter().all(|&bit| bit == 1));
}
