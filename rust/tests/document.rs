//! Documents: readings, lookups by name, values, and what refusals tell.

use muon::{
    Answer, Branch, Detail, Document, Error, IntervalForm, Kind, Lookup, LookupReason, Refusal,
    Role, TextForm, NAME_MAX, NODE_WORDS, TABLE_MAX,
};

/// What is found of a text that is accepted at level 2.
fn with<T>(text: &str, find: impl FnOnce(Document) -> T) -> T {
    let mut table = [0; TABLE_MAX];
    find(Document::read(2, text.as_bytes(), &mut table).expect("a good text"))
}

fn refused(level: u32, text: &[u8], words: usize) -> Error {
    let mut table = vec![0; words];
    Document::read(level, text, &mut table).expect_err("a refused text")
}

/// The reading's words and no more, however long the table is.
#[test]
fn a_document_is_the_reading() {
    let text = b"(x : {1, 2}, on : 0bTRUE)";
    let mut words = vec![0; TABLE_MAX];
    let answer = muon::read(2, text, &mut words);
    words.truncate(answer.count * NODE_WORDS);
    for more in [0, 1, 7, 8_000] {
        let mut table = vec![77; words.len() + more];
        let document = Document::read(2, text, &mut table).expect("a good text");
        assert_eq!((document.level(), document.text()), (2, &text[..]));
        assert_eq!(document.words(), words);
        assert_eq!(document.nodes().len(), answer.count);
    }
    let error = refused(2, text, words.len() - 1);
    assert_eq!(
        (error.refusal, error.count),
        (Refusal::NoRoom, answer.count)
    );
}

/// A text of every kind, as rustdoc shows it.
#[test]
fn kinds() {
    for (text, kind) in [
        ("0sIGNORANCE", Kind::Ignorance),
        ("0bFALSE", Kind::Boolean),
        ("29 56", Kind::Integer),
        ("-0xFF", Kind::Integer),
        ("1.5", Kind::Fraction),
        ("1/2", Kind::Fraction),
        ("-1.5*2^3", Kind::Fraction),
        ("0bb101", Kind::Bits),
        ("0bo17", Kind::Bits),
        ("0bxA", Kind::Bits),
        ("0xxA705", Kind::Blob),
        ("0xyAQ==", Kind::Blob),
        ("word", Kind::Text),
        ("::a::b", Kind::Nesting),
        ("(a:b)", Kind::Pair),
        ("(a->b)", Kind::Pair),
        ("(a:b,)", Kind::Tuple),
        ("(a:b,c)", Kind::Tuple),
        ("()", Kind::Tuple),
        ("{a,b:c}", Kind::Lot),
        ("(Array:{a,b})", Kind::Array),
        ("(Set:{a,b})", Kind::Set),
        ("(Bag:{a,b:2})", Kind::Bag),
        ("[a..b]", Kind::Interval),
    ] {
        with(text, |document| {
            let root = document.root();
            assert_eq!((root.kind(), root.role()), (kind, Role::Root), "{text}");
            assert_eq!(root.bytes(), text.as_bytes());
        });
    }
}

#[test]
fn roles() {
    for (text, roles) in [
        ("(a:b)", &[Role::This, Role::ThatAfter][..]),
        ("{a->b,c}", &[Role::This, Role::ThatAfter, Role::This]),
        ("(a:b,c)", &[Role::Name, Role::Value, Role::Value]),
        ("(Bag:{a:2})", &[Role::Value, Role::Count]),
        ("[a..b]", &[Role::Low, Role::High]),
        ("[v]", &[Role::Single]),
    ] {
        let found: Vec<Role> = with(text, |document| {
            document.root().children().map(|one| one.role()).collect()
        });
        assert_eq!(found, roles, "{text}");
    }
}

#[test]
fn details() {
    let forms = IntervalForm::ALL.map(|form| (form.to_string(), Detail::Interval(form)));
    let others = [
        ("0bFALSE", Detail::Boolean(false)),
        ("0bTRUE", Detail::Boolean(true)),
        ("\"a\"", Detail::Text(TextForm::Quoted)),
        ("a", Detail::Text(TextForm::Word)),
        ("0c65", Detail::Text(TextForm::CodePoint)),
        ("5", Detail::None),
        ("{}", Detail::None),
    ];
    let others = others.map(|(text, detail)| (text.to_string(), detail));
    for (text, detail) in forms.into_iter().chain(others) {
        with(&text, |document| {
            let root = document.root();
            assert_eq!(root.detail(), detail, "{text}");
            assert_eq!(root.node().detail, detail.number(), "{text}");
        });
    }
}

/// The bytes of what is found by a name.
fn found<'n>(text: &str, name: &'n str) -> Result<String, Lookup<'n>> {
    let shown = |branch: Branch| text[branch.span()].to_string();
    with(text, |document| document.root().get(name).map(shown))
}

#[test]
fn names() {
    let text = r#"(speed : 1, "spe" "ed 2" : 2, 0c65 : 3, ::n : 4, "\caf\<0cxE9>" : 5,
 "" : {6}, loose)"#;
    for (name, value) in [
        ("speed", "1"),
        ("speed 2", "2"),
        ("A", "3"),
        ("café", "5"),
        ("", "{6}"),
    ] {
        assert_eq!(found(text, name).as_deref(), Ok(value), "{name}");
    }
    for name in ["spee", "speeds", "Speed", "n", "::n", "loose", "caf", "1"] {
        let missing = found(text, name).expect_err(name);
        assert_eq!(
            (missing.name, missing.reason),
            (name, LookupReason::Missing)
        );
        let shown = format!("1:1: no attribute has the name \"{name}\"");
        assert_eq!(missing.to_string(), shown);
    }
}

#[test]
fn repeated_names() {
    for text in ["(x : 1,\n x : 2)", "(x : 1,\n \"x\" : 2, x : 3)"] {
        let repeated = found(text, "x").expect_err("two of them");
        assert_eq!(
            (repeated.name, repeated.reason),
            ("x", LookupReason::Repeated)
        );
        let shown = "2:2: a second attribute has the name \"x\"";
        assert_eq!(repeated.to_string(), shown);
    }
}

/// Only a Tuple has attributes: `(x:1)` is a Pair.
#[test]
fn names_in_another_kind() {
    for (text, kind) in [
        ("\n (x:1)", Kind::Pair),
        ("\n {x:1}", Kind::Lot),
        ("\n (Bag:{x:1})", Kind::Bag),
        ("\n x", Kind::Text),
    ] {
        let lookup = found(text, "x").expect_err(text);
        let reason = LookupReason::NotATuple(kind);
        assert_eq!((lookup.name, lookup.reason), ("x", reason));
        let shown = "no attribute has the name \"x\": the kind is";
        let rest = "and only a Tuple has attributes";
        assert_eq!(lookup.to_string(), format!("2:2: {shown} {kind}, {rest}"));
    }
}

/// The Tuple that is asked, which need not be the root.
#[test]
fn names_further_down() {
    let text = "(speed : 1,\n limits : (low : 2, high : 3))";
    with(text, |document| {
        let limits = document.root().get("limits").expect("a Tuple");
        assert_eq!(limits.get("high").expect("a limit").integer(), Ok(3));
        let missing = limits.get("speed").expect_err("above");
        let shown = "2:11: no attribute has the name \"speed\"";
        assert_eq!(missing.to_string(), shown);
    });
}

/// By `?`, if the name is a literal, and to another thread, too.
#[test]
fn errors_are_handed_on() {
    type Handed = Box<dyn std::error::Error + Send + Sync>;
    fn speed(text: &[u8]) -> Result<i64, Handed> {
        let mut table = [0; TABLE_MAX];
        let root = Document::read(2, text, &mut table)?.root();
        Ok(root.get("speed")?.integer()?)
    }
    assert_eq!(speed(b"(speed : 3_000,)").expect("a speed"), 3000);
    let error = speed(b"(\nspeed : 1, speed : 2)").expect_err("two of them");
    let lookup = error.downcast_ref::<Lookup>().expect("a lookup");
    assert_eq!(lookup.reason, LookupReason::Repeated);
    assert_eq!((lookup.position.line, lookup.position.column), (2, 12));
    let error = speed(b"(speed : fast,)").expect_err("a Text");
    let error = error.downcast_ref::<Error>().expect("a refusal");
    assert_eq!(error.refusal, Refusal::NotTheLiteral);
}

#[test]
fn unknown_names() {
    let long = "a".repeat(NAME_MAX + 1);
    let known = ["speed", "café", "", &long];
    let repeated = format!("(speed : 1, {long} : 2)");
    for (text, unknown) in [
        ("()", None),
        ("(speed : 1,)", None),
        // however it is written, in any order, and as often as it is there
        (r#"("" : 1, "\caf\<0cxE9>" : 2, "spe" "ed" : 3)"#, None),
        ("(speed : 1, speed : 2)", None),
        // what is further down is not looked at
        ("(speed : (sped : 1, 2),)", None),
        ("(speed : 1, sped : 2, spee : 3)", Some("sped")),
        ("(Speed : 1,)", Some("Speed")),
        ("(\"speed \" : 1,)", Some("\"speed \"")),
        ("(speed : 3,000)", Some("000")),
        ("(speed,)", Some("speed")),
        (
            "(speed : 1, (sped : 2, site : 3))",
            Some("(sped : 2, site : 3)"),
        ),
        ("(speed : 1, ::speed : 2)", Some("::speed")),
        // longer than a name that is found
        (&repeated, Some(&long)),
        // no Tuple
        ("(speed : 1)", Some("(speed : 1)")),
        ("{speed : 1, \"\" : 2}", Some("{speed : 1, \"\" : 2}")),
        ("speed", Some("speed")),
    ] {
        with(text, |document| {
            let branch = document.root().unknown(&known);
            let bytes = branch.map(|branch| branch.bytes());
            assert_eq!(bytes, unknown.map(str::as_bytes), "{text}");
        });
    }
    let place = |text| {
        with(text, |document| {
            document.root().unknown(&[]).map(|one| one.span())
        })
    };
    assert_eq!(
        [place("()"), place("(x : x,)"), place("(x, x)")],
        [None, Some(1..2), Some(1..2)]
    );
}

/// What would steer a terminal is not sent to it.
#[test]
fn strange_names() {
    let missing = found("()", "a \"\u{1B}[2J").expect_err("no attribute");
    assert_eq!(
        missing.to_string(),
        r#"1:1: no attribute has the name "a \"\u{1b}[2J""#
    );
}

#[test]
fn the_longest_name() {
    for (length, is_found) in [(NAME_MAX, true), (NAME_MAX + 1, false)] {
        let name = "a".repeat(length);
        let text = format!("({name} : 1,)");
        assert_eq!(found(&text, &name).is_ok(), is_found, "{length}");
    }
}

#[test]
fn values() {
    let text =
        r#"(i : -0x F_F, t : "a" "\\n", b : 0xyTWE=, s : 0bo17, on : 0bTRUE, off : 0bFALSE)"#;
    with(text, |document| {
        let of = |name| document.root().get(name).expect(name);
        let mut buffer = [0xA5; 40];
        assert_eq!(of("i").integer(), Ok(-255));
        assert_eq!(of("t").text(&mut buffer), Ok("a\n"));
        assert_eq!(of("b").blob(&mut buffer), Ok(&b"Ma"[..]));
        assert_eq!(of("s").bits(&mut buffer), Ok(&[0, 0, 1, 1, 1, 1][..]));
        assert_eq!(of("on").boolean(), Ok(true));
        assert_eq!(of("off").boolean(), Ok(false));
    });
}

#[cfg(feature = "alloc")]
#[test]
fn owned_values() {
    let text = r#"(t : "\\<0cx1F600>", b : 0xxA705, s : 0bxF_F, n : "", ::x : 5)"#;
    with(text, |document| {
        let of = |name| document.root().get(name).expect(name);
        assert_eq!(of("t").to_text(), Ok("\u{1F600}".to_string()));
        assert_eq!(of("n").to_text(), Ok(String::new()));
        assert_eq!(of("b").to_blob(), Ok(vec![0xA7, 0x05]));
        assert_eq!(of("s").to_bits(), Ok(vec![1; 8]));
        let not = of("t").to_blob().expect_err("a Text");
        assert_eq!(not.refusal, Refusal::NotTheLiteral);
    });
}

/// Of another kind than asked for, at the node's own place.
#[test]
fn values_of_another_kind() {
    let text = "{TRUE,\n 5,\n 1.5, 0xxA7, 0bb1, ::a, {}, (a:b), [], 0sIGNORANCE, 0bTRUE}";
    with(text, |document| {
        for branch in document.root().children() {
            let mut buffer = [0; 40];
            let outcomes = [
                (Kind::Boolean, branch.boolean().err()),
                (Kind::Integer, branch.integer().err()),
                (Kind::Text, branch.text(&mut buffer).err()),
                (Kind::Blob, branch.blob(&mut buffer).err()),
                (Kind::Bits, branch.bits(&mut buffer).err()),
            ];
            for (kind, error) in outcomes {
                let told = error.map(|error| (error.refusal, error.place, error.position));
                let other = (
                    Refusal::NotTheLiteral,
                    branch.span().start,
                    branch.position(),
                );
                let expected = (branch.kind() != kind).then_some(other);
                assert_eq!(told, expected, "{kind} of {}", branch.kind());
            }
        }
    });
}

#[test]
fn what_is_refused_of_a_value_stands_in_the_text() {
    let text = "(big : 99999999999999999999,\n name : \"four\")";
    with(text, |document| {
        let of = |name| document.root().get(name).expect(name);
        let error = of("big").integer().expect_err("no i64");
        assert_eq!(
            error.to_string(),
            "1:8: refused (10): an Integer out of range"
        );
        let error = of("name").text(&mut [0; 3]).expect_err("too short");
        // behind the literal, as the call has it
        assert_eq!((error.place, error.count), (43, 4));
        assert_eq!(
            error.to_string(),
            "2:15: refused (8): no room in the table or buffer, 4 needed"
        );
    });
}

#[test]
fn what_an_error_tells() {
    for (level, text, shown) in [
        (3, &b"5"[..], "1:1: refused (1): a level other than 1 and 2"),
        (2, b"\xFF", "1:1: refused (3): not UTF-8"),
        (
            2,
            "{ \"é\",\n  \"ü\" : $".as_bytes(),
            "2:9: refused (4): no token starts here",
        ),
        (
            2,
            b"(a,\n\n  ,b)",
            "3:3: refused (6): a token in the wrong place",
        ),
        (2, b"", "1:1: refused (6): a token in the wrong place"),
        (
            1,
            b"\n[5]",
            "2:1: refused (7): a newer form than the level has",
        ),
        (2, b"(b<-a)", "1:3: refused (15): a retired arrow, <-"),
        (
            2,
            b"{1,2}",
            "1:6: refused (8): no room in the table or buffer, 3 needed",
        ),
    ] {
        let error = refused(level, text, 14);
        assert_eq!(error.to_string(), shown);
        let answer = muon::read(level, text, &mut [0; 14]);
        assert_eq!(answer.accepted_in(text), Err(error));
        assert_eq!((answer.place, answer.count), (error.place, error.count));
        assert_eq!(answer.refusal(), Some(error.refusal));
    }
    let too_long = refused(2, &vec![b'\n'; muon::TEXT_MAX + 1], 14);
    assert_eq!(
        too_long.to_string(),
        "1:1: refused (2): longer than 32,768 bytes"
    );
}

/// A number that no call answers is not taken for accepted.
#[test]
#[should_panic(expected = "the number of a refusal")]
fn no_number_of_a_refusal() {
    let answer = Answer {
        number: 16,
        place: 0,
        count: 0,
    };
    let _ = answer.accepted();
}

#[test]
fn the_plain_form() {
    with("( x : 1_0 , )", |document| {
        assert_eq!(document.plain(&mut [0; 26]), Ok(&b"(x:10,)"[..]));
        let error = document.plain(&mut [0; 6]).expect_err("too short");
        assert_eq!((error.refusal, error.count), (Refusal::NoRoom, 7));
    });
}
