//! The tool `muon-tool`, run as its users run it.

use std::ffi::OsStr;
use std::fs;
use std::io::Write;
use std::os::unix::ffi::OsStrExt;
use std::path::{Path, PathBuf};
use std::process::{Child, Command, Output, Stdio};

const TOOL: &str = env!("CARGO_BIN_EXE_muon-tool");
const HELP_IS: &str = "; `muon-tool --help` tells the commands\n";
/// The hint of what is no word.
const WORD: &str =
    "a word has only A to Z, a to z, 0 to 9 and _; with other characters it stands in quotes";

/// Status, standard output and standard error.
type Run = (i32, Vec<u8>, String);

fn seen(output: Output) -> Run {
    let status = output.status.code().expect("an exit status");
    let errors = String::from_utf8(output.stderr).expect("UTF-8, whatever the text");
    (status, output.stdout, errors)
}

fn tool() -> Command {
    let mut tool = Command::new(TOOL);
    tool.env_remove("COLUMNS").stdin(Stdio::null());
    tool
}

fn started(mut command: Command, stdin: &[u8]) -> Child {
    let piped = command.stdin(Stdio::piped()).stderr(Stdio::piped());
    let mut child = piped.spawn().expect("the tool starts");
    // a call that is wrong ends without reading
    let _ = child.stdin.take().expect("a pipe").write_all(stdin);
    child
}

fn run_in(mut command: Command, stdin: &[u8]) -> Run {
    command.stdout(Stdio::piped());
    seen(started(command, stdin).wait_with_output().expect("an end"))
}

fn run(words: &[&str], stdin: impl AsRef<[u8]>) -> Run {
    let mut command = tool();
    command.args(words);
    run_in(command, stdin.as_ref())
}

fn printed(words: &[&str], stdin: impl AsRef<[u8]>) -> String {
    let (status, out, errors) = run(words, stdin);
    assert_eq!((status, &*errors), (0, ""), "{words:?}");
    String::from_utf8(out).expect("UTF-8")
}

/// The report of a refusal, with nothing printed.
fn refused(words: &[&str], stdin: impl AsRef<[u8]>) -> String {
    let (status, out, errors) = run(words, stdin);
    assert_eq!((status, &*out), (1, &b""[..]), "{words:?}");
    errors
}

/// The report of a check of standard input.
fn reported(stdin: impl AsRef<[u8]>) -> String {
    refused(&["check", "-"], stdin)
}

fn failed(words: &[&str]) -> String {
    let (status, out, errors) = run(words, "");
    assert_eq!((status, &*out), (2, &b""[..]), "{words:?}");
    errors
}

/// A new directory.
fn directory(name: &str) -> PathBuf {
    let path = Path::new(env!("CARGO_TARGET_TMPDIR")).join(name);
    let _ = fs::remove_dir_all(&path);
    fs::create_dir_all(&path).expect("a directory");
    path
}

fn file(directory: &Path, name: &str, bytes: impl AsRef<[u8]>) -> String {
    let path = directory.join(name);
    fs::write(&path, bytes).expect("a file");
    path.to_str().expect("a path in UTF-8").to_string()
}

#[test]
fn lists_as_the_program_does() {
    let listing = "ok 2 3\n9 0 5 0 0 0 3\n7 1 2 0 1 2 2\n7 3 4 0 2 2 3\n";
    assert_eq!(printed(&["list", "-"], "(x:y)"), listing);
    let older = listing.replace("ok 2", "ok 1");
    assert_eq!(printed(&["list", "--level", "1", "-"], "(x:y)"), older);
    assert_eq!(printed(&["--level=1", "list", "-"], "(x:y)"), older);
    let at_end = "<stdin>:1:5: refused (6): a token in the wrong place\n(5:y,)\n    ^\n\
                  hint: a name that begins with a digit stands in quotes\n";
    assert_eq!(refused(&["list", "-"], "(5:y,)"), at_end);
    let escape = "<stdin>:1:6: refused (5): a bad value in a literal\n\
                  (x:\"\\\\<0cxD800>\")\n     ^\n";
    assert_eq!(refused(&["list", "-"], r#"(x:"\\<0cxD800>")"#), escape);
}

#[test]
fn lists_a_tree() {
    let text = "(speed : 3000,\n lamps : {left -> 0bTRUE, \"a\u{202E}b\"},\n count : 1\n2)";
    let tree = "1:1   Tuple\n\
                1:2     name Text speed\n\
                1:10    value Integer 3000\n\
                2:2     name Text lamps\n\
                2:10    value Lot\n\
                2:11      this Text left\n\
                2:19      that Boolean 0bTRUE\n\
                2:27      this Text \"a<U+202E>b\"\n\
                3:2     name Text count\n\
                3:10    value Integer 1<0A>2\n";
    assert_eq!(printed(&["list", "--tree", "-"], text), tree);
}

#[test]
fn tells_values() {
    let text = r#"(speed : 3_000, "a b" : 0bTRUE, big : 99 99999 99999 99999 99999,
 (1, - 1 / 2), name : "\a\<0cx1B>\n\q\b\<0cxE0001>é", b : 0xxA7 05, c : 0bo17, d : {k : v, w},
 e : 0sIGNORANCE, f : (Array:{x : 3, y}), g : [1 <=*< 5], h : :: a :: b, ::n : 0xb,
 p : (q -> r), i : [5], j : 0c65, k : 0bFALSE, "" : "", "7" : 0bb)"#;
    let values = r#"1:10 .speed Integer 3000
1:25 ."a b" Boolean TRUE
1:39 .big Integer out of range
2:3 [3][0] Integer 1
2:6 [3][1] Fraction -1/2
2:23 .name Text "a\u001B\n\"\\\uDB40\uDC01é"
2:59 .b Blob A705
2:73 .c Bits 001111
2:85 .d[0]:this Text "k"
2:89 .d[0]:that Text "v"
2:92 .d[1] Text "w"
3:6 .e Ignorance 0sIGNORANCE
3:31 .f[0] Text "x"
3:35 .f[0]:count Integer 3
3:38 .f[1] Text "y"
3:48 .g:low Integer 1
3:55 .g:high Integer 5
3:63 .h Nesting ::a::b
3:80 .::n Blob 
4:7 .p:this Text "q"
4:12 .p:that Text "r"
4:21 .i:single Integer 5
4:29 .j Text "A"
4:39 .k Boolean FALSE
4:53 ."" Text ""
4:63 ."7" Bits 
"#;
    // between the four fields stands a tab
    let tabbed = |line: &str| {
        let quoted = line.starts_with("1:25");
        let line = line.replacen("a b", "a\0b", usize::from(quoted));
        line.replacen(' ', "\t", 3).replace('\0', " ") + "\n"
    };
    let values: String = values.lines().map(tabbed).collect();
    assert_eq!(printed(&["values", "-"], text), values);
    let bits = "1:1\t.\tBits\t10100111000011110000111100001111\n";
    assert_eq!(printed(&["values", "-"], "0bxA70F0F0F"), bits);
    assert_eq!(printed(&["values", "-"], "5"), "1:1\t.\tInteger\t5\n");
    assert_eq!(printed(&["values", "-"], "{}"), "");
    let newer = "<stdin>:1:1: refused (7): a newer form than the level has\n[5]\n^\n\
                 hint: it is accepted with --level 2\n";
    assert_eq!(refused(&["values", "--level=1", "-"], "[5]"), newer);
}

#[test]
fn writes_forms() {
    let text = "( , x : + 0d 1_0 , ) `ten`";
    assert_eq!(printed(&["plain", "-"], text), "(x:+0d10,)");
    assert_eq!(printed(&["convert", "-"], "{ 8 <- first }"), "{first:8}");
    let arrow = "<stdin>:1:5: refused (15): a retired arrow, <-\n{ 8 <- first }\n    ^\n\
                 hint: `muon-tool convert` writes it without the arrow\n";
    assert_eq!(refused(&["plain", "-"], "{ 8 <- first }"), arrow);
    let newer = "<stdin>:1:2: refused (7): a newer form than the level has\n([b]<-a)\n ^\n\
                 hint: ";
    let report = refused(&["convert", "--level", "1", "-"], "([b]<-a)");
    assert_eq!(report, newer.trim_end_matches("hint: "));
}

#[test]
fn writes_files() {
    let directory = directory("writes_files");
    let text = file(&directory, "text", "( x : y )");
    let out = file(&directory, "out", "before");
    for (command, form) in [
        ("plain", &b"(x:y)"[..]),
        ("convert", b"(x:y)"),
        ("store", b"FNT\0\x01\0\x03\0\x09\0\x09\0\0\0\x09\0\0\0\0\0\0\0\x07\0\x02\0\x03\0\0\0\x01\0\x02\0\x07\0\x06\0\x07\0\0\0\x02\0\x02"),
    ] {
        fs::write(&out, "before").expect("a file");
        assert_eq!(printed(&[command, &text, &out], ""), "");
        assert_eq!(fs::read(&out).expect("a file"), form);
        let (status, standard, _) = run(&[command, &text, "-"], "");
        assert_eq!((status, &*standard), (0, form));
        // refused: the file stays
        fs::write(&out, "before").expect("a file");
        let report = "<stdin>:1:3: refused (6): a token in the wrong place\n(x\n  ^\n\
                      hint: the text ends here, and the ( of 1:1 is still open\n";
        assert_eq!(refused(&[command, "-", &out], "(x"), report);
        assert_eq!(fs::read(&out).expect("a file"), b"before");
        // never over the text, by whatever name
        let link = directory.join(command);
        std::os::unix::fs::symlink(&text, &link).expect("a link");
        let link = link.to_str().expect("a path in UTF-8");
        let over = format!("muon-tool: {link}: would be written over\n");
        assert_eq!(failed(&[command, &text, link]), over);
        assert_eq!(fs::read(&text).expect("a file"), b"( x : y )");
        let full = "muon-tool: /dev/full: No space left on device (os error 28)\n";
        assert_eq!(failed(&[command, &text, "/dev/full"]), full);
    }
}

#[test]
fn checks() {
    let directory = directory("checks");
    let text = file(&directory, "text", "( x : y )");
    let other = file(&directory, "other", "( x , y )");
    let (stored, arrow) = (
        directory.join("stored"),
        file(&directory, "arrow", "(b<-a)"),
    );
    let stored = stored.to_str().expect("a path in UTF-8");
    assert_eq!(
        printed(&["check", &text], ""),
        format!("{text}: ok, 3 nodes\n")
    );
    assert_eq!(printed(&["check", "-"], "x"), "<stdin>: ok, 1 node\n");
    assert_eq!(printed(&["check", "--", "-"], "x"), "<stdin>: ok, 1 node\n");
    assert_eq!(printed(&["store", &text, stored], ""), "");
    let its = format!("{stored}: ok, the stored file of {text}, 3 nodes\n");
    assert_eq!(printed(&["check", &text, stored], ""), its);
    let its = its.replace(&text, "<stdin>");
    assert_eq!(printed(&["check", "-", stored], "( x : y )"), its);
    let not = format!("{stored}: refused (14): not the file or table of the text\n");
    assert_eq!(refused(&["check", &other, stored], ""), not);
    // a text that is refused has no stored file
    let report = "<stdin>:1:1: refused (4): no token starts here\n$\n^\n";
    assert_eq!(refused(&["check", "-", stored], "$"), report);
    for (bytes, said) in [
        (&b"FNT"[..], "refused (12): not a stored file"),
        (
            b"FNT\0\x02",
            "refused (13): a stored file of another version",
        ),
        (
            b"FNT\0\x01",
            "refused (14): not the file or table of the text",
        ),
    ] {
        let said = format!("<stdin>: {said}\n");
        assert_eq!(refused(&["check", &text, "-"], bytes), said);
    }
    // stored before the arrow was retired
    let old = b"FNT\0\x01\0\x03\0\x06\0\x09\0\0\0\x06\0\0\0\0\0\0\
        \0\x07\0\x01\0\x02\0\0\0\x03\0\x02\0\x07\0\x04\0\x05\0\0\0\x01\0\x02";
    let its = format!("<stdin>: ok, the stored file of {arrow}, 3 nodes\n");
    assert_eq!(printed(&["check", &arrow, "-"], old), its);
}

#[test]
fn points_at_the_place() {
    let wrong = "refused (6): a token in the wrong place";
    let none = "refused (4): no token starts here";
    let utf8 = "refused (3): not UTF-8";
    let word = |number: &str| format!("hint: U+{number} is no letter here; {WORD}\n");
    let ends = "hint: the text ends here, and the ( of 1:1 is still open\n";
    let none_in = "hint: the text ends here, and there is no value in it\n";
    for (text, report) in [
        (&b""[..], format!("1:1: {wrong}\n\n^\n{none_in}")),
        (b"(x", format!("1:3: {wrong}\n(x\n  ^\n{ends}")),
        (b"(x\n", format!("2:1: {wrong}\n\n^\n{ends}")),
        (b"(x\r\n", format!("2:1: {wrong}\n\n^\n{ends}")),
        (b"{a,\r\n $ b,\r\nc}", format!("2:2: {none}\n $ b,\n ^\n")),
        (b"{a\r$", format!("1:4: {none}\n{{a<0D>$\n      ^\n")),
        (b"\t$", format!("1:2: {none}\n        $\n        ^\n")),
        (b"{a,\t$", format!("1:5: {none}\n{{a,     $\n        ^\n")),
        (
            "{\"caf\u{E9}\", $".as_bytes(),
            format!("1:10: {none}\n{{\"caf\u{E9}\", $\n         ^\n"),
        ),
        (
            "\"\u{6C34}\" $".as_bytes(),
            format!("1:5: {none}\n\"\u{6C34}\" $\n     ^\n"),
        ),
        (
            "\u{6C34}".as_bytes(),
            format!("1:1: {none}\n\u{6C34}\n^\n{}", word("6C34")),
        ),
        (
            "\"e\u{301}\" $".as_bytes(),
            format!("1:6: {none}\n\"e\u{301}\" $\n    ^\n"),
        ),
        // a mark stands with its character
        (
            "e\u{301}".as_bytes(),
            format!("1:2: {none}\ne\u{301}\n^\n{}", word("0301")),
        ),
        (
            "\u{301}".as_bytes(),
            format!("1:1: {none}\n<U+0301>\n^\n{}", word("0301")),
        ),
        (
            "\u{FEFF}(x".as_bytes(),
            format!(
                "1:4: {wrong}\n<U+FEFF>(x\n          ^\n{}",
                ends.replace("1:1", "1:2")
            ),
        ),
        (
            "`\u{1B}[2J\u{9B}\u{202E}\u{7F}` $".as_bytes(),
            format!(
                "1:11: {none}\n`<1B>[2J<U+009B><U+202E><7F>` $\n{:30}^\n",
                ""
            ),
        ),
        (
            b"{a,\xFF\xFE}",
            format!("1:4: {utf8}\n{{a,<FF><FE>}}\n   ^\n"),
        ),
        (
            b"\"\xC3\xA9\" \xE6\xB0",
            format!("1:5: {utf8}\n\"\u{E9}\" <E6><B0>\n    ^\n"),
        ),
        (
            b"\xFF\xFEx\0",
            format!("1:1: {utf8}\n<FF><FE>x<00>\n^\nhint: it begins as UTF-16 does\n"),
        ),
    ] {
        let shown = String::from_utf8_lossy(text);
        assert_eq!(reported(text), format!("<stdin>:{report}"), "{shown:?}");
    }
}

#[test]
fn shows_a_part_of_a_long_line() {
    let long = |before: usize, behind: usize| {
        format!("{{{}$ {}}}", "a,".repeat(before), "b,".repeat(behind))
    };
    let in_columns = |columns: &str, text: &str| {
        let mut command = tool();
        command.args(["check", "-"]).env("COLUMNS", columns);
        run_in(command, text.as_bytes()).2
    };
    let head = |column: usize| format!("<stdin>:1:{column}: refused (4): no token starts here\n");
    let middle = head(202)
        + "...a,a,a,a,a,a,a,a,a,a,a,a,a,a,a,a,a,a,$ b,b,b,b,b,b,b,b,b,b,b,b,b,b,b,b,b,b,...\n"
        + &format!("{:39}^\n", "");
    assert_eq!(reported(long(100, 100)), middle);
    for columns in ["80", "", "x", "-1"] {
        assert_eq!(in_columns(columns, &long(100, 100)), middle, "{columns}");
    }
    let narrow = head(202) + "...a,a,a,$ b,b,b,...\n         ^\n";
    for columns in ["20", "19", "0"] {
        assert_eq!(in_columns(columns, &long(100, 100)), narrow, "{columns}");
    }
    let start = head(2) + "{$ b,b,b,b,b,b...\n ^\n";
    assert_eq!(in_columns("20", &long(0, 100)), start);
    let end = head(202) + "...,a,a,a,a,a,$ }\n              ^\n";
    assert_eq!(in_columns("20", &long(100, 0)), end);
    // as wide as the terminal, and one column more
    let whole = head(18) + &long(8, 0) + "\n" + &format!("{:17}^\n", "");
    assert_eq!(in_columns("20", &long(8, 0)), whole);
    assert_eq!(in_columns("200", &long(8, 0)), whole);
    let cut = head(20) + "...,a,a,a,a,a,$ }\n              ^\n";
    assert_eq!(in_columns("20", &long(9, 0)), cut);
    // the caret of the text's end needs a column, too
    let open = |members: usize| "{".to_string() + &"a,".repeat(members);
    let wrong =
        |column: usize| format!("<stdin>:1:{column}: refused (6): a token in the wrong place\n");
    let ends = "^\nhint: the text ends here, and the { of 1:1 is still open\n";
    let fits = wrong(20) + &open(9) + "\n" + &format!("{:19}{ends}", "");
    assert_eq!(in_columns("20", &open(9)), fits);
    let cut =
        wrong(21) + "...,a,a,a,a,a,a,\n" + &format!("{:16}{ends}", "").replace("1:1 is", "1:2 is");
    assert_eq!(in_columns("20", &format!(" {}", open(9))), cut);
    let cut = wrong(22) + "...,a,a,a,a,a,a,\n" + &format!("{:16}{ends}", "");
    assert_eq!(in_columns("20", &open(10)), cut);
    // wide characters are not cut in two
    let wide = format!("\"{}\" $", "\u{6C34}".repeat(20));
    let cut = head(24) + "..." + &"\u{6C34}".repeat(5) + "\" $\n               ^\n";
    assert_eq!(in_columns("20", &wide), cut);
}

#[test]
fn says_sizes() {
    let long = "<stdin>:1:1: refused (2): longer than 32,768 bytes\n";
    assert_eq!(reported(" ".repeat(32_769)), long);
    // no more of it is read than tells that it is too long
    let endless = refused(&["check", "/dev/zero"], "");
    assert_eq!(endless, long.replace("<stdin>", "/dev/zero"));
    let most = format!("{{{}\n}}", "a,".repeat(1_023));
    assert_eq!(printed(&["check", "-"], &most), "<stdin>: ok, 1024 nodes\n");
    let more = most.replacen('a', "a,a", 1);
    let room =
        "<stdin>:2:2: refused (8): no room in the table or buffer: 1025 nodes, at most 1024\n";
    for command in ["check", "list", "plain", "convert", "values"] {
        assert_eq!(refused(&[command, "-"], &more), room, "{command}");
    }
    assert_eq!(refused(&["store", "-", "-"], &more), room);
    let deep = "<stdin>:1:33: refused (11): more than 32 brackets open at once\n";
    let report = reported("(".repeat(33));
    assert_eq!(report, format!("{deep}{}\n{:32}^\n", "(".repeat(33), ""));
}

#[test]
fn hints() {
    for (text, hint) in [
        (r#"{"abc}"#, Some("the quotation mark is not closed")),
        ("\"ab\ncd\"", Some("the line ends inside the quotes")),
        (
            "\"a\u{E9}\u{85}\"",
            Some("inside the quotes, at 1:4, stands a control character"),
        ),
        (
            "\"a`b\"",
            Some("inside the quotes, at 1:3, stands a grave accent; \\g is its escape"),
        ),
        (
            r#""\a\n\x""#,
            Some(
                r"inside the quotes, at 1:6, stands a bad escape; there are \q \g \b \t \n \r and \<0cxE9>",
            ),
        ),
        (
            r#""\\<0c65>\<65>""#,
            Some(
                r"inside the quotes, at 1:10, stands a bad escape; there are \q \g \b \t \n \r and \<0cxE9>",
            ),
        ),
        (r#""\\<0cxE9>"#, Some("the quotation mark is not closed")),
        (r#""\\<0cxD800>"#, Some("the quotation mark is not closed")),
        (r#""a\x"#, Some("the quotation mark is not closed")),
        (
            "{a `b}",
            Some("the comment is not closed by another grave accent"),
        ),
        ("# speed", Some("comments stand between grave accents")),
        ("// speed", Some("comments stand between grave accents")),
        ("'a'", Some("a Text is quoted by \"")),
        ("{0xff}", Some("hexadecimal digits are upper case")),
        ("{0xFf}", Some("hexadecimal digits are upper case")),
        ("{-0xxFFaa}", Some("hexadecimal digits are upper case")),
        ("{0xfg}", None),
        ("{5 0b}", None),
        (
            "{x 0xFF}",
            Some("perhaps a comma is missing before it; a Text with spaces stands in quotes"),
        ),
        ("$", None),
        (
            "{b<-a}",
            Some("`muon-tool convert` writes it without the arrow"),
        ),
        ("{b<-$}", None),
        ("0L", None),
    ] {
        let report = reported(text);
        let hinted = report.lines().find_map(|line| line.strip_prefix("hint: "));
        assert_eq!(hinted, hint, "{text:?}");
    }
    // what level 2 refuses, too
    let report = refused(&["check", "--level", "1", "-"], "{[5], $}");
    assert!(
        report.contains("refused (7)") && !report.contains("hint"),
        "{report}"
    );
}

#[test]
fn hints_at_mistakes() {
    let colon = "a colon stands between a name and its value";
    let outside =
        "the text is one value; settings stand in round brackets ( ), a list in braces { }";
    let both = format!("{colon}; {outside}");
    let comma = "perhaps a comma is missing before it";
    let or_space = "perhaps a comma is missing before it; a Text with spaces stands in quotes";
    let divides = "a comma divides attributes and members";
    let one = "the text is one value, which ends before this";
    let interval = "square brackets are an Interval, a list has braces { }";
    let perhaps = "perhaps it is a Text, which stands in quotes";
    let point = "a digit stands before and behind the point";
    let exponent = "there is no exponent by e: 1e3 is written 1.0*10^3";
    let boolean = "a Boolean is 0bTRUE or 0bFALSE";
    let prefix = "a prefix is lower case and hexadecimal digits are upper case, as in 0xFF";
    let line = "the line ends inside the quotes";
    let letter = format!("U+00F6 is no letter here; {WORD}");
    let head = |word: &str| {
        format!("behind ( the word {word} begins a collection; as a name it stands in quotes")
    };
    for (text, hint) in [
        ("(a = 1)", colon),
        ("(\"a\"=1,)", colon),
        ("a = 1", &both),
        ("({a}=5)", ""),
        ("=5", ""),
        ("(a:1;b:2)", divides),
        ("{1;2}", divides),
        ("(a:1);", one),
        ("a;b", outside),
        (";", ""),
        ("(a:1\n b:2)", comma),
        ("(a:1\r\n b:2)", comma),
        ("(a:1 \"b\":2)", comma),
        ("(a:\"x\"\n b:2)", comma),
        ("(a:{1}\n (b:2),)", comma),
        ("(a:{1} `x` {2},)", comma),
        ("(a:`\"` \"x\" `(`\n b:1)", comma),
        ("{\"a\" \"b\" c}", comma),
        ("(a:b\n -5,", comma),
        (
            "(a:\"x\"\n \"b\":2)",
            "perhaps a comma is missing before the quotes of 2:2",
        ),
        ("(\"a\":\"b\":2)", ""),
        ("(a b:1,)", or_space),
        ("(a:12 rpm,)", or_space),
        ("(a:b:c)", ""),
        ("(a:b->c,)", ""),
        ("(a:,)", ""),
        ("[1,2,3]", interval),
        ("[a b]", interval),
        ("{[1..2,3]}", interval),
        ("[,]", ""),
        ("[1 < 5]", ""),
        ("speed: 3000", outside),
        ("\"speed\" : 3000", outside),
        ("5, 6", outside),
        ("a b", outside),
        ("(a:1),", one),
        ("(a:1))", one),
        ("{1} {2}", one),
        (")", ""),
        ("(a:1}", "the ( of 1:1 is still open"),
        ("{\n [1)", "the [ of 2:2 is still open"),
        ("(fan-speed:1,)", WORD),
        ("(fan.speed:1,)", WORD),
        ("(fan-5:1,)", WORD),
        ("(a:user@host,)", WORD),
        ("(a:$x,)", WORD),
        ("(a:5%)", WORD),
        ("(a:+x)", WORD),
        ("(a: + x)", ""),
        ("(a:K\u{F6}ln,)", &letter),
        ("(a:\u{F6}l,)", &letter),
        (
            "(a:\u{201C}x\u{201D},)",
            "U+201C is no quotation mark; a Text is quoted by \"",
        ),
        (
            "(a:\u{2018}x\u{2019},)",
            "U+2018 is no quotation mark; a Text is quoted by \"",
        ),
        (
            "(a:\u{AB}x\u{BB},)",
            "U+00AB is no quotation mark; a Text is quoted by \"",
        ),
        ("(a:\u{A0}5,)", "U+00A0 is not taken for a space"),
        ("(a:1e3,)", exponent),
        ("(a:1.5E-3,)", exponent),
        ("(a:1_0e+3,)", exponent),
        ("(a:2em,)", perhaps),
        ("(a:3000rpm,)", perhaps),
        ("(a:22:30,)", perhaps),
        ("(a:2026-11-17,)", perhaps),
        ("(a:127.0.0.1,)", perhaps),
        ("(a:0btrue,)", boolean),
        ("(a:0BFalse,)", boolean),
        ("(a:0bTRUE1,)", ""),
        ("(a:0XFF,)", prefix),
        ("(a:0Xff,)", prefix),
        ("(a:0XGG,)", ""),
        ("(a:0xxA,)", ""),
        ("(a:.5,)", point),
        ("(a:-.5,)", point),
        ("(a:5.,)", point),
        ("(a:.x,)", WORD),
        ("(a: . ,)", ""),
        ("(a:5-.5,)", perhaps),
        ("(Set: 5,)", &head("Set")),
        ("(Set:{1},b:2)", &head("Set")),
        ("(:5)", ""),
        ("({a}:5,)", ""),
        ("({1}, b:( `x` Array `y` : 5", &head("Array")),
        ("(Relation: 5, b:1)", &head("Relation")),
        ("(1:1,)", "a name that begins with a digit stands in quotes"),
        ("(site : \"North,\n b:5)", line),
        ("(site : \"North,\r\n b:5)", line),
        ("(site : \"\\North\\n,\n b:5)", line),
        (
            "(a:\"x\ty\")",
            "inside the quotes, at 1:6, stands a control character",
        ),
        (
            "(a:\"x, b:\"y\")",
            "the quotation mark before it closes the quotes of 1:4",
        ),
        (
            "(a:1, b:[",
            "the text ends here, and the [ of 1:9 is still open",
        ),
        (
            "(a:1,\n `(` b:{\"(\", 5 `{`",
            "the text ends here, and the { of 2:8 is still open",
        ),
        (
            "(a:{1}, b:(\"\\{\"),\n",
            "the text ends here, and the ( of 1:1 is still open",
        ),
        (
            "#!(\"`\n\n {",
            "the text ends here, and the { of 3:2 is still open",
        ),
        (
            "\u{FEFF}#!{\n(",
            "the text ends here, and the ( of 2:1 is still open",
        ),
        (
            "\u{FEFF} `{`\n",
            "the text ends here, and there is no value in it",
        ),
        ("::", "the text ends here"),
        ("#!(\"`", "the text ends here, and there is no value in it"),
    ] {
        let report = reported(text);
        let hinted = report.lines().find_map(|line| line.strip_prefix("hint: "));
        assert_eq!(hinted.unwrap_or_default(), hint, "{text:?}");
        // what no hint ends is the caret's line
        assert_eq!(report.lines().count(), if hint.is_empty() { 3 } else { 4 });
    }
    // at the level that it is read at
    let report = refused(&["check", "--level=1", "-"], "(Set:5,b:1)");
    assert!(
        report.ends_with(&format!("hint: {}\n", head("Set"))),
        "{report}"
    );
    // a text that has no room for a comma is not tried
    let long = |spaces: usize| reported(format!("(a:1\n b:2)\n{}", " ".repeat(spaces)));
    let report = "<stdin>:2:2: refused (6): a token in the wrong place\n b:2)\n ^\n";
    assert_eq!(long(32_757), report);
    assert_eq!(long(32_756), format!("{report}hint: {comma}\n"));
}

#[test]
fn gets_a_value() {
    let text = r#"(speed : 3_000, on : 0bTRUE, off : 0bFALSE, big : 9_223_372_036_854_775_808,
 limits : (low : -5, high : 1/2), stops : {60, "a b"}, "a b" : "\x\n\q\<0cx1B>é", twice : 1,
 least : -9_223_372_036_854_775_808, key : 0xxA7 05, bits : 0bb101, none : 0sIGNORANCE, ::n : ::"\u",
 "twice" : 2, empty : "", r : [1..5], three : (x:1, x:2, x:3), p : (q : r), f : (Array:{x : 3}))"#;
    for (path, value) in [
        (".speed", "3000"),
        ("speed", "3000"),
        (".on", "TRUE"),
        ("off", "FALSE"),
        (".limits.low", "-5"),
        ("limits.high", "1/2"),
        (".stops[0]", "60"),
        ("stops[1]", "a b"),
        (".\"a b\"", "x\n\"\u{1B}\u{E9}"),
        ("\"a b\"", "x\n\"\u{1B}\u{E9}"),
        ("least", "-9223372036854775808"),
        ("key", "A705"),
        ("bits", "101"),
        ("none", "0sIGNORANCE"),
        (".::n", "::\"\\u\""),
        ("empty", ""),
        ("r:low", "1"),
        ("p:that", "r"),
        ("f[0]:count", "3"),
    ] {
        assert_eq!(
            printed(&["get", "-", path], text),
            format!("{value}\n"),
            "{path}"
        );
    }
    for (path, said) in [
        (".sped", " no value is at .sped"),
        ("sped", " no value is at .sped"),
        (":name", " no value is at :name"),
        ("three:name", " no value is at .three:name"),
        ("::n", " no value is at ::n"),
        (".speed[0]", " no value is at .speed[0]"),
        ("..speed", " no value is at ..speed"),
        (".\"speed\"", " no value is at .\"speed\""),
        ("stops[2]", " no value is at .stops[2]"),
        ("\u{1B}[2J", " no value is at .<1B>[2J"),
        (".", "1:1: . is a bracket, a Tuple"),
        ("limits", "2:11: .limits is a bracket, a Tuple"),
        ("stops", "2:43: .stops is a bracket, a Lot"),
        ("r", "4:31: .r is a bracket, an Interval"),
        ("p", "4:68: .p is a bracket, a Pair"),
        ("f", "4:81: .f is a bracket, an Array"),
        ("twice", "4:12: .twice is there twice"),
        ("three.x", "4:55: .three.x is there 3 times"),
        ("big", "1:51: .big is an Integer out of range"),
    ] {
        let said = format!("<stdin>:{said}\n");
        assert_eq!(refused(&["get", "-", path], text), said, "{path}");
    }
    // a part of the way that is there twice
    let text = "(a : (x : 1,),\n a : (y : 2,))";
    for path in ["a", "a.x", "a.y"] {
        let twice = "<stdin>:2:6: .a is there twice\n";
        assert_eq!(refused(&["get", "-", path], text), twice, "{path}");
    }
    assert_eq!(printed(&["get", "-", "."], "x"), "x\n");
    assert_eq!(printed(&["get", "-", "[1]"], "{5, 6}"), "6\n");
    assert_eq!(printed(&["get", "-", ":that"], "(a:1)"), "1\n");
    let report = reported("(speed : 3000,");
    assert_eq!(refused(&["get", "-", "speed"], "(speed : 3000,"), report);
    let newer = refused(&["get", "--level=1", "-", "."], "[5]");
    assert!(newer.starts_with("<stdin>:1:1: refused (7)"), "{newer}");
    let mut command = tool();
    command.args(["get", "-"]).arg(OsStr::from_bytes(b".\xFF"));
    let none = "<stdin>: no value is at .<FF>\n".to_string();
    assert_eq!(run_in(command, b"5"), (1, vec![], none));
}

/// What a command of the shell shows on a terminal of 40 columns; none if there
/// is no `script` to make one.
fn on_terminal(directory: &Path, command: &str) -> Option<String> {
    let mut script = Command::new("script");
    script.args(["-qec", &format!("stty cols 40; {command}"), "/dev/null"]);
    script
        .current_dir(directory)
        .env("TOOL", TOOL)
        .env("SHELL", "/bin/sh");
    let output = script.env_remove("COLUMNS").stdin(Stdio::null()).output();
    let shown = String::from_utf8(output.ok()?.stdout).expect("UTF-8");
    Some(shown.replace("\r\n", "\n"))
}

#[test]
fn knows_a_terminal() {
    let directory = directory("knows_a_terminal");
    file(&directory, "long", format!("{{{}$ b}}", "a,".repeat(30)));
    file(&directory, "text", r#"(site : "\\<0cx1B>[2J", speed : 5)"#);
    let head = "long:1:62: refused (4): no token starts here\n";
    let at = |columns: usize| format!("{:columns$}^\n", "");
    let part = |members: usize| format!("{head}...{}$ b}}\n", "a,".repeat(members));
    if on_terminal(&directory, "tty >/dev/null && echo yes").as_deref() != Some("yes\n") {
        eprintln!("skipped: there is no `script` that makes a terminal");
        return;
    }
    let shown = on_terminal(&directory, "\"$TOOL\" check long");
    assert_eq!(shown, Some(part(15) + &at(33)));
    let told = on_terminal(&directory, "COLUMNS=50 \"$TOOL\" check long");
    assert_eq!(told, Some(part(20) + &at(43)));
    let untold = on_terminal(&directory, "COLUMNS= \"$TOOL\" check long");
    assert_eq!(untold, Some(part(15) + &at(33)));
    let unknown = on_terminal(&directory, "stty cols 0; \"$TOOL\" check long");
    assert_eq!(
        unknown,
        Some(format!("{head}{{{}$ b}}\n{}", "a,".repeat(30), at(61)))
    );
    // nothing of a file steers it
    let text = on_terminal(&directory, "\"$TOOL\" get text site");
    assert_eq!(text.as_deref(), Some("\"\\u001B[2J\"\n"));
    let raw = on_terminal(&directory, "\"$TOOL\" get text site | wc -c | tr -d ' '");
    assert_eq!(raw.as_deref(), Some("5\n"));
    let number = on_terminal(&directory, "\"$TOOL\" get text speed");
    assert_eq!(number.as_deref(), Some("5\n"));
}

#[test]
fn refuses_wrong_calls() {
    for (words, reason) in [
        (&[][..], "no command"),
        (&["--"], "no command"),
        (&["lst", "x"], "unknown command `lst`"),
        (&["--", "--help"], "unknown command `--help`"),
        (&["\u{1B}[2J"], "unknown command `<1B>[2J`"),
        (&["list"], "list needs a FILE"),
        (&["values"], "values needs a FILE"),
        (&["get"], "get needs a FILE"),
        (&["get", "x"], "get needs a PATH"),
        (&["get", "x", ""], "get needs a PATH"),
        (&["get", "x", "y", "z"], "get takes no further operand `z`"),
        (&["check"], "check needs a FILE"),
        (&["store", "x"], "store needs a STORED"),
        (&["list", "x", "y"], "list takes no further operand `y`"),
        (&["values", "x", "y"], "values takes no further operand `y`"),
        (
            &["plain", "x", "y", "z"],
            "plain takes no further operand `z`",
        ),
        (
            &["check", "x", "y", "z"],
            "check takes no further operand `z`",
        ),
        (&["list", "-x", "y"], "unknown option `-x`"),
        (&["list", "--levels=1", "y"], "unknown option `--levels=1`"),
        (&["list", "--tree=1", "y"], "unknown option `--tree=1`"),
        (&["list", "--level", "3", "y"], "--level takes 1 or 2"),
        (&["list", "--level=", "y"], "--level takes 1 or 2"),
        (&["list", "--level=01", "y"], "--level takes 1 or 2"),
        (&["list", "y", "--level"], "--level takes 1 or 2"),
        (
            &["list", "--level=1", "--level=1", "y"],
            "--level is given twice",
        ),
        (
            &["plain", "--tree", "y"],
            "--tree is an option of list only",
        ),
        (
            &["store", "--level=2", "x", "y"],
            "store takes no --level, its level is 2",
        ),
        (
            &["check", "--level=2", "x", "y"],
            "check FILE STORED takes no --level, its level is 2",
        ),
        (
            &["check", "-", "-"],
            "standard input cannot be both FILE and STORED",
        ),
    ] {
        assert_eq!(failed(words), format!("muon-tool: {reason}{HELP_IS}"));
    }
    let mut command = tool();
    command.arg(OsStr::from_bytes(b"\xFF"));
    let not_utf8 = format!("muon-tool: unknown command `<FF>`{HELP_IS}");
    assert_eq!(run_in(command, b""), (2, vec![], not_utf8));
}

#[test]
fn fails_on_files() {
    let directory = directory("fails_on_files");
    let path = directory.to_str().expect("a path in UTF-8");
    let missing = format!("{path}/missing");
    let text = file(&directory, "text", "x");
    let none = "No such file or directory (os error 2)";
    for command in ["list", "values", "plain", "convert", "check"] {
        assert_eq!(
            failed(&[command, &missing]),
            format!("muon-tool: {missing}: {none}\n")
        );
        let is = format!("muon-tool: {path}: Is a directory (os error 21)\n");
        assert_eq!(failed(&[command, path]), is);
    }
    assert_eq!(
        failed(&["get", &missing, "x"]),
        format!("muon-tool: {missing}: {none}\n")
    );
    assert_eq!(
        failed(&["check", &text, &missing]),
        format!("muon-tool: {missing}: {none}\n")
    );
    let deep = format!("{missing}/out");
    assert_eq!(
        failed(&["plain", &text, &deep]),
        format!("muon-tool: {deep}: {none}\n")
    );
    let strange = format!("{path}/a\u{1B}b");
    let shown = format!("{path}/a<1B>b");
    assert_eq!(
        failed(&["check", &strange]),
        format!("muon-tool: {shown}: {none}\n")
    );
}

#[test]
fn fails_on_standard_output() {
    let directory = directory("fails_on_standard_output");
    let text = file(&directory, "text", "(x:y)");
    for words in [
        &["list", "-"][..],
        &["plain", "-"],
        &["get", "-", ":that"],
        &["check", "-"],
        &["--help"],
        &["--version"],
    ] {
        let mut command = tool();
        let full = fs::File::create("/dev/full").expect("a device");
        command.args(words).stdout(full);
        let (status, _, errors) = seen(
            started(command, b"(x:y)")
                .wait_with_output()
                .expect("an end"),
        );
        let said = "muon-tool: standard output: No space left on device (os error 28)\n";
        assert_eq!((status, &*errors), (2, said), "{words:?}");
    }
    // a pipe that nobody reads: the text comes after its end is gone
    let mut command = tool();
    command
        .args(["list", "-"])
        .stdin(Stdio::piped())
        .stdout(Stdio::piped());
    let mut child = command
        .stderr(Stdio::piped())
        .spawn()
        .expect("the tool starts");
    drop(child.stdout.take());
    child
        .stdin
        .take()
        .expect("a pipe")
        .write_all(b"(x:y)")
        .expect("a reader");
    let (status, _, errors) = seen(child.wait_with_output().expect("an end"));
    assert_eq!((status, &*errors), (2, ""));
    // standard output is what is read
    let stored = file(&directory, "stored", "FNT");
    for (words, read) in [
        (&["plain", &*text][..], &*text),
        (&["list", &text], &text),
        (&["get", &text, ":that"], &text),
        (&["check", &text], &text),
        (&["check", &text, &stored], &text),
        (&["check", &text, &stored], &stored),
    ] {
        let before = fs::read(read).expect("a file");
        let itself = fs::OpenOptions::new()
            .append(true)
            .open(read)
            .expect("a file");
        let mut command = tool();
        command.args(words).stdout(itself);
        let (status, _, errors) = seen(started(command, b"").wait_with_output().expect("an end"));
        let said = "muon-tool: standard output: would be written over\n";
        assert_eq!((status, &*errors), (2, said), "{words:?}");
        assert_eq!(fs::read(read).expect("a file"), before);
    }
}

#[test]
fn helps() {
    let help = printed(&["--help"], "");
    for command in [
        "check", "list", "values", "get", "plain", "convert", "store",
    ] {
        let has = help
            .lines()
            .any(|line| line.starts_with(&format!("  {command} ")));
        assert!(has, "{command}");
    }
    for option in ["--level", "--tree", "-h, --help", "--version", "muon(1)"] {
        assert!(help.contains(option), "{option}");
    }
    assert!(help.lines().all(|line| line.len() <= 80));
    assert_eq!(printed(&["list", "--help"], ""), help);
    assert_eq!(printed(&["-h"], ""), help);
    assert_eq!(printed(&["--version"], ""), "muon-tool 0.2.0\n");
}

/// The example that follows a line of the manual, as a terminal shows it.
fn example(manual: &str, line: &str) -> String {
    let behind = manual.split_once(line).expect("the line").1;
    let example = behind.split_once(".EX\n").expect("an example").1;
    let example = example.split_once(".EE\n").expect("its end").0;
    let shown = [("\\(ga", "`"), ("\\(aq", "'"), ("\\-", "-"), ("\\e", "\\")];
    shown
        .iter()
        .fold(example.to_string(), |example, (escape, sign)| {
            example.replace(escape, sign)
        })
}

#[test]
fn is_as_the_manual_says() {
    let manual = concat!(env!("CARGO_MANIFEST_DIR"), "/../docs/man/muon.1");
    let manual = fs::read_to_string(manual).expect("the manual");
    let language = example(&manual, ".SH LANGUAGE\n");
    let values = [
        ("speed", "3000"),
        ("ratio", "0.75"),
        ("on", "TRUE"),
        ("mode", "night_shift"),
        ("site", "North field, row 7"),
        ("notice", "Stand clear.\nPump starts by itself."),
        ("stops[1]", "120"),
        ("retry.pause", "1500"),
        ("key", "A705"),
    ];
    for (path, value) in values {
        let value = format!("{value}\n");
        assert_eq!(printed(&["get", "-", path], &language), value, "{path}");
    }
    let count = printed(&["values", "-"], &language).lines().count();
    // of stops and retry one is asked for
    assert_eq!(count, values.len() + 2);
    let broken = example(&manual, "A text that is broken off:\n");
    let (_, report) = broken.split_once('\n').expect("the command's line");
    assert_eq!(reported("(speed : 3000,"), report);
}

#[test]
fn stops_a_script() {
    let directory = directory("stops_a_script");
    file(&directory, "good.muon", "(speed:3000,)");
    file(&directory, "bad.muon", "(speed:3000,");
    let script = |script: &str| {
        let mut shell = Command::new("sh");
        shell
            .args(["-c", script])
            .env("TOOL", TOOL)
            .env_remove("COLUMNS");
        shell.current_dir(&directory).stdin(Stdio::null());
        seen(shell.output().expect("a shell"))
    };
    let start = |file: &str| script(&format!("\"$TOOL\" check {file} && echo start"));
    let ok = "good.muon: ok, 3 nodes\nstart\n";
    assert_eq!(start("good.muon"), (0, ok.into(), String::new()));
    let report = "bad.muon:1:13: refused (6): a token in the wrong place\n\
                  (speed:3000,\n            ^\nhint: the text ends here, and the ( of 1:1 is still open\n";
    assert_eq!(start("bad.muon"), (1, vec![], report.to_string()));
    assert_eq!(start("none.muon").0, 2);
    // a value, and its status
    let get = |file: &str, path: &str| {
        script(&format!(
            "v=$(\"$TOOL\" get {file} {path}) && echo \"<$v>\""
        ))
    };
    assert_eq!(
        get("good.muon", "speed"),
        (0, b"<3000>\n".into(), String::new())
    );
    assert_eq!(get("bad.muon", "speed"), (1, vec![], report.to_string()));
    let none = "good.muon: no value is at .sped\n".to_string();
    assert_eq!(get("good.muon", "sped"), (1, vec![], none));
    // nobody to be told: the status remains
    for to in ["2>/dev/full", "2>&-", ">&- 2>&-"] {
        let quiet = script(&format!("\"$TOOL\" check bad.muon {to}"));
        assert_eq!(quiet, (1, vec![], String::new()), "{to}");
    }
}
