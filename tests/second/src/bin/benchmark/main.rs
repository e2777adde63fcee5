//! The proved library and the second program on the same texts and pieces.
//!
//! `benchmark times` prints bytes per second.  `benchmark readings` makes
//! each call once, in `counted`, and prints a line for it: shape, size, whose
//! it is; of a walk over the nodes, by what it goes.  `tests/benchmark` runs that under callgrind, which counts the
//! instructions of each call.

mod inputs;

use inputs::{
    grouped, Shape, BAD_ESCAPE_SHAPES, BAD_TEXT_SHAPES, BITS_SHAPES, BLOB_SHAPES, CHECK_SHAPES,
    CONVERT_SHAPES, ESCAPE_SHAPES, PLAIN_SHAPES, POSITION_SHAPES, SHAPES, SIZES, TEXT_SHAPES,
    UTF8_SHAPES, WALK_SHAPES, WRITE_SHAPES,
};
use second::answer::{BAD_VALUE, DEPTH_MAX, SKIP};
use second::generate::long_shapes;
use second::position::position;
use second::{file, plain, tree, utf8, value};
use std::hint::black_box;
use std::iter::successors;
use std::process::ExitCode;
use std::time::{Duration, Instant};

const LEVEL: u32 = 2;
/// A call is timed for so long; the fastest of its rounds counts.
const LONG_ENOUGH: Duration = Duration::from_millis(200);

/// What is lent to the calls: the longest table, the longest buffer, and what
/// was read of the text, as a table and as a stored file.
struct Lent {
    table: [u32; muon::TABLE_MAX],
    buffer: [u8; muon::BITS_MAX],
    read: Vec<u32>,
    /// The nodes in it.
    count: usize,
    stored: Vec<u8>,
}

impl Lent {
    /// For a text; one that is refused needs neither table nor file.
    fn new(text: &[u8]) -> Lent {
        let mut read = vec![0; muon::TABLE_MAX];
        let count = muon::read(LEVEL, text, &mut read).count;
        Lent {
            read,
            count,
            table: [0; muon::TABLE_MAX],
            buffer: [0; muon::BITS_MAX],
            stored: muon::file::to_vec(text).unwrap_or_default(),
        }
    }
}

/// The answer's number.
type Call = fn(&[u8], &mut Lent) -> u32;

/// The same call of both.
type Calls = [(&'static str, Call); 2];

const READ: Calls = [
    ("proved", |text, lent| {
        muon::read(LEVEL, text, &mut lent.table).number
    }),
    ("second", |text, lent| {
        tree::read(LEVEL, text, &mut lent.table).number
    }),
];
const TEXT: Calls = [
    ("proved", |piece, lent| {
        muon::text(piece, &mut lent.buffer).number
    }),
    ("second", |piece, lent| {
        value::text(piece, &mut lent.buffer).number
    }),
];
const BLOB: Calls = [
    ("proved", |piece, lent| {
        muon::blob(piece, &mut lent.buffer).number
    }),
    ("second", |piece, lent| {
        value::blob(piece, &mut lent.buffer).number
    }),
];
const BITS: Calls = [
    ("proved", |piece, lent| {
        muon::bits(piece, &mut lent.buffer).number
    }),
    ("second", |piece, lent| {
        value::bits(piece, &mut lent.buffer).number
    }),
];
const WRITE: Calls = [
    ("proved", |text, lent| {
        muon::file::write(text, &mut lent.buffer).number
    }),
    ("second", |text, lent| {
        file::write(text, &mut lent.buffer).number
    }),
];
const CHECK: Calls = [
    ("proved", |text, lent| {
        muon::file::check(text, &lent.stored).number
    }),
    ("second", |text, lent| {
        file::check(text, &lent.stored).number
    }),
];
const PLAIN: Calls = [
    ("proved", |text, lent| {
        muon::plain::write(LEVEL, text, &lent.read, &mut lent.buffer).number
    }),
    ("second", |text, lent| {
        plain::write(LEVEL, text, &lent.read, &mut lent.buffer).number
    }),
];
const CONVERT: Calls = [
    ("proved", |text, lent| {
        muon::convert::write(LEVEL, text, &mut lent.buffer).number
    }),
    ("second", |text, lent| {
        plain::convert(LEVEL, text, &mut lent.buffer).number
    }),
];
/// To the last child of the root: past every branch by its skip, or from node to
/// node by the parents.
const WALK: Calls = [
    ("skips", |_, lent| {
        let skip = |child: &usize| lent.read[muon::NODE_WORDS * child + SKIP] as usize;
        let children = successors((lent.count > 1).then_some(1), |child| {
            Some(skip(child)).filter(|next| *next < lent.count)
        });
        u32::from(black_box(children.last()).is_none())
    }),
    ("parents", |_, lent| {
        let nodes = muon::nodes(&lent.read, lent.count);
        let last = nodes.filter(|node| node.parent == 0).last();
        u32::from(black_box(last).is_none())
    }),
];
const UTF8: Calls = [
    ("proved", |text, _| muon::utf8(text).number),
    ("second", |text, _| utf8::test(text).number),
];

/// Of the text's end.
const POSITION: Calls = [
    ("proved", |text, _| {
        black_box(muon::line_column(text, text.len()));
        0
    }),
    ("second", |text, _| {
        black_box(position(text, text.len()));
        0
    }),
];

/// A shape, what it is given to, and the number that is answered.
#[derive(Clone, Copy)]
struct Case {
    name: &'static str,
    shape: Shape,
    calls: Calls,
    number: u32,
}

fn cases() -> Vec<Case> {
    let answered = |shapes: &[(&'static str, Shape)], calls: Calls, number: u32| {
        let given = |&(name, shape): &(&'static str, Shape)| Case {
            name,
            shape,
            calls,
            number,
        };
        shapes.iter().map(given).collect::<Vec<_>>()
    };
    let with = |shapes: &[(&'static str, Shape)], calls| answered(shapes, calls, 0);
    [
        with(&SHAPES, READ),
        with(&ESCAPE_SHAPES, READ),
        answered(&BAD_ESCAPE_SHAPES, READ, BAD_VALUE),
        with(&TEXT_SHAPES, TEXT),
        answered(&BAD_TEXT_SHAPES, TEXT, BAD_VALUE),
        with(&BLOB_SHAPES, BLOB),
        with(&BITS_SHAPES, BITS),
        with(&WRITE_SHAPES, WRITE),
        with(&CHECK_SHAPES, CHECK),
        with(&PLAIN_SHAPES, PLAIN),
        with(&CONVERT_SHAPES, CONVERT),
        with(&UTF8_SHAPES, UTF8),
        with(&POSITION_SHAPES, POSITION),
        with(&WALK_SHAPES, WALK),
    ]
    .concat()
}

fn bytes_per_second(call: Call, text: &[u8]) -> f64 {
    let mut lent = Lent::new(text);
    let times = 1 + 65_536 / text.len();
    let begin = Instant::now();
    let mut best = Duration::MAX;
    while begin.elapsed() < LONG_ENOUGH {
        let start = Instant::now();
        for _ in 0..times {
            black_box(call(black_box(text), black_box(&mut lent)));
        }
        best = best.min(start.elapsed());
    }
    (text.len() * times) as f64 / best.as_secs_f64()
}

fn times() {
    for case in cases() {
        for size in SIZES {
            let text = (case.shape)(size);
            let speed = |(_, call)| bytes_per_second(call, &text) / 1e6;
            let [proved, second] = case.calls.map(speed);
            println!("{} {} {proved:.1} {second:.1}", case.name, text.len());
        }
    }
}

/// The call that is counted.
#[inline(never)]
fn counted(call: Call, text: &[u8], lent: &mut Lent) -> u32 {
    black_box(call(black_box(text), lent))
}

/// Every shape of the cases, by both; then the long texts, most of them refused,
/// plain and in groups, at two sizes.
fn readings() {
    for Case {
        name,
        shape,
        calls,
        number,
    } in cases()
    {
        for size in SIZES {
            let text = shape(size);
            let mut lent = Lent::new(&text);
            for (who, call) in calls {
                let answered = counted(call, &text, &mut lent);
                assert_eq!(answered, number, "{name} of {size} bytes");
                println!("{name} {} {who}", text.len());
            }
        }
    }
    let mut lent = Lent::new(b"");
    let [_, small, large] = SIZES;
    for (index, shape) in long_shapes().iter().enumerate() {
        for (name, wrap) in [
            ("long", <[u8]>::to_vec as fn(&[u8]) -> _),
            ("grouped", grouped),
        ] {
            for size in [small, large] {
                let text = wrap(&shape.text(size - 2 * DEPTH_MAX));
                for (who, call) in READ {
                    counted(call, &text, &mut lent);
                    println!("{name}-{index} {} {who}", text.len());
                }
            }
        }
    }
}

fn main() -> ExitCode {
    let arguments: Vec<String> = std::env::args().skip(1).collect();
    match arguments.iter().map(String::as_str).collect::<Vec<_>>()[..] {
        ["times"] => times(),
        ["readings"] => readings(),
        _ => {
            eprintln!("benchmark times|readings");
            return ExitCode::FAILURE;
        }
    }
    ExitCode::SUCCESS
}
