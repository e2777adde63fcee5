//! The tree of a text: `walk TEXT` reads the file TEXT at level 2 and prints its
//! nodes, a line each: two spaces for each node above it, its role, its kind, and
//! the bytes of a literal.  `walk TEXT DEPTH` walks only so far down: a branch
//! below is passed by its skip, and told as the number of its nodes.  If the text
//! is refused, the reason goes to standard error, and the exit code is 1; it is 2
//! if it cannot be read.
//!
//! `cargo run --example walk -- TEXT DEPTH`

mod whole_file;

use muon::{Branch, Document, Kind, Role, DEPTH_MAX, TABLE_MAX};
use std::env;
use std::io::{self, Write};
use std::process::ExitCode;
use whole_file::{exit_code, input, refused, said, Failure};

/// The line of a node; with how many are below it, if they are passed.
fn print(out: &mut impl Write, branch: Branch, depth: usize, passed: bool) -> io::Result<()> {
    write!(out, "{:1$}", "", 2 * depth)?;
    if branch.role() != Role::Root {
        write!(out, "{} ", branch.role())?;
    }
    write!(out, "{}", branch.kind())?;
    if branch.kind() <= Kind::Nesting {
        out.write_all(b" ")?;
        out.write_all(branch.bytes())?;
    }
    let below = branch.below();
    if passed && below > 0 {
        write!(out, ", {below} below")?;
    }
    writeln!(out)
}

/// Down to the first child, else on to the next sibling of the nearest node
/// above that has one.
fn print_all(out: &mut impl Write, root: Branch, most: usize) -> io::Result<()> {
    let (mut next, mut depth) = (Some(root), 0);
    while let Some(mut branch) = next {
        print(out, branch, depth, depth == most)?;
        next = branch.first_child().filter(|_| depth < most);
        if next.is_some() {
            depth += 1;
            continue;
        }
        next = branch.next_sibling();
        while let (None, Some(above)) = (next, branch.parent()) {
            branch = above;
            depth -= 1;
            next = branch.next_sibling();
        }
    }
    out.flush()
}

fn walk(path: &str, most: usize) -> Result<(), Failure> {
    let text = input(path, muon::TEXT_MAX)?;
    let mut table = [0; TABLE_MAX];
    let read = Document::read(2, &text, &mut table);
    let document = read.map_err(|error| refused(path, error))?;
    let mut out = io::BufWriter::new(io::stdout().lock());
    let written = print_all(&mut out, document.root(), most);
    written.map_err(|error| said("standard output", error))
}

fn main() -> ExitCode {
    let arguments: Vec<String> = env::args().skip(1).collect();
    let usage = || ("walk TEXT [DEPTH]".to_string(), 2);
    exit_code(match &arguments[..] {
        [text] => walk(text, DEPTH_MAX),
        [text, depth] => match depth.parse() {
            Ok(most) => walk(text, most),
            Err(_) => Err(usage()),
        },
        _ => Err(usage()),
    })
}
