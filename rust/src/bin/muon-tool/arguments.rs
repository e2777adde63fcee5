//! The words of the call.

use crate::failure::Failure;
use crate::quoting::shown;
use std::ffi::{OsStr, OsString};

/// The level without `--level`.
const LEVEL: u32 = 2;

/// What the words ask for.
pub enum Asked {
    Help,
    Version,
    Command(Command),
}

/// A command with its operands.
pub enum Command {
    List {
        level: u32,
        tree: bool,
        file: OsString,
    },
    Values {
        level: u32,
        file: OsString,
    },
    Get {
        level: u32,
        file: OsString,
        path: OsString,
    },
    Plain {
        level: u32,
        file: OsString,
        out: OsString,
    },
    Convert {
        level: u32,
        file: OsString,
        out: OsString,
    },
    Store {
        file: OsString,
        stored: OsString,
    },
    Check {
        level: u32,
        file: OsString,
    },
    CheckStored {
        file: OsString,
        stored: OsString,
    },
}

/// Operands and options, apart from each other.
#[derive(Default)]
struct Words {
    operands: Vec<OsString>,
    level: Option<u32>,
    tree: bool,
}

impl Words {
    fn set_level(&mut self, word: &OsStr) -> Result<(), Failure> {
        let level = match word.as_encoded_bytes() {
            b"1" => 1,
            b"2" => 2,
            _ => return Err(usage("--level takes 1 or 2")),
        };
        match self.level.replace(level) {
            None => Ok(()),
            Some(_) => Err(usage("--level is given twice")),
        }
    }

    fn no_level(&self, of: &str) -> Result<(), Failure> {
        match self.level {
            None => Ok(()),
            Some(_) => Err(usage(&format!("{of} takes no --level, its level is 2"))),
        }
    }
}

fn usage(reason: &str) -> Failure {
    Failure::Usage(reason.to_string())
}

fn unknown(what: &str, word: &OsStr) -> Failure {
    usage(&format!(
        "unknown {what} `{}`",
        shown(word.as_encoded_bytes())
    ))
}

/// The words apart; none if help or the version is asked for, which ends it.
fn apart(mut words: impl Iterator<Item = OsString>) -> Result<Result<Words, Asked>, Failure> {
    let mut apart = Words::default();
    while let Some(word) = words.next() {
        match word.as_encoded_bytes() {
            b"--" => {
                apart.operands.extend(words);
                break;
            }
            b"-h" | b"--help" => return Ok(Err(Asked::Help)),
            b"--version" => return Ok(Err(Asked::Version)),
            b"--tree" => apart.tree = true,
            b"--level" => apart.set_level(&words.next().unwrap_or_default())?,
            [b'-', b'-', b'l', b'e', b'v', b'e', b'l', b'=', ..] => {
                let text = word.to_string_lossy();
                apart.set_level(OsStr::new(&text["--level=".len()..]))?;
            }
            [b'-', _, ..] => return Err(unknown("option", &word)),
            _ => apart.operands.push(word),
        }
    }
    Ok(Ok(apart))
}

/// The file, and one more operand if there may be one.
fn operands<const MOST: usize>(
    of: &str,
    operands: Vec<OsString>,
) -> Result<(OsString, Option<OsString>), Failure> {
    if let Some(further) = operands.get(MOST) {
        let further = shown(further.as_encoded_bytes());
        return Err(usage(&format!("{of} takes no further operand `{further}`")));
    }
    let mut operands = operands.into_iter();
    let file = operands.next();
    let file = file.ok_or_else(|| usage(&format!("{of} needs a FILE")))?;
    Ok((file, operands.next()))
}

fn command(name: &OsStr, mut words: Words) -> Result<Command, Failure> {
    let level = words.level.unwrap_or(LEVEL);
    let given = std::mem::take(&mut words.operands);
    if words.tree && name != "list" {
        return Err(usage("--tree is an option of list only"));
    }
    let output = |out: Option<OsString>| out.unwrap_or_else(|| "-".into());
    Ok(match name.as_encoded_bytes() {
        b"list" => {
            let (file, _) = operands::<1>("list", given)?;
            let tree = words.tree;
            Command::List { level, tree, file }
        }
        b"values" => {
            let (file, _) = operands::<1>("values", given)?;
            Command::Values { level, file }
        }
        b"get" => {
            let (file, path) = operands::<2>("get", given)?;
            // an empty one is a variable that is not set, rather than the root
            let path = path.filter(|path| !path.is_empty());
            let path = path.ok_or_else(|| usage("get needs a PATH"))?;
            Command::Get { level, file, path }
        }
        b"plain" => {
            let (file, out) = operands::<2>("plain", given)?;
            let out = output(out);
            Command::Plain { level, file, out }
        }
        b"convert" => {
            let (file, out) = operands::<2>("convert", given)?;
            let out = output(out);
            Command::Convert { level, file, out }
        }
        b"store" => {
            let (file, stored) = operands::<2>("store", given)?;
            words.no_level("store")?;
            let stored = stored.ok_or_else(|| usage("store needs a STORED"))?;
            Command::Store { file, stored }
        }
        b"check" => match operands::<2>("check", given)? {
            (file, None) => Command::Check { level, file },
            (file, Some(stored)) => {
                words.no_level("check FILE STORED")?;
                Command::CheckStored { file, stored }
            }
        },
        _ => return Err(unknown("command", name)),
    })
}

/// What the words of the call, without the tool's name, ask for.
pub fn parse(words: impl Iterator<Item = OsString>) -> Result<Asked, Failure> {
    let mut words = match apart(words)? {
        Ok(words) => words,
        Err(asked) => return Ok(asked),
    };
    if words.operands.is_empty() {
        return Err(usage("no command"));
    }
    let name = words.operands.remove(0);
    command(&name, words).map(Asked::Command)
}
