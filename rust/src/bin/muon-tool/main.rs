//! The tool `muon-tool`: the calls of the proved library as commands with an
//! exit status.  `docs/man/muon.1` is its manual.

mod arguments;
mod before;
mod commands;
mod excerpt;
mod failure;
mod get;
mod help;
mod hint;
mod input;
mod list;
mod literal;
mod no_token;
mod output;
mod path;
mod pieces;
mod quoting;
mod refusal;
mod terminal;
mod values;
mod width;
mod wrong_place;

use arguments::Asked;
use failure::Failure;
use std::env;
use std::process::ExitCode;

fn run() -> Result<(), Failure> {
    match arguments::parse(env::args_os().skip(1))? {
        Asked::Help => output::print(help::HELP.as_bytes()),
        Asked::Version => output::print(help::VERSION.as_bytes()),
        Asked::Command(command) => commands::run(command),
    }
}

fn main() -> ExitCode {
    match run() {
        Ok(()) => ExitCode::SUCCESS,
        Err(failure) => failure.told(),
    }
}
