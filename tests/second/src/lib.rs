//! A second MUON reader for levels 1 and 2.
//!
//! It is written from the papers alone, so that an error in the verified
//! reader's definitions is unlikely to be repeated here.  It favours the
//! papers' own wording over speed: every token rule is tried at a place and
//! the longest match is taken.
//!
//! `cargo test --offline` runs the papers' texts.  The comparisons with the
//! verified code need the directory of `libtoken_c.a` or of `libcapi.a`:
//! `MUON_LIB_DIR=... cargo run --release --offline --features staticlib
//! --bin compare_tokens`, or `--features muon --bin compare_readings`.

pub mod answer;
#[cfg(feature = "staticlib")]
pub mod archive;
mod base64;
pub mod compare;
pub mod docs;
pub mod file;
pub mod front;
pub mod generate;
pub mod layout;
pub mod listing;
pub mod plain;
pub mod position;
pub mod progress;
pub mod samples;
pub mod space;
pub mod token;
pub mod tree;
pub mod utf8;
pub mod value;
