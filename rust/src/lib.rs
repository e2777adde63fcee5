//! The proved reader of MUON texts (Muldis Object Notation 0.300.0), as safe
//! Rust over the C interface of `include/muon.h`.
//!
//! A text and a lent table go in; a [`Document`] comes out, or an [`Error`] that
//! says why and where:
//!
//! ```
//! use muon::{Document, TABLE_MAX};
//!
//! let text = br#"(speed : 3_000, site : "north creek", armed : 0bTRUE)"#;
//! let mut table = [0; TABLE_MAX];
//! let root = Document::read(2, text, &mut table)?.root();
//! # #[cfg(feature = "alloc")] {
//! let speed: i64 = root.get("speed")?.integer()?;
//! let site: String = root.get("site")?.to_text()?;
//! let armed: bool = root.get("armed")?.boolean()?;
//! assert_eq!((speed, &site[..], armed), (3000, "north creek", true));
//! # }
//!
//! let error = Document::read(2, b"(speed : 3000,\n site : )", &mut table);
//! let error = error.expect_err("no value");
//! assert_eq!(error.to_string(), "2:9: refused (6): a token in the wrong place");
//! # Ok::<(), Box<dyn std::error::Error>>(())
//! ```
//!
//! The table is lent for as long as the document is used; it has 28,672 bytes,
//! and a call takes at most [`STACK_MAX`] of the stack beside it.  [`Branch::text`]
//! writes a Text to a lent buffer, where there is no allocator.
//!
//! A setting that is missing, one that is there twice, and a whole that is no
//! Tuple are a [`Lookup`] with the name; what else is there, because it is misspelt
//! or a comma broke it in two, is found by [`Branch::unknown`]:
//!
//! ```
//! # use muon::{Document, TABLE_MAX};
//! # let mut table = [0; TABLE_MAX];
//! let root = Document::read(2, b"(speed : 3,000, sight : creek)", &mut table)?.root();
//! let error = root.get("site").expect_err("misspelt");
//! assert_eq!(error.to_string(), r#"1:1: no attribute has the name "site""#);
//! let other = root.unknown(&["speed", "site"]).expect("000 and sight");
//! assert_eq!(other.position().to_string(), "1:12");
//! # Ok::<(), muon::Error>(())
//! ```
//!
//! A node of a document is a [`Branch`], with [`Kind`], [`Role`] and [`Detail`];
//! its [children](Branch::children) and [attributes](Branch::attributes) are
//! walked, and an attribute is [found by its name](Branch::get).
//!
//! # The calls
//!
//! Below it are the calls of the header, each with its own name and its answer
//! as it is: [`read()`] writes the nodes of an accepted text to the table, as
//! numbers.
//!
//! ```
//! use muon::{Kind, Node, Role, TABLE_MAX};
//!
//! let mut table = [0; TABLE_MAX];
//! let answer = muon::read(2, b"(x:y)", &mut table);
//! assert_eq!(answer.refusal(), None);
//! let nodes: Vec<Node> = muon::nodes(&table, answer.count).collect();
//! assert_eq!(nodes.len(), 3);
//! assert_eq!(nodes[0].kind, Kind::Pair.number());
//! assert_eq!(nodes[2].role, Role::ThatAfter.number());
//! assert_eq!(nodes[2].span(), 3..4);
//! ```
//!
//! A refusal leaves the table as it was:
//!
//! ```
//! use muon::Refusal;
//!
//! let mut table = [7; 60];
//! let answer = muon::read(1, b"(Set:{7,7})", &mut table);
//! assert_eq!(answer.refusal(), Some(Refusal::NewerForm));
//! assert_eq!(answer.place, 0);
//! assert_eq!(table, [7; 60]);
//! ```
//!
//! [`integer`], [`text()`], [`blob`] and [`bits`] give the value of a literal,
//! whose bytes a node tells:
//!
//! ```
//! let text = br#"(29 56 : "\caf\<0cxE9>")"#;
//! let mut table = [0; muon::TABLE_MAX];
//! let answer = muon::read(1, text, &mut table);
//! let pieces: Vec<&[u8]> = muon::nodes(&table, answer.count)
//!     .map(|node| &text[node.span()])
//!     .collect();
//! assert_eq!(muon::integer(pieces[1]).accepted(), Ok(2956));
//! let mut buffer = [0; 100];
//! let count = muon::text(pieces[2], &mut buffer).accepted()?;
//! assert_eq!(&buffer[..count], "café".as_bytes());
//! # Ok::<(), muon::Refusal>(())
//! ```
//!
//! [`line_column`] tells where in a text a place is, for a reader of messages:
//!
//! ```
//! let text = b"(x : 1,\n y : $)";
//! let answer = muon::read(2, text, &mut [0; 60]);
//! assert_eq!(answer.place, 13);
//! assert_eq!(muon::line_column(text, answer.place).to_string(), "2:6");
//! ```
//!
//! [`mod@file`] keeps what was read in a stored file beside the text, and tells
//! later whether a file is the one of a text:
//!
//! ```
//! use muon::{file, Refusal};
//!
//! let mut buffer = [0; file::MAX];
//! let count = file::write(b"(x:y)", &mut buffer).accepted()?;
//! let stored = &buffer[..count];
//! assert_eq!(file::check(b"(x:y)", stored).accepted(), Ok(45));
//! assert_eq!(file::check(b"(x,y)", stored).accepted(), Err(Refusal::NotTheFile));
//! # Ok::<(), muon::Refusal>(())
//! ```
//!
//! [`plain`] writes a text again without all that means nothing:
//!
//! ```
//! use muon::plain;
//!
//! let text = b"( , x : + 0d 1_0 , ) `ten`";
//! let mut table = [0; muon::TABLE_MAX];
//! muon::read(2, text, &mut table).accepted()?;
//! let mut buffer = [0; plain::bytes(26)];
//! let count = plain::write(2, text, &table, &mut buffer).accepted()?;
//! assert_eq!(&buffer[..count], b"(x:+0d10,)");
//! # Ok::<(), muon::Refusal>(())
//! ```
//!
//! [`mod@convert`] takes a text that still has arrows `<-`, which [`read()`]
//! refuses, and writes it so, too:
//!
//! ```
//! use muon::{convert, Refusal};
//!
//! let answer = muon::read(2, b"(b <- a)", &mut [0; 60]);
//! assert_eq!(answer.refusal(), Some(Refusal::RetiredArrow));
//! let mut buffer = [0; 16];
//! let count = convert::write(2, b"(b <- a)", &mut buffer).accepted()?;
//! assert_eq!(&buffer[..count], b"(a:b)");
//! # Ok::<(), Refusal>(())
//! ```
//!
//! [`utf8()`] is the UTF-8 test alone, for a text of any length; it tells its
//! steps, too:
//!
//! ```
//! let answer = muon::utf8("café".as_bytes());
//! assert_eq!(answer.accepted(), Ok(4));
//! ```
//!
//! The contract of every call is proved for all inputs: any bytes, any level and
//! any lent memory give an answer, and lent memory is touched as said and not
//! otherwise.  It stays the caller's: nothing is kept, nothing is allocated, and
//! there is no global state, so calls may run in several threads.  The proofs
//! stand in the repository's crates.  This package adds, unproved, the `unsafe`
//! calls, whose pointers and lengths are those of slices and numbers, the walks
//! over the nodes, and the names of numbers.
//!
//! # Building
//!
//! `MUON_LIB_DIR` names the directory of the archive: `libmuon.a`, as it is
//! installed, or else `libcapi.a`, as `rt lib` writes it.  A relative
//! directory is relative to this package, wherever cargo is started, so an
//! absolute one is best; without the variable it is the repository's,
//! `../crates/capi/out`.  The archive is for x86-64 Linux: for another target
//! the build stops and says so.
//!
//! The library is `no_std`.  The feature `alloc`, on by default, adds what gives a
//! vector or a string: `file::to_vec`, `plain::to_vec`, `convert::to_vec`, and
//! `to_text`, `to_blob` and `to_bits` of a [`Branch`].  Without it no allocator is
//! needed.

#![no_std]
#![warn(missing_docs)]

#[cfg(feature = "alloc")]
extern crate alloc;

mod answer;
mod attribute;
mod branch;
pub mod convert;
mod document;
mod error;
pub mod file;
mod kind;
mod lookup;
mod node;
mod numbered;
pub mod plain;
mod position;
mod raw;
mod reading;
mod refusal;
mod utf8;
mod value;

pub use answer::{Answer, IntegerAnswer, Utf8Answer};
pub use attribute::{Attribute, Attributes, NAME_MAX};
pub use branch::{Branch, Children};
pub use document::Document;
pub use error::Error;
pub use kind::{Detail, IntervalForm, Kind, Role, TextForm};
pub use lookup::{Lookup, LookupReason};
pub use node::{nodes, Node, Nodes};
pub use position::{line_column, Position};
pub use reading::{read, DEPTH_MAX, NODES_MAX, NODE_WORDS, STACK_MAX, TABLE_MAX, TEXT_MAX};
pub use refusal::Refusal;
pub use utf8::utf8;
pub use value::{bits, blob, integer, text, BITS_MAX};
