//! The Rust side of the comparison: the original framing of YSON records,
//! asked case by case.
//!
//! `upstream/` holds the original modules byte for byte. What they import is
//! stood in for by [`error`], [`node`] and [`ser`]. [`framing`] is the record
//! framing of `JobReader` with classification cut away. Nothing else of the
//! original is here, and nothing of it is changed.

// The originals: the formatter must leave their bytes alone.
#[rustfmt::skip]
#[path = "../upstream/lexer.rs"]
mod lexer;
#[rustfmt::skip]
#[path = "../upstream/scan.rs"]
pub mod scan;
#[rustfmt::skip]
#[path = "../upstream/varint.rs"]
pub mod varint;

pub mod error;
pub mod node;
pub mod ser;

pub mod answer;
pub mod compare;
pub mod framing;
pub mod r#gen;
pub mod protocol;
pub mod refusal;
