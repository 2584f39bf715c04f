//! What a society's rule sheet makes of an entry of a parish register: recognised, partial, failure, loop, or a missing rule.
//!
//! The calls underneath are proved: each has a contract that says for any bytes at all what it answers, and the Rattle toolchain proves the code
//! against it (`crates/entryreader` of the repository). This package hands them to Rust. It serves x86-64 Linux.
//!
//! ```
//! use entryreader::{Reader, Verdict};
//!
//! // A sign, or none; then a digit and a full stop.
//! let mut reader = Reader::from_shorthand(b"S='-'D/D\nD=('0'/'6')'.'\n")?;
//! for entry in ["-6.", "6.", "x."] {
//!     match reader.verdict(entry.as_bytes())? {
//!         Verdict::Recognised { .. } => println!("{entry} is recognised"),
//!         other => println!("{entry} is not: {}", other.code()),
//!     }
//! }
//! # Ok::<(), entryreader::Error>(())
//! ```
//!
//! A sheet has at most 256 variables, an entry at most 4,096 bytes, in ISO 8859-1 where a rule asks for a class of letters. An entry needs no closing
//! mark, and may be empty: where a rule asks for a byte and the entry has ended, it fails. Everything else is refused: [`Error`] says why, and at which
//! line of the sheet.
#![warn(missing_docs)]
#![warn(
    clippy::cast_possible_truncation,
    clippy::cast_possible_wrap,
    clippy::cast_sign_loss
)]

mod answers;
mod calls;
pub mod lent;
mod reader;
mod reading;
mod refusal;
mod rule;
mod shown;
#[cfg(feature = "test-calls")]
pub mod test_calls;

pub use answers::{Answer, Claim, Code, Pair, Verdict};
pub use reader::Reader;
pub use reading::{Line, Reading};
pub use refusal::{Error, Refusal};
pub use rule::Rule;
pub use shown::shown;
