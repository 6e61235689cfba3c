//! The proved library as Rust calls it: a byte pattern to its table, four matchers over any table, and the listing of a table.
//!
//! ```
//! use jorvimest::{Refusal, Table};
//!
//! let hours = Table::compile(b"[01][0-9]|2[0-3]")?;
//! assert_eq!(hours.rows, 5);
//! assert_eq!(hours.whole(b"23"), Ok(true));
//! assert_eq!(hours.first(b"at 17:45"), Ok(Some(3..5)));
//! assert_eq!(hours.first_part(b"at 17:45"), Ok(Some(&b"17"[..])));
//! assert_eq!(hours, Table::compile(b"0[0-9]|1[0-9]|2[0-3]")?);
//! assert_eq!(Table::compile(b"[01"), Err(Refusal::BadClass(0)));
//! # Ok::<(), Refusal>(())
//! ```
//!
//! Nothing here works anything out: each function hands slices and numbers to the library, and its answer back.
//!
//! # What is trusted
//!
//! That the library answers as the house rules say, and reads and writes nothing but what is lent to it, is proved. Beside the
//! definitions and the prover, this is taken on trust:
//!
//! - the toolchain's front end, which reads the source for the prover, and its back end, which compiles what was proved;
//! - the stack, which the proofs do not speak of;
//! - the declarations in `linked.rs`. A test compares their names and types with the header's and with the library's source, as they
//!   are spelled; that the archive takes a slice as a pointer and a length is not shown by it.
//!
//! # Stack and memory
//!
//! A call of [`Table::compile`] or [`compile_into`] needs at most [`STACK_COMPILE`] bytes of stack, any other call [`STACK_OTHERS`],
//! beside the caller's own. Both are measured and have a margin, and the tests hold the library to them. On a thread that has less
//! left, a call may end the program at the guard page below the stack.
//!
//! The library itself allocates nothing: it works in what is lent and on the stack. Only what is handed back by value is allocated,
//! and that is done here: a [`Table`] of its own, starts as a `Vec`, a text as a `String`.

/// The README's example, run as a test.
#[cfg(doctest)]
#[doc = include_str!("../../../README.md")]
struct Readme;

mod linked;
mod refusal;
mod table;
mod text;

pub use refusal::Refusal;
pub use table::{compile_into, Lent, Table};
pub use text::Text;

/// Bytes of a pattern, at most.
pub const PATTERN_MOST: usize = 1024;
/// Groups open at once, at most.
pub const GROUPS_MOST: usize = 32;
/// Nodes of a pattern, at most.
pub const NODES_MOST: usize = 2048;
/// Rows of a table, at most.
pub const ROWS_MOST: usize = 1024;
/// Bytes of a text, at most.
pub const TEXT_MOST: usize = 1_048_576;
/// Cells to lend for each row.
pub const CELLS_A_ROW: usize = 256;
/// Marks to lend for each row.
pub const MARKS_A_ROW: usize = 1;
/// Set words to lend for each row.
pub const WORDS_A_ROW: usize = 32;
/// Bytes of stack that compiling needs, at most.
pub const STACK_COMPILE: usize = 160 * 1024;
/// Bytes of stack that any other call needs, at most.
pub const STACK_OTHERS: usize = 16 * 1024;
