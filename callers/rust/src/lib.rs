//! The check of rig books, proved: a safe wrapper of `libmelivanoup.a`.
//!
//! A book is a text: a rig as facts, and the rules that a venue keeps (docs/BOOK.md). The check lists the nodes that break each
//! rule. [`Validator`] does all of it at once; [`Tables`] has the single operations.
//!
//! ```
//! let book = b"(link twin)\n(thing left)\n(thing right)\n(fact left twin right)\n\
//!     (shape alone (count 0 0 twin true))\n(rule alone (subjects twin))\n";
//! let report = melivanoup::Validator::new().validate(book).unwrap();
//! assert_eq!(report.rules()[0].breaks, ["left"]);
//! assert_eq!(report.to_string(), "(book 2 1 1)\n(breaks 0 left)\n(found 1)\n");
//!
//! let refused = melivanoup::Validator::new().validate(b"(thing left)\n(thing left)\n").unwrap_err();
//! assert_eq!(refused.to_string(), "line 2: a new name is in its pool already (refusal 6)");
//! ```
//!
//! What is promised is promised by the proofs of the library, for every content of every buffer; so all buffers here are the
//! caller's to fill and to change, and no function is unsafe. The wrapper itself only passes slices and reads names.
//!
//! The functions use no heap and keep no state. They want at most [`STACK`] bytes of stack, which is more than
//! Rust gives a thread: make one with `std::thread::Builder::stack_size` where paths may nest deep.

mod operations;
mod raw;
mod refusal;
mod validator;

pub use operations::{Counts, Plan, Spare, Tables, Tallies, Work};
pub use refusal::{Ground, Refusal};
pub use validator::{Report, Rule, Validator};

/// How many elements each lent buffer has. A shorter one is refused; past the size nothing is read or written.
pub mod sizes {
    /// the longest book, in bytes
    pub const BOOK: usize = 65_536;
    pub const NAMES: usize = 45_056;
    pub const CELLS: usize = 16_602;
    pub const VALUES: usize = 1_136;
    pub const PLAN: usize = 2_593;
    pub const WORK: usize = 8_192;
    /// the list of one rule
    pub const ROW: usize = 1_024;
    /// the lists of all rules
    pub const LISTS: usize = 32_768;
    pub const LENGTHS: usize = 32;
    /// a part of the report
    pub const PAGE: usize = 45_056;
    /// a tally for each console
    pub const TALLIES: usize = 8;
}

/// The stack that a call may use, in bytes: measured, not proved. Books need at most 4.5 MB, tables from elsewhere 17.2: 128 KB for
/// each `seq`, `star` and `plus` that stands inside another, of which a book has at most 30 and tables 127. Where there is less, the
/// program ends at the guard page: the code touches every page of a frame in turn.
pub const STACK: usize = 17_825_792;
