//! Cases by hand for the proved library: `data/SUBJECT.txt` has them, `data/SUBJECT.out` what they must write. The questions of
//! `tests/asks` have each a file of their own.
//!
//! The texts of `verdict`, `rounds`, `nearest`, `kinds`, `plan` and `runner` give tables and a plan line by line: a word, numbers
//! (0 where one is left out), and what they are. The codes are those of docs/LAYOUT.md.
//!
//! | Line | Meaning |
//! |---|---|
//! | `node KIND TYPE LANG VALUE`, `fact S P O`, `path CODE A B`, `item X` | the next node, fact, path entry, list item |
//! | `entry CODE A B C D V`, `shape ENTRY`, `rule SHAPE TARGET OPERAND` | the next form entry, shape, rule |
//! | `step CODE A B C D` | the next step of the plan |
//! | `cell PLACE X`, `plan PLACE X` | a cell of the tables, of the plan |
//! | `name POOL K BYTES` | name K of nodes (0), links (1), types, langs or shapes (4): a dot for each zero, and zeros behind |
//! | `lend N C V P W` | how many places more than they must have names, cells, values, plan and work space have |
//! | `- TITLE` | a new case, which begins with what stands above the first title |

mod compare;
mod input;

pub use compare::{compare, compare_file};
pub use input::{asked, cases, column, places, Case, Input, Line};

/// A file of `data`.
pub fn bytes(file: &str) -> Vec<u8> {
    let path = format!("{}/data/{file}", env!("CARGO_MANIFEST_DIR"));
    std::fs::read(&path).unwrap_or_else(|e| panic!("{path}: {e}"))
}

/// A file of `data` that is text.
pub fn text(file: &str) -> String {
    String::from_utf8(bytes(file)).expect("a text")
}
