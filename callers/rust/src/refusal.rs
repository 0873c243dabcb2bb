//! The eleven refusals.

use std::fmt;

/// Why something was turned down. The numbers are those of documents 01 and 02.
#[derive(Clone, Copy, Debug, PartialEq, Eq, Hash)]
pub enum Ground {
    TooLong = 1,
    Grammar = 2,
    Range = 3,
    Nesting = 4,
    Undefined = 5,
    Taken = 6,
    Limit = 7,
    Short = 8,
    Malformed = 9,
    Absent = 10,
    Console = 11,
}

/// the number for no refusal
const NONE: u32 = 0;

/// A refusal: its ground, and the line of the book, from 1; 0 where it is no line's.
#[derive(Clone, Copy, Debug, PartialEq, Eq, Hash)]
pub struct Refusal {
    pub ground: Ground,
    pub line: usize,
}

impl Ground {
    pub fn number(self) -> u32 {
        self as u32
    }

    fn by_number(number: u32) -> Ground {
        use Ground::*;
        let all = [TooLong, Grammar, Range, Nesting, Undefined, Taken, Limit, Short, Malformed, Absent, Console];
        all.into_iter().find(|ground| ground.number() == number).expect("every refusal has its ground")
    }
}

impl fmt::Display for Ground {
    fn fmt(&self, f: &mut fmt::Formatter) -> fmt::Result {
        f.write_str(match self {
            Ground::TooLong => "the book has more than 65,536 bytes",
            Ground::Grammar => "not the grammar of a book",
            Ground::Range => "a number is out of its range",
            Ground::Nesting => "more than 32 brackets are open together",
            Ground::Undefined => "a name is not defined on a line above",
            Ground::Taken => "a new name is in its pool already",
            Ground::Limit => "more names, facts, rules, conditions, paths or list items than a book may have",
            Ground::Short => "a lent buffer is too short",
            Ground::Malformed => "the tables, the plan or the lists are not well formed",
            Ground::Absent => "the book has no such node, shape, path or rule",
            Ground::Console => "the consoles have the numbers 0 to 7",
        })
    }
}

impl Refusal {
    /// `Ok` for none, else the refusal of that number.
    pub(crate) fn check(number: u32, line: usize) -> Result<(), Refusal> {
        match number {
            NONE => Ok(()),
            n => Err(Refusal { ground: Ground::by_number(n), line }),
        }
    }
}

impl fmt::Display for Refusal {
    fn fmt(&self, f: &mut fmt::Formatter) -> fmt::Result {
        if self.line > 0 {
            write!(f, "line {}: ", self.line)?;
        }
        write!(f, "{} (refusal {})", self.ground, self.ground.number())
    }
}

impl std::error::Error for Refusal {}
