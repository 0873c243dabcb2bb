//! From the bytes of a book to its report.

use crate::{raw, sizes, Plan, Refusal, Tables, Work};
use std::fmt;

/// The buffers of a whole run, used again for each book. What one book left is never seen by the next.
pub struct Validator {
    tables: Tables,
    plan: Plan,
    work: Work,
    lists: Vec<u16>,
    lengths: Vec<u16>,
    page: Vec<u8>,
}

/// A rule of a book: the name of its shape, and the names of the nodes that break it, in book order, each once.
#[derive(Clone, Debug, PartialEq, Eq)]
pub struct Rule {
    pub shape: String,
    pub breaks: Vec<String>,
}

/// What the check says of a book. `Display` writes document 01's report, byte for byte as the library wrote it.
#[derive(Clone, Debug, PartialEq, Eq)]
pub struct Report {
    nodes: usize,
    facts: usize,
    rules: Vec<Rule>,
    text: String,
}

impl Validator {
    pub fn new() -> Validator {
        Validator {
            tables: Tables::new(),
            plan: Plan::new(),
            work: Work::new(),
            lists: vec![0; sizes::LISTS],
            lengths: vec![0; sizes::LENGTHS],
            page: vec![0; sizes::PAGE],
        }
    }

    /// The report of a book: under each rule, exactly the nodes that it selects and that do not meet its shape.
    pub fn validate(&mut self, book: &[u8]) -> Result<Report, Refusal> {
        self.lists(book)?;
        let counts = self.tables.counts();
        let mut text = Vec::new();
        for part in 0..counts.rules + 2 {
            text.extend_from_slice(self.part(part)?);
        }
        Ok(Report {
            nodes: counts.nodes,
            facts: counts.facts,
            rules: (0..counts.rules).map(|r| self.rule(r)).collect(),
            text: String::from_utf8(text).expect("a report is ASCII"),
        })
    }

    /// The lists alone, without a report: `breaks` then has the nodes by number. Gives the number of the plan's steps.
    pub fn lists(&mut self, book: &[u8]) -> Result<usize, Refusal> {
        let (mut line, mut steps) = (0, 0);
        let t = &mut self.tables;
        // SAFETY: every slice is passed with its own length, and the borrows keep them apart.
        let number = unsafe {
            raw::melivanoup_validate(
                book.as_ptr(), book.len(), t.names.as_mut_ptr(), t.names.len(), t.cells.as_mut_ptr(), t.cells.len(),
                t.values.as_mut_ptr(), t.values.len(), self.plan.cells.as_mut_ptr(), self.plan.cells.len(),
                self.work.words.as_mut_ptr(), self.work.words.len(), self.lists.as_mut_ptr(), self.lists.len(),
                self.lengths.as_mut_ptr(), self.lengths.len(), &mut line, &mut steps,
            )
        };
        Refusal::check(number, line)?;
        Ok(steps)
    }

    /// The tables of the last book; zeros where it was refused.
    pub fn tables(&self) -> &Tables {
        &self.tables
    }

    /// The nodes that break a rule of the last book, by number; none where it has no such rule or was refused.
    pub fn breaks(&self, rule: usize) -> &[u16] {
        if rule < self.tables.counts().rules {
            &self.lists[sizes::ROW * rule..][..self.lengths[rule].into()]
        } else {
            &[]
        }
    }

    fn rule(&self, rule: usize) -> Rule {
        let shape = self.tables.rule_shape(rule).and_then(|s| self.tables.shape_name(s));
        let name = |&v: &u16| self.tables.node_name(v.into()).expect("a listed node is in the book").to_owned();
        Rule { shape: shape.expect("a rule has a shape").to_owned(), breaks: self.breaks(rule).iter().map(name).collect() }
    }

    /// A part of the report, on the page.
    fn part(&mut self, part: usize) -> Result<&[u8], Refusal> {
        let t = &self.tables;
        let mut bytes = 0;
        // SAFETY: as in `lists`.
        let number = unsafe {
            raw::melivanoup_report(
                t.names.as_ptr(), t.names.len(), t.cells.as_ptr(), t.cells.len(), t.values.as_ptr(), t.values.len(),
                self.lists.as_ptr(), self.lists.len(), self.lengths.as_ptr(), self.lengths.len(), part,
                self.page.as_mut_ptr(), self.page.len(), &mut bytes,
            )
        };
        Refusal::check(number, 0)?;
        Ok(&self.page[..bytes])
    }
}

impl Default for Validator {
    fn default() -> Validator {
        Validator::new()
    }
}

impl Report {
    pub fn nodes(&self) -> usize {
        self.nodes
    }

    /// The number of fact lines, repeats included.
    pub fn facts(&self) -> usize {
        self.facts
    }

    /// The rules, in book order.
    pub fn rules(&self) -> &[Rule] {
        &self.rules
    }

    /// How many breaks there are under all rules together.
    pub fn found(&self) -> usize {
        self.rules.iter().map(|r| r.breaks.len()).sum()
    }
}

impl fmt::Display for Report {
    fn fmt(&self, f: &mut fmt::Formatter) -> fmt::Result {
        f.write_str(&self.text)
    }
}
