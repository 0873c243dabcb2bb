//! The single operations, on owned buffers.

use crate::{raw, sizes, Refusal};

/// The tables of a book; docs/LAYOUT.md says what stands where. Any content may be lent: what is not well formed is refused.
#[derive(Clone, Debug, PartialEq, Eq)]
pub struct Tables {
    pub names: Vec<u8>,
    pub cells: Vec<u16>,
    pub values: Vec<i64>,
}

/// A plan: the number of steps, each rule's step, and the steps in columns.
#[derive(Clone, Debug, PartialEq, Eq)]
pub struct Plan {
    pub cells: Vec<u16>,
}

/// The sets of a run: sixteen words for each step, node n at bit n mod 64 of word n div 64.
#[derive(Clone, Debug, PartialEq, Eq)]
pub struct Work {
    pub words: Vec<u64>,
}

/// How many of each console's questions were answered, from eight zeros on. A tally stays at its greatest value.
#[derive(Clone, Copy, Debug, Default, PartialEq, Eq)]
pub struct Tallies {
    pub counts: [u32; sizes::TALLIES],
}

/// How much a book has.
#[derive(Clone, Copy, Debug, PartialEq, Eq)]
pub struct Counts {
    pub nodes: usize,
    /// fact lines, repeats included
    pub facts: usize,
    pub rules: usize,
}

/// A node that meets the shape asked for, and how far it is from the start.
#[derive(Clone, Copy, Debug, PartialEq, Eq)]
pub struct Spare {
    /// the fewest repetitions of the path that lead there
    pub hops: usize,
    pub node: usize,
}

// Where things stand, named as in callers/c/melivanoup.h.
const CELL_NODES: usize = 0;
const CELL_SHAPES: usize = 4;
const CELL_FACTS: usize = 5;
const CELL_PATHS: usize = 6;
const CELL_RULES: usize = 9;
const RULE_SHAPES: usize = 16_506;
const PLAN_STEPS: usize = 0;
const NAME: usize = 32;
const SHAPE_NAMES: usize = 43_008;

/// the verdict's answer for a node that meets the shape
const CONFORMS: u32 = 1;

/// the answer of `nearest` where there is a spare
const FOUND: u32 = 1;

impl Tables {
    /// Zeros: the tables of no book.
    pub fn new() -> Tables {
        Tables { names: vec![0; sizes::NAMES], cells: vec![0; sizes::CELLS], values: vec![0; sizes::VALUES] }
    }

    /// Reads a book into the tables. It is accepted exactly when it follows document 01, and the tables then hold what it says;
    /// on a refusal of the book they are zeros.
    pub fn read(&mut self, book: &[u8]) -> Result<Counts, Refusal> {
        let (mut line, mut nodes, mut facts, mut rules) = (0, 0, 0, 0);
        // SAFETY: every slice is passed with its own length, and the borrows keep them apart.
        let number = unsafe {
            raw::melivanoup_read(
                book.as_ptr(), book.len(), self.names.as_mut_ptr(), self.names.len(), self.cells.as_mut_ptr(), self.cells.len(),
                self.values.as_mut_ptr(), self.values.len(), &mut line, &mut nodes, &mut facts, &mut rules,
            )
        };
        Refusal::check(number, line)?;
        Ok(Counts { nodes, facts, rules })
    }

    /// Whether a node meets a shape: a question of one of the consoles 0 to 7. The console's tally goes up by one on an answer;
    /// the others stay, and on a refusal all do. So a console's answers and its tally depend on the tables and on its own
    /// questions only, whatever questions the others put in between.
    pub fn verdict(&self, console: usize, node: usize, shape: usize, tallies: &mut Tallies) -> Result<bool, Refusal> {
        let mut conforms = 0;
        // SAFETY: as in `read`.
        let number = unsafe {
            raw::melivanoup_verdict(
                self.names.as_ptr(), self.names.len(), self.cells.as_ptr(), self.cells.len(), self.values.as_ptr(),
                self.values.len(), console, node, shape, tallies.counts.as_mut_ptr(), tallies.counts.len(), &mut conforms,
            )
        };
        Refusal::check(number, 0)?;
        Ok(conforms == CONFORMS)
    }

    /// How far a search along a path entry goes from a node, both by number: the least number of repetitions within which the
    /// path leads to the nodes that it leads to within one more, and so to all that any number of them leads to. The node itself
    /// is reached within none. The answer is below the number of nodes reached.
    pub fn rounds(&self, node: usize, path: usize) -> Result<usize, Refusal> {
        let mut rounds = 0;
        // SAFETY: as in `read`.
        let number = unsafe {
            raw::melivanoup_rounds(
                self.names.as_ptr(), self.names.len(), self.cells.as_ptr(), self.cells.len(), self.values.as_ptr(),
                self.values.len(), node, path, &mut rounds,
            )
        };
        Refusal::check(number, 0)?;
        Ok(rounds)
    }

    /// The nearest spare: which node that meets a shape is fewest hops from a node, a hop being one repetition of a path entry,
    /// all by number. 0 hops where the node itself meets the shape; of those that are equally near it is the one with the lowest number. None
    /// where no number of repetitions leads to a node that meets the shape.
    pub fn nearest(&self, node: usize, path: usize, shape: usize) -> Result<Option<Spare>, Refusal> {
        let (mut found, mut hops, mut spare) = (0, 0, 0);
        // SAFETY: as in `read`.
        let number = unsafe {
            raw::melivanoup_nearest(
                self.names.as_ptr(), self.names.len(), self.cells.as_ptr(), self.cells.len(), self.values.as_ptr(),
                self.values.len(), node, path, shape, &mut found, &mut hops, &mut spare,
            )
        };
        Refusal::check(number, 0)?;
        Ok((found == FOUND).then_some(Spare { hops, node: spare }))
    }

    /// Compiles the rules of the tables into a plan, and gives its number of steps.
    pub fn compile(&self, plan: &mut Plan) -> Result<usize, Refusal> {
        let mut steps = 0;
        // SAFETY: as in `read`.
        let number = unsafe {
            raw::melivanoup_compile(
                self.names.as_ptr(), self.names.len(), self.cells.as_ptr(), self.cells.len(), self.values.as_ptr(),
                self.values.len(), plan.cells.as_mut_ptr(), plan.cells.len(), &mut steps,
            )
        };
        Refusal::check(number, 0)?;
        Ok(steps)
    }

    /// Fills the set of each step of a plan. Which classes lie under which goes by the link named `under`; where several links have
    /// that name, by the lowest.
    pub fn run(&self, plan: &Plan, work: &mut Work) -> Result<(), Refusal> {
        // SAFETY: as in `read`.
        let number = unsafe {
            raw::melivanoup_run(
                self.names.as_ptr(), self.names.len(), self.cells.as_ptr(), self.cells.len(), self.values.as_ptr(),
                self.values.len(), plan.cells.as_ptr(), plan.cells.len(), work.words.as_mut_ptr(), work.words.len(),
            )
        };
        Refusal::check(number, 0)
    }

    /// The nodes in the set of a rule's step, lowest first: those that break the rule, where plan and sets are these tables' own.
    pub fn list(&self, plan: &Plan, work: &Work, rule: usize) -> Result<Vec<u16>, Refusal> {
        let (mut row, mut nodes) = (vec![0; sizes::ROW], 0);
        // SAFETY: as in `read`.
        let number = unsafe {
            raw::melivanoup_list(
                self.names.as_ptr(), self.names.len(), self.cells.as_ptr(), self.cells.len(), self.values.as_ptr(),
                self.values.len(), plan.cells.as_ptr(), plan.cells.len(), work.words.as_ptr(), work.words.len(), rule,
                row.as_mut_ptr(), row.len(), &mut nodes,
            )
        };
        Refusal::check(number, 0)?;
        row.truncate(nodes);
        Ok(row)
    }

    /// The counts that stand in the tables.
    pub fn counts(&self) -> Counts {
        Counts { nodes: self.cell(CELL_NODES), facts: self.cell(CELL_FACTS), rules: self.cell(CELL_RULES) }
    }

    /// How many path entries stand in the tables: each path and each part of one, in the order in which they end.
    pub fn paths(&self) -> usize {
        self.cell(CELL_PATHS)
    }

    /// The name of a node; none where the tables have no such node.
    pub fn node_name(&self, node: usize) -> Option<&str> {
        (node < self.cell(CELL_NODES)).then(|| self.name(NAME * node))?
    }

    /// The name of a shape; none where the tables have no such shape.
    pub fn shape_name(&self, shape: usize) -> Option<&str> {
        (shape < self.cell(CELL_SHAPES)).then(|| self.name(SHAPE_NAMES + NAME * shape))?
    }

    /// The number of the node of that name.
    pub fn node(&self, name: &str) -> Option<usize> {
        (0..self.cell(CELL_NODES)).find(|&k| self.node_name(k) == Some(name))
    }

    /// The number of the shape of that name.
    pub fn shape(&self, name: &str) -> Option<usize> {
        (0..self.cell(CELL_SHAPES)).find(|&k| self.shape_name(k) == Some(name))
    }

    /// The number of a rule's shape; none where the tables have no such rule.
    pub fn rule_shape(&self, rule: usize) -> Option<usize> {
        (rule < self.cell(CELL_RULES)).then(|| self.cell(RULE_SHAPES + rule))
    }

    fn cell(&self, at: usize) -> usize {
        self.cells.get(at).map_or(0, |&x| x.into())
    }

    /// what stands before the first zero, 31 bytes at most
    fn name(&self, at: usize) -> Option<&str> {
        let place = self.names.get(at..at + NAME - 1)?;
        std::str::from_utf8(place.split(|&b| b == 0).next()?).ok()
    }
}

impl Plan {
    /// Zeros: a plan without steps.
    pub fn new() -> Plan {
        Plan { cells: vec![0; sizes::PLAN] }
    }

    /// How many steps it has.
    pub fn steps(&self) -> usize {
        self.cells.get(PLAN_STEPS).map_or(0, |&x| x.into())
    }
}

impl Work {
    /// Zeros: every set empty.
    pub fn new() -> Work {
        Work { words: vec![0; sizes::WORK] }
    }
}

impl Tallies {
    /// Zeros: no question was answered.
    pub fn new() -> Tallies {
        Tallies::default()
    }
}

impl Default for Tables {
    fn default() -> Tables {
        Tables::new()
    }
}

impl Default for Plan {
    fn default() -> Plan {
        Plan::new()
    }
}

impl Default for Work {
    fn default() -> Work {
        Work::new()
    }
}
