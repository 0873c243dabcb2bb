//! Direct questions, and the tallies of the consoles that put them (document 02, Job 2).

use crate::set::Set;
use crate::Book;

/// a tally for each console
pub const TALLIES: usize = 8;

#[derive(Clone, Copy, Debug, PartialEq)]
pub struct Question {
    pub console: usize,
    pub node: usize,
    pub shape: usize,
}

/// The answer or the refusal, about the book that the tables say (none where they are not well formed) with `met`, the nodes that
/// meet each of its forms. Where an answer is given, the console's tally is one more, up to its greatest value.
pub fn ask(book: Option<&Book>, met: &[Set], q: Question, tallies: &mut [u32]) -> Result<bool, u32> {
    if tallies.len() < TALLIES {
        return Err(8);
    }
    let book = book.ok_or(9u32)?;
    if q.node >= book.nodes() || q.shape >= book.shapes.len() {
        return Err(10);
    }
    let tally = tallies[..TALLIES].get_mut(q.console).ok_or(11u32)?;
    *tally = tally.saturating_add(1);
    Ok(met[book.shapes[q.shape]].has(q.node))
}
