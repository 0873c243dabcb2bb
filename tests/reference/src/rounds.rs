//! How far a search along a path goes (document 02, Job 7).

use crate::set::Set;
use crate::{Book, Ends};

/// The nodes within one repetition more from a node, by the ends of the path from each node.
pub(crate) fn one_more(ends: &Ends, from: usize, within: &Set) -> Set {
    within.iter().fold(Set::only(from), |all, u| all.or(&ends[u]))
}

/// The least number of repetitions within which the path leads to all that it leads to within one more.
fn rounds(ends: &Ends, from: usize) -> usize {
    let (mut within, mut count) = (Set::only(from), 0);
    loop {
        let next = one_more(ends, from, &within);
        if next == within {
            return count;
        }
        (within, count) = (next, count + 1);
    }
}

/// The rounds of a path entry's `star` from a node, or the refusal, about the book that the tables say (none where they are not
/// well formed) with the ends of each of its path entries.
pub fn ask(book: Option<&Book>, ends: &[Ends], node: usize, path: usize) -> Result<usize, u32> {
    let book = book.ok_or(9u32)?;
    if node >= book.nodes() || path >= book.paths.len() {
        return Err(10);
    }
    Ok(rounds(&ends[path], node))
}

/// The questions of tests/asks; and every node and path entry of their smaller books, held against another search: the rounds
/// are the repetitions that lead to the farthest node.
#[cfg(test)]
mod tests {
    use super::*;
    use crate::asked::{asked, distances};

    /// Every search of a book: the rounds are the greatest distance, and fewer than the nodes reached. Gives how many there are.
    fn hold_against_distances(book: &Book) -> usize {
        let ends = book.ends();
        for (path, ends) in ends.iter().enumerate() {
            for node in 0..book.nodes() {
                let told = rounds(ends, node);
                let far: Vec<usize> = distances(ends, node).into_iter().flatten().collect();
                assert_eq!(Some(&told), far.iter().max(), "path entry {path} from node {node}");
                assert!(told < far.len(), "path entry {path} from node {node}: {told} rounds");
            }
        }
        book.nodes() * ends.len()
    }

    #[test]
    fn asks_have_their_answers() {
        let (questions, mut searches) = (asked("rounds"), 0);
        for q in &questions {
            let [node, path] = q.numbers[..] else { panic!("{}: a node and a path entry", q.file) };
            let told = match ask(Some(&q.book), &q.book.ends(), node, path) {
                Ok(rounds) => format!("{rounds}\n"),
                Err(refusal) => format!("refused {refusal}\n"),
            };
            assert_eq!(told, q.answer, "{}", q.file);
            if q.book.nodes() < 100 {
                searches += hold_against_distances(&q.book);
            }
        }
        assert!(questions.len() >= 42 && searches >= 500, "{} questions, {searches} searches", questions.len());
    }
}
