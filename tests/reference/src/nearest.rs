//! The nearest spare along a path (document 02, Job 11).

use crate::rounds::one_more;
use crate::set::Set;
use crate::{reached, Book, Ends};

/// A node that meets the shape, and how many repetitions of the path lead there.
#[derive(Clone, Copy, Debug, PartialEq)]
pub struct Spare {
    pub hops: usize,
    pub node: usize,
}

/// The least number of repetitions within which the path leads to a node of the set, and the lowest number of such a node. None
/// where the `star` of the path leads to none of the set.
fn nearest(ends: &Ends, from: usize, set: &Set) -> Option<Spare> {
    if reached(ends, Set::only(from)).and(set).is_empty() {
        return None;
    }
    let (mut within, mut hops) = (Set::only(from), 0);
    loop {
        if let Some(node) = (0..ends.len()).find(|&v| within.has(v) && set.has(v)) {
            return Some(Spare { hops, node });
        }
        (within, hops) = (one_more(ends, from, &within), hops + 1);
    }
}

/// The nearest spare from a node, along a path entry, for a shape, or the refusal; about the book that the tables say (none where
/// they are not well formed) with the ends of each of its path entries and `met`, the nodes that meet each of its forms.
pub fn ask(
    book: Option<&Book>, ends: &[Ends], met: &[Set], node: usize, path: usize, shape: usize,
) -> Result<Option<Spare>, u32> {
    let book = book.ok_or(9u32)?;
    if node >= book.nodes() || path >= book.paths.len() || shape >= book.shapes.len() {
        return Err(10);
    }
    Ok(nearest(&ends[path], node, &met[book.shapes[shape]]))
}

/// The questions of tests/asks; and every node, path entry and shape of their smaller books, held against another search: the
/// spare is the first by its distance and then its number.
#[cfg(test)]
mod tests {
    use super::*;
    use crate::asked::{asked, distances};

    /// Every question about a book, its spare and the first of all nodes that meet the shape. Gives how many spares there are by
    /// hops: 0, 1, 2 or more; and how often there is no spare.
    fn hold_against_distances(book: &Book) -> [usize; 4] {
        let (ends, met) = (book.ends(), book.met());
        let mut counts = [0; 4];
        for (path, ends_of) in ends.iter().enumerate() {
            for node in 0..book.nodes() {
                let far = distances(ends_of, node);
                for (shape, &form) in book.shapes.iter().enumerate() {
                    let told = ask(Some(book), &ends, &met, node, path, shape).unwrap();
                    let meets = |v: &usize| met[form].has(*v);
                    let first = (0..book.nodes()).filter(meets).filter_map(|v| Some((far[v]?, v))).min();
                    assert_eq!(told.map(|s| (s.hops, s.node)), first, "node {node}, path entry {path}, shape {shape}");
                    counts[first.map_or(3, |(hops, _)| hops.min(2))] += 1;
                }
            }
        }
        counts
    }

    #[test]
    fn asks_have_their_answers() {
        let (questions, mut counts) = (asked("nearest"), [0; 4]);
        for q in &questions {
            let [node, path, shape] = q.numbers[..] else { panic!("{}: a node, a path entry, a shape", q.file) };
            let told = match ask(Some(&q.book), &q.book.ends(), &q.book.met(), node, path, shape) {
                Ok(Some(spare)) => format!("at {} {}\n", spare.hops, spare.node),
                Ok(None) => "no spare\n".to_owned(),
                Err(refusal) => format!("refused {refusal}\n"),
            };
            assert_eq!(told, q.answer, "{}", q.file);
            if q.book.nodes() < 100 {
                let more = hold_against_distances(&q.book);
                (0..4).for_each(|k| counts[k] += more[k]);
            }
        }
        assert!(questions.len() >= 47 && counts.iter().all(|&n| n >= 100), "{} questions, {counts:?}", questions.len());
    }
}
