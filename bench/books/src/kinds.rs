//! Books with many classes, each under another (document 02, Job 5).

use crate::name;

/// Classes, and parts that are of them: the most nodes.
const CLASSES: usize = 1000;
const ALL: usize = 1024;

/// Classes, of which the first of each pair is under the second; a part of every fortieth, every other part with its watts; and
/// as many rules as there may be, each on another class.
fn classes(pairs: impl Iterator<Item = (usize, usize)>) -> String {
    let mut book = String::from("(link under)\n(link w)\n");
    (0..ALL).for_each(|k| book += &format!("(thing {})\n", name(k)));
    pairs.for_each(|(k, next)| book += &format!("(fact {} under {})\n", name(k), name(next)));
    for part in CLASSES..ALL {
        book += &format!("(fact {} a {})\n", name(part), name(40 * (part - CLASSES)));
        if part % 2 == 0 {
            book += &format!("(fact {0} w {0})\n", name(part));
        }
    }
    book += "(shape s (count 1 1 w true))\n";
    (0..32).for_each(|k| book += &format!("(rule s (class {}))\n", name(31 * k + 7)));
    book
}

/// Each class under the next.
pub fn chain() -> String {
    classes((1..CLASSES).map(|k| (k - 1, k)))
}

/// The last under the first, too.
pub fn ring() -> String {
    classes((0..CLASSES).map(|k| (k, (k + 1) % CLASSES)))
}
