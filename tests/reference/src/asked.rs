//! For the tests: the questions of tests/asks, and a search that counts repetitions in another way.

use crate::{reader, Book, Ends};
use std::collections::VecDeque;
use std::path::Path;

/// A question: its file, the book, the numbers after its first word, the answer.
pub struct Asked {
    pub file: String,
    pub book: Book,
    pub numbers: Vec<usize>,
    pub answer: String,
}

/// The questions that begin with a word.
pub fn asked(word: &str) -> Vec<Asked> {
    let folder = Path::new(env!("CARGO_MANIFEST_DIR")).join("../asks");
    let files = std::fs::read_dir(folder).unwrap().map(|file| file.unwrap().path());
    let mut found = Vec::new();
    for file in files.filter(|file| file.extension().is_some_and(|e| e == "ask")) {
        let text = |ending: &str| std::fs::read_to_string(file.with_extension(ending)).unwrap();
        let question = text("ask");
        let mut words = question.split_whitespace();
        if words.next() == Some(word) {
            let numbers = words.map(|word| word.parse().unwrap()).collect();
            let book = reader::read(text("book").as_bytes()).unwrap();
            found.push(Asked { file: file.display().to_string(), book, numbers, answer: text("ans") });
        }
    }
    found
}

/// For each node, after how many repetitions it is first reached; none where it is not.
pub fn distances(ends: &Ends, from: usize) -> Vec<Option<usize>> {
    let mut found = vec![None; ends.len()];
    found[from] = Some(0);
    let mut queue = VecDeque::from([(from, 0)]);
    while let Some((u, far)) = queue.pop_front() {
        for w in ends[u].iter().filter(|&w| found[w].is_none()).collect::<Vec<_>>() {
            found[w] = Some(far + 1);
            queue.push_back((w, far + 1));
        }
    }
    found
}
