//! What is a kind of what, by the link named `under`, and what a class rule selects (document 02, Job 5).

use crate::reader::LINKS;
use crate::set::Set;
use crate::{reached, Book};

/// the type link, whatever it is called
const A: usize = 0;

impl Book {
    /// the link named `under`: the first, where tables from elsewhere have that name twice
    pub fn under(&self) -> Option<usize> {
        self.pools[LINKS].iter().position(|name| name == b"under")
    }

    /// c, and the classes from which one or more facts by `under` lead to c
    fn kinds(&self, c: usize) -> Set {
        let Some(under) = self.under() else { return Set::only(c) };
        let mut back = vec![Set::default(); self.nodes()];
        self.facts.iter().filter(|f| f.1 == under).for_each(|f| back[f.2].insert(f.0));
        reached(&back, Set::only(c))
    }

    /// the nodes with a fact by `a` to c or to a kind of c
    pub fn instances(&self, c: usize) -> Set {
        let kinds = self.kinds(c);
        self.facts.iter().filter(|f| f.1 == A && kinds.has(f.2)).map(|f| f.0).collect()
    }
}

/// The books that are kept, held against a path; and the names of links in tables.
#[cfg(test)]
mod tests {
    use super::*;
    use crate::tables::{decode, Tables, NAME_BYTES, POOL_NAMES};
    use crate::{reader, Ends, Path};

    /// The accepted books of a folder beside this crate.
    fn books(folder: &str) -> Vec<Book> {
        let folder = std::path::Path::new(env!("CARGO_MANIFEST_DIR")).join(folder);
        let files = std::fs::read_dir(folder).unwrap().map(|file| file.unwrap().path());
        let texts = files.filter(|file| file.extension().is_some_and(|e| e == "book")).map(|file| std::fs::read(file).unwrap());
        texts.filter_map(|text| reader::read(&text).ok()).collect()
    }

    /// The ends of `(seq a (star under))` from each node, or of `a` in a book without that link.
    fn classes(book: &Book) -> Ends {
        let mut paths = vec![Path::Link(A)];
        if let Some(under) = book.under() {
            paths.extend([Path::Link(under), Path::Star(1), Path::Seq(0, 2)]);
        }
        Book { paths, ..book.clone() }.ends().pop().unwrap()
    }

    #[test]
    fn instances_are_what_the_path_leads_from() {
        // pairs of a node and a class: straight, and by `under` alone
        let (mut straight, mut further) = (0, 0);
        for book in ["../vectors", "../vectors14", "../../examples"].into_iter().flat_map(books) {
            let (classes, types) = (classes(&book), book.link_ends(A));
            for c in 0..book.nodes() {
                let told = book.instances(c);
                assert_eq!(told, Set::of(book.nodes(), |v| classes[v].has(c)), "class {c}, {:?}", book.pools);
                let by_a = Set::of(book.nodes(), |v| types[v].has(c));
                straight += by_a.len();
                further += told.without(&by_a).len();
            }
        }
        assert!(straight >= 600 && further >= 3000, "{straight} straight, {further} further");
    }

    /// The link named `under` among three, where the names of the first links begin with these bytes.
    fn under(names: &[&[u8]]) -> Option<usize> {
        let mut t = Tables::zeros();
        t.cells[LINKS] = 3;
        for (k, name) in names.iter().enumerate() {
            let at = POOL_NAMES[LINKS] + NAME_BYTES * k;
            t.names[at..at + name.len()].copy_from_slice(name);
        }
        decode(&t).unwrap().under()
    }

    #[test]
    fn the_lowest_link_of_that_name() {
        assert_eq!(under(&[b"a", b"under"]), Some(1));
        assert_eq!(under(&[b"a", b"under", b"under"]), Some(1));
        assert_eq!(under(&[b"under", b"under"]), Some(0));
        assert_eq!(under(&[b"a", b"x", b"under"]), Some(2));
        assert_eq!(under(&[b"a", b"x", b"y", b"under"]), None, "past the count");
        assert_eq!(under(&[b"a", b"under\0and more", b"under"]), Some(1));
        for nearly in [&b"unde"[..], b"unde\0r", b"\0under", b"Under", b"undes", b"under1", b"under ", b"underunder", b""] {
            assert_eq!(under(&[b"a", nearly, b"under"]), Some(2), "{nearly:?}");
        }
        let mut full = [b'r'; NAME_BYTES];
        full[..5].copy_from_slice(b"under");
        assert_eq!(under(&[b"a", &full]), None);
        assert_eq!(under(&[b"a", &full[..NAME_BYTES - 1]]), None);
    }
}
