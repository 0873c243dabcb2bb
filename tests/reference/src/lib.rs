//! A second implementation of documents 01 and 02, written from the documents alone: simple, unproved, for comparison. Where
//! cells stand in lent tables and plans is taken from docs/LAYOUT.md; nothing is taken from the project's code.

#[cfg(test)]
mod asked;
pub mod kinds;
pub mod nearest;
pub mod plan;
pub mod reader;
pub mod rounds;
pub mod set;
pub mod tables;
pub mod verdicts;

use set::Set;
use std::collections::BTreeSet;

#[derive(Clone, Debug, PartialEq)]
pub enum Term {
    Thing,
    Blank,
    Number(usize, i64),
    Text(usize),
    Words(usize),
}

/// A path entry; parts are numbers of entries before it.
#[derive(Clone, Debug, PartialEq)]
pub enum Path {
    Link(usize),
    Inv(usize),
    Seq(usize, usize),
    Alt(usize, usize),
    Star(usize),
    Plus(usize),
}

/// END: the node itself or a path entry.
#[derive(Clone, Copy, Debug, PartialEq)]
pub enum End {
    Id,
    Along(usize),
}

/// A form entry; parts are numbers of form entries before it, paths are numbers of path entries.
#[derive(Clone, Debug, PartialEq)]
pub enum Form {
    True,
    Is(usize),
    Shape(usize),
    And(usize, usize),
    Or(usize, usize),
    Not(usize),
    Kind(usize),
    Datatype(usize),
    Lang(Vec<usize>),
    From(i64),
    Above(i64),
    To(i64),
    Below(i64),
    Count { path: usize, form: usize, lo: usize, hi: Option<usize> },
    All(usize, usize),
    Equal(End, usize),
    Apart(End, usize),
    Closed(Vec<usize>),
    Less(usize, usize),
    Lesseq(usize, usize),
    Onelang(usize),
}

#[derive(Clone, Debug, PartialEq)]
pub enum Target {
    Node(usize),
    Subjects(usize),
    Objects(usize),
    Class(usize),
}

/// What a book says, or what tables say.
#[derive(Clone, Debug, Default, PartialEq)]
pub struct Book {
    /// the names of nodes, links, types, langs, shapes
    pub pools: [Vec<Vec<u8>>; 5],
    pub terms: Vec<Term>,
    /// every fact line, repeats included
    pub facts: Vec<(usize, usize, usize)>,
    /// entries in the order in which they end
    pub paths: Vec<Path>,
    pub forms: Vec<Form>,
    /// the form entry of each shape
    pub shapes: Vec<usize>,
    pub rules: Vec<(usize, Target)>,
}

/// For each node, the nodes that it leads to.
pub type Ends = Vec<Set>;

/// These nodes, and those that steps lead to from them, however many: each node is looked at once.
fn reached(step: &Ends, from: Set) -> Set {
    let mut found = from;
    let mut open: Vec<usize> = from.iter().collect();
    while let Some(u) = open.pop() {
        let new = step[u].without(&found);
        found = found.or(&new);
        open.extend(new.iter());
    }
    found
}

/// Every pair of a first and a second end has numbers in the order asked.
fn every_pair(book: &Book, first: &Set, second: &Set, order: impl Fn(i64, i64) -> bool) -> bool {
    first.iter().all(|x| {
        second.iter().all(|y| match (book.number(x), book.number(y)) {
            (Some(s), Some(t)) => order(s, t),
            _ => false,
        })
    })
}

impl Book {
    pub fn nodes(&self) -> usize {
        self.terms.len()
    }

    /// the ends of the facts by link p, from each node
    pub fn link_ends(&self, p: usize) -> Ends {
        let mut ends = vec![Set::default(); self.nodes()];
        self.facts.iter().filter(|f| f.1 == p).for_each(|f| ends[f.0].insert(f.2));
        ends
    }

    /// the ends of each path entry, from each node
    pub fn ends(&self) -> Vec<Ends> {
        let mut all: Vec<Ends> = Vec::new();
        for path in &self.paths {
            let ends = match *path {
                Path::Link(p) => self.link_ends(p),
                Path::Inv(d) => {
                    let mut back = vec![Set::default(); self.nodes()];
                    for (v, set) in all[d].iter().enumerate() {
                        set.iter().for_each(|w| back[w].insert(v));
                    }
                    back
                }
                Path::Seq(d, e) => {
                    let through = |set: &Set| set.iter().fold(Set::default(), |sum, u| sum.or(&all[e][u]));
                    all[d].iter().map(through).collect()
                }
                Path::Alt(d, e) => all[d].iter().zip(&all[e]).map(|(x, y)| x.or(y)).collect(),
                Path::Star(d) => (0..self.nodes()).map(|v| reached(&all[d], Set::only(v))).collect(),
                Path::Plus(d) => all[d].iter().map(|&ends| reached(&all[d], ends)).collect(),
            };
            all.push(ends);
        }
        all
    }

    pub fn number(&self, v: usize) -> Option<i64> {
        match self.terms[v] {
            Term::Number(_, x) => Some(x),
            _ => None,
        }
    }

    pub fn language(&self, v: usize) -> Option<usize> {
        match self.terms[v] {
            Term::Words(l) => Some(l),
            _ => None,
        }
    }

    fn datatype(&self, v: usize) -> Option<usize> {
        match self.terms[v] {
            Term::Number(t, _) | Term::Text(t) => Some(t),
            Term::Words(_) => Some(0),
            _ => None,
        }
    }

    /// the conditions that look at the node alone
    pub fn test(&self, form: &Form, v: usize) -> bool {
        match form {
            Form::Kind(k) => {
                *k == match self.terms[v] {
                    Term::Thing => 0,
                    Term::Blank => 1,
                    _ => 2,
                }
            }
            Form::Datatype(t) => self.datatype(v) == Some(*t),
            Form::Lang(langs) => self.language(v).is_some_and(|l| langs.contains(&l)),
            Form::From(x) => self.number(v).is_some_and(|y| y >= *x),
            Form::Above(x) => self.number(v).is_some_and(|y| y > *x),
            Form::To(x) => self.number(v).is_some_and(|y| y <= *x),
            Form::Below(x) => self.number(v).is_some_and(|y| y < *x),
            _ => unreachable!("not a test"),
        }
    }

    /// the links of the facts out of each node
    pub fn links_out(&self) -> Vec<Vec<usize>> {
        let mut links = vec![Vec::new(); self.nodes()];
        self.facts.iter().for_each(|f| links[f.0].push(f.1));
        links
    }

    pub fn less(&self, first: &Set, second: &Set) -> bool {
        every_pair(self, first, second, |s, t| s < t)
    }

    pub fn lesseq(&self, first: &Set, second: &Set) -> bool {
        every_pair(self, first, second, |s, t| s <= t)
    }

    pub fn onelang(&self, ends: &Set) -> bool {
        let mut seen = BTreeSet::new();
        ends.iter().filter_map(|w| self.language(w)).all(|l| seen.insert(l))
    }

    pub fn end_set(&self, ends: &[Ends], end: End, v: usize) -> Set {
        match end {
            End::Id => Set::only(v),
            End::Along(e) => ends[e][v],
        }
    }

    /// Table 1: for each form entry, the nodes that meet it
    pub fn met(&self) -> Vec<Set> {
        let (ends, out) = (self.ends(), self.links_out());
        let mut met: Vec<Set> = Vec::new();
        for form in &self.forms {
            let link = match form {
                Form::Equal(_, p) | Form::Apart(_, p) | Form::Less(_, p) | Form::Lesseq(_, p) => self.link_ends(*p),
                _ => Vec::new(),
            };
            let meets = |v: usize| match form {
                Form::True => true,
                Form::Is(c) => v == *c,
                Form::Shape(s) => met[self.shapes[*s]].has(v),
                Form::And(f, g) => met[*f].has(v) && met[*g].has(v),
                Form::Or(f, g) => met[*f].has(v) || met[*g].has(v),
                Form::Not(f) => !met[*f].has(v),
                Form::Count { path, form, lo, hi } => {
                    let n = ends[*path][v].iter().filter(|&w| met[*form].has(w)).count();
                    *lo <= n && hi.is_none_or(|h| n <= h)
                }
                Form::All(e, f) => ends[*e][v].iter().all(|w| met[*f].has(w)),
                Form::Equal(e, _) => self.end_set(&ends, *e, v) == link[v],
                Form::Apart(e, _) => self.end_set(&ends, *e, v).and(&link[v]).is_empty(),
                Form::Closed(links) => out[v].iter().all(|p| links.contains(p)),
                Form::Less(e, _) => self.less(&ends[*e][v], &link[v]),
                Form::Lesseq(e, _) => self.lesseq(&ends[*e][v], &link[v]),
                Form::Onelang(e) => self.onelang(&ends[*e][v]),
                test => self.test(test, v),
            };
            let set = Set::of(self.nodes(), meets);
            met.push(set);
        }
        met
    }

    /// the nodes with a fact by link p out of them
    pub fn subjects(&self, p: usize) -> Set {
        self.facts.iter().filter(|f| f.1 == p).map(|f| f.0).collect()
    }

    /// the nodes with a fact by link p into them
    pub fn objects(&self, p: usize) -> Set {
        self.facts.iter().filter(|f| f.1 == p).map(|f| f.2).collect()
    }

    pub fn selected(&self, target: &Target) -> Set {
        match *target {
            Target::Node(c) => Set::only(c),
            Target::Subjects(p) => self.subjects(p),
            Target::Objects(p) => self.objects(p),
            Target::Class(c) => self.instances(c),
        }
    }

    /// the list of each rule: the nodes that it selects and that do not meet its shape
    pub fn lists(&self, met: &[Set]) -> Vec<Vec<usize>> {
        let list = |(s, target): &(usize, Target)| {
            let kept = &met[self.shapes[*s]];
            self.selected(target).iter().filter(|&v| !kept.has(v)).collect()
        };
        self.rules.iter().map(list).collect()
    }

    pub fn head_line(&self) -> String {
        format!("(book {} {} {})\n", self.nodes(), self.facts.len(), self.rules.len())
    }

    /// the lines of rule r for a list of nodes
    pub fn break_lines(&self, r: usize, list: &[usize]) -> Vec<u8> {
        let line = |&v: &usize| [format!("(breaks {r} ").as_bytes(), self.pools[0][v].as_slice(), b")\n"].concat();
        list.iter().flat_map(line).collect()
    }
}

pub fn found_line(count: usize) -> String {
    format!("(found {count})\n")
}

/// What the printing program writes for a book's bytes.
pub fn report(text: &[u8]) -> Vec<u8> {
    match reader::read(text) {
        Err((number, line)) => format!("(refused {number} {line})\n").into_bytes(),
        Ok(book) => report_of(&book, &book.lists(&book.met())),
    }
}

/// The report of an accepted book with these lists.
pub fn report_of(book: &Book, lists: &[Vec<usize>]) -> Vec<u8> {
    let mut out = book.head_line().into_bytes();
    lists.iter().enumerate().for_each(|(r, list)| out.extend(book.break_lines(r, list)));
    out.extend(found_line(lists.iter().map(Vec::len).sum()).bytes());
    out
}
