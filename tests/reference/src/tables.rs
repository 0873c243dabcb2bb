//! A book in the lent tables, at the places of docs/LAYOUT.md; and what tables of any content say, or that they are not well formed.

use crate::reader::{LANGS, LINKS, NODES, ROOM, SHAPES, TYPES};
use crate::{Book, End, Form, Path, Target, Term};

pub const NAMES: usize = 45056;
pub const CELLS: usize = 16602;
pub const VALUES: usize = 1136;
/// `*` for HI, `id` for END
pub const NO_NUMBER: u16 = 65535;

pub const NODE_KINDS: usize = 10;
pub const NODE_TYPES: usize = 1034;
pub const NODE_LANGS: usize = 2058;
pub const SUBJECTS: usize = 3082;
pub const PREDICATES: usize = 7178;
pub const OBJECTS: usize = 11274;
pub const PATH_CODES: usize = 15370;
pub const PATH_FIRSTS: usize = 15498;
pub const PATH_SECONDS: usize = 15626;
pub const FORM_CODES: usize = 15754;
pub const FORM_FIRSTS: usize = 15866;
pub const FORM_SECONDS: usize = 15978;
pub const FORM_THIRDS: usize = 16090;
pub const FORM_FOURTHS: usize = 16202;
pub const ITEMS: usize = 16314;
pub const ROOTS: usize = 16442;
pub const RULE_SHAPES: usize = 16506;
pub const RULE_TARGETS: usize = 16538;
pub const RULE_OPERANDS: usize = 16570;
pub const FORM_VALUES: usize = 1024;

/// the most of each count: nodes, links, types, langs, shapes, facts, path entries, form entries, items, rules
pub const LIMITS: [usize; 10] = [ROOM[0], ROOM[1], ROOM[2], ROOM[3], ROOM[4], 4096, 128, 112, 128, 32];
/// where the names of each pool begin, and how many bytes each has
pub const POOL_NAMES: [usize; 5] = [0, 32768, 40960, 41984, 43008];
pub const NAME_BYTES: usize = 32;

#[derive(Clone, Debug, PartialEq)]
pub struct Tables {
    pub names: Vec<u8>,
    pub cells: Vec<u16>,
    pub values: Vec<i64>,
}

impl Tables {
    pub fn zeros() -> Tables {
        Tables { names: vec![0; NAMES], cells: vec![0; CELLS], values: vec![0; VALUES] }
    }

    fn put(&mut self, columns: &[usize], k: usize, numbers: &[usize]) {
        columns.iter().zip(numbers).for_each(|(at, &n)| self.cells[at + k] = n as u16);
    }
}

fn end_number(end: End) -> usize {
    match end {
        End::Id => NO_NUMBER as usize,
        End::Along(e) => e,
    }
}

/// The tables of a book.
pub fn encode(book: &Book) -> Tables {
    let mut t = Tables::zeros();
    for (pool, names) in book.pools.iter().enumerate() {
        for (k, name) in names.iter().enumerate() {
            let at = POOL_NAMES[pool] + NAME_BYTES * k;
            t.names[at..at + name.len()].copy_from_slice(name);
        }
    }
    for (k, term) in book.terms.iter().enumerate() {
        let numbers = match *term {
            Term::Thing => [0, 0, 0],
            Term::Blank => [1, 0, 0],
            Term::Number(ty, x) => {
                t.values[k] = x;
                [2, ty, 0]
            }
            Term::Text(ty) => [3, ty, 0],
            Term::Words(l) => [4, 0, l],
        };
        t.put(&[NODE_KINDS, NODE_TYPES, NODE_LANGS], k, &numbers);
    }
    for (k, &(s, p, o)) in book.facts.iter().enumerate() {
        t.put(&[SUBJECTS, PREDICATES, OBJECTS], k, &[s, p, o]);
    }
    for (k, path) in book.paths.iter().enumerate() {
        let numbers = match *path {
            Path::Link(p) => [0, p, 0],
            Path::Inv(d) => [1, d, 0],
            Path::Seq(d, e) => [2, d, e],
            Path::Alt(d, e) => [3, d, e],
            Path::Star(d) => [4, d, 0],
            Path::Plus(d) => [5, d, 0],
        };
        t.put(&[PATH_CODES, PATH_FIRSTS, PATH_SECONDS], k, &numbers);
    }
    let mut items = 0;
    for (k, form) in book.forms.iter().enumerate() {
        let mut list = |t: &mut Tables, code: usize, list: &[usize]| {
            let first = items;
            list.iter().enumerate().for_each(|(i, &n)| t.cells[ITEMS + first + i] = n as u16);
            items += list.len();
            [code, first, list.len(), 0, 0]
        };
        let value = |t: &mut Tables, code: usize, x: i64| {
            t.values[FORM_VALUES + k] = x;
            [code, 0, 0, 0, 0]
        };
        let numbers = match form {
            Form::True => [0; 5],
            Form::Is(c) => [1, *c, 0, 0, 0],
            Form::Shape(s) => [2, *s, 0, 0, 0],
            Form::And(f, g) => [3, *f, *g, 0, 0],
            Form::Or(f, g) => [4, *f, *g, 0, 0],
            Form::Not(f) => [5, *f, 0, 0, 0],
            Form::Kind(c) => [6, *c, 0, 0, 0],
            Form::Datatype(ty) => [7, *ty, 0, 0, 0],
            Form::Lang(langs) => list(&mut t, 8, langs),
            Form::From(x) => value(&mut t, 9, *x),
            Form::Above(x) => value(&mut t, 10, *x),
            Form::To(x) => value(&mut t, 11, *x),
            Form::Below(x) => value(&mut t, 12, *x),
            Form::Count { path, form, lo, hi } => [13, *path, *form, *lo, hi.unwrap_or(NO_NUMBER as usize)],
            Form::All(e, f) => [14, *e, *f, 0, 0],
            Form::Equal(e, p) => [15, end_number(*e), *p, 0, 0],
            Form::Apart(e, p) => [16, end_number(*e), *p, 0, 0],
            Form::Closed(links) => list(&mut t, 17, links),
            Form::Less(e, p) => [18, *e, *p, 0, 0],
            Form::Lesseq(e, p) => [19, *e, *p, 0, 0],
            Form::Onelang(e) => [20, *e, 0, 0, 0],
        };
        t.put(&[FORM_CODES, FORM_FIRSTS, FORM_SECONDS, FORM_THIRDS, FORM_FOURTHS], k, &numbers);
    }
    for (k, &root) in book.shapes.iter().enumerate() {
        t.put(&[ROOTS], k, &[root]);
    }
    for (k, (shape, target)) in book.rules.iter().enumerate() {
        let (code, operand) = match *target {
            Target::Node(c) => (0, c),
            Target::Subjects(p) => (1, p),
            Target::Objects(p) => (2, p),
            Target::Class(c) => (3, c),
        };
        t.put(&[RULE_SHAPES, RULE_TARGETS, RULE_OPERANDS], k, &[*shape, code, operand]);
    }
    let counts =
        book.pools.iter().map(Vec::len).chain([book.facts.len(), book.paths.len(), book.forms.len(), items, book.rules.len()]);
    counts.enumerate().for_each(|(i, n)| t.cells[i] = n as u16);
    t
}

/// A number that must be below a bound.
pub fn below(n: usize, bound: usize) -> Option<usize> {
    (n < bound).then_some(n)
}

/// A bound of a count, or `*`.
pub fn high(n: usize) -> Option<Option<usize>> {
    if n == NO_NUMBER as usize {
        return Some(None);
    }
    below(n, 1025).map(Some)
}

/// END: a path entry below the bound, or `id`.
pub fn end(n: usize, bound: usize) -> Option<End> {
    if n == NO_NUMBER as usize {
        return Some(End::Id);
    }
    below(n, bound).map(End::Along)
}

/// What the tables say; nothing where they are not well formed (refusal 9).
pub fn decode(t: &Tables) -> Option<Book> {
    let cell = |column: usize, k: usize| t.cells[column + k] as usize;
    let counts: Vec<usize> = (0..10).map(|i| cell(0, i)).collect();
    if (0..10).any(|i| counts[i] > LIMITS[i]) {
        return None;
    }
    let [facts, paths, forms, items, rules] = [counts[5], counts[6], counts[7], counts[8], counts[9]];
    let mut book = Book::default();
    for pool in 0..5 {
        let stored = |k: usize| {
            let place = &t.names[POOL_NAMES[pool] + NAME_BYTES * k..][..NAME_BYTES - 1];
            place.iter().copied().take_while(|&b| b != 0).collect()
        };
        book.pools[pool] = (0..counts[pool]).map(stored).collect();
    }
    for k in 0..counts[NODES] {
        let datatype = || below(cell(NODE_TYPES, k), counts[TYPES]);
        book.terms.push(match cell(NODE_KINDS, k) {
            0 => Term::Thing,
            1 => Term::Blank,
            2 => Term::Number(datatype()?, t.values[k]),
            3 => Term::Text(datatype()?),
            4 => Term::Words(below(cell(NODE_LANGS, k), counts[LANGS])?),
            _ => return None,
        });
    }
    for k in 0..facts {
        let s = below(cell(SUBJECTS, k), counts[NODES])?;
        let p = below(cell(PREDICATES, k), counts[LINKS])?;
        book.facts.push((s, p, below(cell(OBJECTS, k), counts[NODES])?));
    }
    for k in 0..paths {
        let (first, second) = (cell(PATH_FIRSTS, k), cell(PATH_SECONDS, k));
        book.paths.push(match cell(PATH_CODES, k) {
            0 => Path::Link(below(first, counts[LINKS])?),
            1 => Path::Inv(below(first, k)?),
            2 => Path::Seq(below(first, k)?, below(second, k)?),
            3 => Path::Alt(below(first, k)?, below(second, k)?),
            4 => Path::Star(below(first, k)?),
            5 => Path::Plus(below(first, k)?),
            _ => return None,
        });
    }
    for k in 0..counts[SHAPES] {
        book.shapes.push(below(cell(ROOTS, k), forms)?);
    }
    for k in 0..forms {
        let (first, second) = (cell(FORM_FIRSTS, k), cell(FORM_SECONDS, k));
        let list = |pool: usize| {
            // an empty list names no item, wherever it begins
            if second > 0 && first + second > items {
                return None;
            }
            (first..first + second).map(|i| below(cell(ITEMS, i), counts[pool])).collect::<Option<Vec<usize>>>()
        };
        let path = || below(first, paths);
        let link = || below(second, counts[LINKS]);
        let value = t.values[FORM_VALUES + k];
        book.forms.push(match cell(FORM_CODES, k) {
            0 => Form::True,
            1 => Form::Is(below(first, counts[NODES])?),
            2 => {
                let s = below(first, counts[SHAPES])?;
                below(book.shapes[s], k)?;
                Form::Shape(s)
            }
            3 => Form::And(below(first, k)?, below(second, k)?),
            4 => Form::Or(below(first, k)?, below(second, k)?),
            5 => Form::Not(below(first, k)?),
            6 => Form::Kind(below(first, 3)?),
            7 => Form::Datatype(below(first, counts[TYPES])?),
            8 => Form::Lang(list(LANGS)?),
            9 => Form::From(value),
            10 => Form::Above(value),
            11 => Form::To(value),
            12 => Form::Below(value),
            13 => {
                let (lo, hi) = (below(cell(FORM_THIRDS, k), 1025)?, high(cell(FORM_FOURTHS, k))?);
                Form::Count { path: path()?, form: below(second, k)?, lo, hi }
            }
            14 => Form::All(path()?, below(second, k)?),
            15 => Form::Equal(end(first, paths)?, link()?),
            16 => Form::Apart(end(first, paths)?, link()?),
            17 => Form::Closed(list(LINKS)?),
            18 => Form::Less(path()?, link()?),
            19 => Form::Lesseq(path()?, link()?),
            20 => Form::Onelang(path()?),
            _ => return None,
        });
    }
    for k in 0..rules {
        let shape = below(cell(RULE_SHAPES, k), counts[SHAPES])?;
        let operand = cell(RULE_OPERANDS, k);
        let target = match cell(RULE_TARGETS, k) {
            0 => Target::Node(below(operand, counts[NODES])?),
            1 => Target::Subjects(below(operand, counts[LINKS])?),
            2 => Target::Objects(below(operand, counts[LINKS])?),
            3 => Target::Class(below(operand, counts[NODES])?),
            _ => return None,
        };
        book.rules.push((shape, target));
    }
    Some(book)
}
