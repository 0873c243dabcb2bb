//! Tables and plans that no reader or compiler made: shared and unused entries, garbage past the counts, cells changed.

use crate::random::Random;
use reference::plan::{self, Plan, Step};
use reference::tables::{self, Tables, CELLS, LIMITS, NAME_BYTES, NO_NUMBER, POOL_NAMES};
use reference::{Book, End, Form, Path, Target, Term};

/// A number below n, or 0 if there is none.
fn some(r: &Random, n: usize) -> usize {
    if n == 0 {
        0
    } else {
        r.below(n)
    }
}

fn value(r: &Random) -> i64 {
    match r.below(10) {
        0 => i64::MAX,
        1 => i64::MIN,
        2 => r.next() as i64,
        _ => r.below(7) as i64 - 3,
    }
}

fn end(r: &Random, paths: usize) -> End {
    if paths == 0 || r.once_in(4) {
        End::Id
    } else {
        End::Along(r.below(paths))
    }
}

fn bounds(r: &Random, most: usize) -> (usize, Option<usize>) {
    let lo = r.pick(&[0, 0, 1, 2, 3, 1024, most]);
    (lo, r.pick(&[None, None, Some(0), Some(1), Some(3), Some(1024)]))
}

/// For each path entry, what it costs to follow it, shared ones once for each use: all facts for an entry, and for a repeat what
/// leads from each node to each, sixteen at a time.
fn costs(book: &Book) -> Vec<usize> {
    let (each, repeat) = (book.facts.len().max(250), book.nodes() * book.nodes() / 16);
    let mut costs: Vec<usize> = Vec::new();
    for path in &book.paths {
        let parts = match *path {
            Path::Link(_) => 0,
            Path::Inv(d) => costs[d],
            Path::Star(d) | Path::Plus(d) => costs[d].saturating_add(repeat),
            Path::Seq(d, e) | Path::Alt(d, e) => costs[d].saturating_add(costs[e]),
        };
        costs.push(parts.saturating_add(each));
    }
    costs
}

/// No path costs more than this, or following it takes long.
fn quick(book: &Book) -> bool {
    costs(book).iter().all(|&cost| cost <= 100_000)
}

/// Facts from any node to any; or rings by one link, each node leading so many nodes on, with a few such facts beside them.
fn facts(r: &Random, nodes: usize, links: usize) -> Vec<(usize, usize, usize)> {
    let any = |_| (r.below(nodes), r.below(links), r.below(nodes));
    if r.once_in(3) {
        let (link, step) = (r.below(links), r.between(1, nodes));
        let rings = (0..nodes).map(|v| (v, link, (v + step) % nodes));
        return rings.chain((0..r.below(8)).map(any)).collect();
    }
    (0..r.below(3 * nodes + 1)).map(any).collect()
}

/// What well-formed tables may say, though no book says it.
fn book(r: &Random) -> Book {
    let mut b = Book::default();
    let nodes = if r.once_in(20) { r.between(1000, 1024) } else { r.pick(&[0, 1, 2, 3, 5, 9, 30, 64, 65, 130]) };
    for (pool, n) in [nodes, r.below(5), r.below(4), r.below(4)].into_iter().enumerate() {
        b.pools[pool] = vec![Vec::new(); n];
    }
    let [links, types, langs] = [1, 2, 3].map(|pool| b.pools[pool].len());
    for _ in 0..nodes {
        b.terms.push(match r.below(8) {
            0 => Term::Blank,
            1 if types > 0 => Term::Text(r.below(types)),
            2..=4 if types > 0 => Term::Number(r.below(types), value(r)),
            5 if langs > 0 => Term::Words(r.below(langs)),
            _ => Term::Thing,
        });
    }
    if nodes > 0 && links > 0 {
        b.facts = facts(r, nodes, links);
        for k in 0..r.below(12) {
            b.paths.push(match r.below(8) {
                1 if k > 0 => Path::Inv(r.below(k)),
                2 if k > 0 => Path::Alt(r.below(k), r.below(k)),
                3 if k > 0 => Path::Seq(r.below(k), r.below(k)),
                4 if k > 0 => Path::Star(r.below(k)),
                5 if k > 0 => Path::Plus(r.below(k)),
                _ => Path::Link(r.below(links)),
            });
        }
    }
    let forms = r.below(if r.once_in(8) { 112 } else { 20 });
    if forms > 0 {
        b.shapes = (0..r.below(6)).map(|_| r.below(forms)).collect();
        b.pools[4] = vec![Vec::new(); b.shapes.len()];
    }
    for k in 0..forms {
        let form = form(r, &b, k);
        b.forms.push(form);
    }
    if !b.shapes.is_empty() {
        for _ in 0..r.below(6) {
            let target = match r.below(6) {
                0 if nodes > 0 => Target::Node(r.below(nodes)),
                1 if links > 0 => Target::Subjects(r.below(links)),
                2 if links > 0 => Target::Objects(r.below(links)),
                3.. if nodes > 0 => Target::Class(r.below(nodes)),
                _ => continue,
            };
            b.rules.push((r.below(b.shapes.len()), target));
        }
    }
    b
}

/// a form that may stand as entry k
fn form(r: &Random, b: &Book, k: usize) -> Form {
    let (nodes, paths) = (b.nodes(), b.paths.len());
    let [links, types, langs] = [1, 2, 3].map(|pool| b.pools[pool].len());
    let list = |r: &Random, n: usize| if n == 0 { Vec::new() } else { (0..r.below(3)).map(|_| r.below(n)).collect() };
    loop {
        return match r.below(21) {
            0 => Form::True,
            1 if nodes > 0 => Form::Is(r.below(nodes)),
            2 if !b.shapes.is_empty() => match r.below(b.shapes.len()) {
                s if b.shapes[s] < k => Form::Shape(s),
                _ => continue,
            },
            3 if k > 0 => Form::And(r.below(k), r.below(k)),
            4 if k > 0 => Form::Or(r.below(k), r.below(k)),
            5 if k > 0 => Form::Not(r.below(k)),
            6 => Form::Kind(r.below(3)),
            7 if types > 0 => Form::Datatype(r.below(types)),
            8 => Form::Lang(list(r, langs)),
            9 => Form::From(value(r)),
            10 => Form::Above(value(r)),
            11 => Form::To(value(r)),
            12 => Form::Below(value(r)),
            13 if k > 0 && paths > 0 => {
                let (lo, hi) = bounds(r, 1024);
                Form::Count { path: r.below(paths), form: r.below(k), lo, hi }
            }
            14 if k > 0 && paths > 0 => Form::All(r.below(paths), r.below(k)),
            15 if links > 0 => Form::Equal(end(r, paths), r.below(links)),
            16 if links > 0 => Form::Apart(end(r, paths), r.below(links)),
            17 => Form::Closed(list(r, links)),
            18 if paths > 0 => Form::Less(r.below(paths), r.below(links)),
            19 if paths > 0 => Form::Lesseq(r.below(paths), r.below(links)),
            20 if paths > 0 => Form::Onelang(r.below(paths)),
            _ => continue,
        };
    }
}

/// the columns of the cells: where each begins, and the number of the count that says how much of it is used
const COLUMNS: [(usize, usize); 19] = [
    (tables::NODE_KINDS, 0),
    (tables::NODE_TYPES, 0),
    (tables::NODE_LANGS, 0),
    (tables::SUBJECTS, 5),
    (tables::PREDICATES, 5),
    (tables::OBJECTS, 5),
    (tables::PATH_CODES, 6),
    (tables::PATH_FIRSTS, 6),
    (tables::PATH_SECONDS, 6),
    (tables::FORM_CODES, 7),
    (tables::FORM_FIRSTS, 7),
    (tables::FORM_SECONDS, 7),
    (tables::FORM_THIRDS, 7),
    (tables::FORM_FOURTHS, 7),
    (tables::ITEMS, 8),
    (tables::ROOTS, 4),
    (tables::RULE_SHAPES, 9),
    (tables::RULE_TARGETS, 9),
    (tables::RULE_OPERANDS, 9),
];

/// Tables of a book that no text says, with garbage wherever nothing looks.
pub fn tables(r: &Random) -> Tables {
    let b = loop {
        let b = book(r);
        if quick(&b) {
            break b;
        }
    };
    let mut t = tables::encode(&b);
    t.names.iter_mut().for_each(|x| *x = if r.once_in(9) { 0 } else { r.next() as u8 });
    name_links(r, &mut t);
    for (column, count) in COLUMNS {
        let used = t.cells[count] as usize;
        (used..LIMITS[count]).for_each(|k| t.cells[column + k] = r.next() as u16);
    }
    t
}

/// A name that is `under`, whatever stands behind its zero, or nearly.
fn name(r: &Random) -> [u8; NAME_BYTES] {
    // no zero, or zeros alone, behind what is put first
    let mut bytes = [r.pick(b"\0\0r1"); NAME_BYTES];
    let first: &[u8] = match r.below(12) {
        0 => b"Under\0",
        1 => b"under1\0",
        2 => b"unde\0r\0",
        3 => b"\0under\0",
        4 => b"undes\0",
        // named so where a zero is next
        5 => b"under",
        _ => b"under\0",
    };
    bytes[..first.len()].copy_from_slice(first);
    bytes
}

/// Such names for some links, and for the one past the last; now and then at the places of any pool.
fn name_links(r: &Random, t: &mut Tables) {
    for _ in 0..r.pick(&[0, 1, 1, 2, 3]) {
        let links = LIMITS[1].min(t.cells[1] as usize);
        let (pool, k) = match r.below(10) {
            0 => (1, r.pick(&[links.min(255), 255])),
            1 => {
                let pool = r.below(5);
                (pool, r.pick(&[0, 1, LIMITS[pool] - 1]))
            }
            _ => (1, some(r, links)),
        };
        let at = POOL_NAMES[pool] + NAME_BYTES * k;
        t.names[at..at + NAME_BYTES].copy_from_slice(&name(r));
    }
}

/// A number on one of the borders between those with which a cell is well formed and those with which it is not.
fn on_a_border(r: &Random, ok: impl FnMut(u16) -> bool) -> Option<u16> {
    let ranges = [0..=40, 62..=66, 110..=130, 254..=257, 510..=513, 1022..=1026, 4094..=4097, 65533..=NO_NUMBER];
    let numbers: Vec<u16> = ranges.into_iter().flatten().collect();
    let good: Vec<bool> = numbers.iter().copied().map(ok).collect();
    let borders: Vec<usize> = (1..numbers.len()).filter(|&i| good[i - 1] != good[i]).collect();
    (!borders.is_empty()).then(|| numbers[r.pick(&borders) - r.below(2)])
}

/// A number that a cell may get: small ones, those about the counts and limits, any.
fn number(r: &Random, counts: &[u16]) -> u16 {
    match r.below(8) {
        0 => r.next() as u16,
        1 => r.pick(&[NO_NUMBER, 1024, 1025, 1023, 4096, 512, 128, 112, 64, 32]),
        2 | 3 => r.pick(counts).wrapping_add(r.pick(&[0, 1, NO_NUMBER])),
        4 => some(r, r.pick(counts) as usize) as u16,
        _ => r.below(26) as u16,
    }
}

/// Makes a path entry another: any code, or the first that there is not; its first operand the entry before it, itself or the next.
fn change_path(r: &Random, t: &mut Tables) {
    let before = t.clone();
    let paths = LIMITS[6].min(t.cells[6] as usize);
    if paths > 0 {
        let k = r.below(paths);
        t.cells[tables::PATH_CODES + k] = r.below(7) as u16;
        t.cells[tables::PATH_FIRSTS + k] = (k + r.below(3)).saturating_sub(1) as u16;
    }
    if tables::decode(t).is_some_and(|book| !quick(&book)) {
        *t = before;
    }
}

/// Changes some cells and values. Most changes after which the tables would not be well formed are taken back; now and then the
/// last one is on the border.
pub fn change_tables(r: &Random, t: &mut Tables) {
    let place = |cells: &[u16]| {
        let (column, count) = r.pick(&COLUMNS);
        match r.below(12) {
            0 => r.below(CELLS),
            1 => r.below(10),
            _ => column + some(r, LIMITS[count].min(cells[count] as usize)),
        }
    };
    for _ in 0..r.pick(&[1, 2, 5, 20]) {
        let at = place(&t.cells);
        let new = number(r, &t.cells[..10]);
        let before = std::mem::replace(&mut t.cells[at], new);
        let back = match tables::decode(t) {
            Some(book) => !quick(&book),
            None => r.below(10) > 0,
        };
        if back {
            t.cells[at] = before;
        }
        if r.once_in(3) {
            let k = r.below(tables::VALUES);
            t.values[k] = value(r);
        }
    }
    if r.once_in(6) {
        change_path(r, t);
    }
    if r.once_in(2) {
        name_links(r, t);
    }
    if t.cells[0] < 200 && r.once_in(3) {
        let at = place(&t.cells);
        let before = t.cells[at];
        let border = on_a_border(r, |x| {
            t.cells[at] = x;
            tables::decode(t).is_some()
        });
        t.cells[at] = border.unwrap_or(before);
        if tables::decode(t).is_some_and(|book| !quick(&book)) {
            t.cells[at] = before;
        }
    }
}

/// A plan that is well formed for these tables, though no compiler made it.
pub fn plan(r: &Random, b: &Book) -> Plan {
    let mut p = Plan::default();
    let (nodes, links, paths) = (b.nodes(), b.pools[1].len(), b.paths.len());
    let entry = |r: &Random, test: fn(&Form) -> bool| {
        let found: Vec<usize> = (0..b.forms.len()).filter(|&k| test(&b.forms[k])).collect();
        if found.is_empty() {
            None
        } else {
            Some(r.pick(&found))
        }
    };
    let is_test: fn(&Form) -> bool = |f| {
        use Form::*;
        matches!(f, Kind(_) | Datatype(_) | Lang(_) | From(_) | Above(_) | To(_) | Below(_))
    };
    let many = if r.once_in(30) { r.between(500, 512) } else { r.below(24) };
    while p.steps.len() < many {
        let k = p.steps.len();
        p.steps.push(match r.below(28) {
            1 => Step::None,
            2 if nodes > 0 => Step::Is(r.below(nodes)),
            3 if nodes > 0 => Step::Isnot(r.below(nodes)),
            4 => match entry(r, is_test) {
                Some(e) => Step::Test(e),
                None => continue,
            },
            5 => match entry(r, is_test) {
                Some(e) => Step::Untest(e),
                None => continue,
            },
            6 if k > 0 => Step::Both(r.below(k), r.below(k)),
            7 if k > 0 => Step::Either(r.below(k), r.below(k)),
            8 if k > 0 && paths > 0 => {
                let (lo, hi) = bounds(r, 1025);
                Step::Count { path: r.below(paths), step: r.below(k), lo, hi }
            }
            9 if k > 0 && paths > 0 => Step::Every(r.below(paths), r.below(k)),
            10 if links > 0 => Step::Equal(end(r, paths), r.below(links)),
            11 if links > 0 => Step::Unequal(end(r, paths), r.below(links)),
            12 if links > 0 => Step::Apart(end(r, paths), r.below(links)),
            13 if links > 0 => Step::Meet(end(r, paths), r.below(links)),
            14 => match entry(r, |f| matches!(f, Form::Closed(_))) {
                Some(e) => Step::Closed(e),
                None => continue,
            },
            15 => match entry(r, |f| matches!(f, Form::Closed(_))) {
                Some(e) => Step::Open(e),
                None => continue,
            },
            16 if paths > 0 && links > 0 => Step::Less(r.below(paths), r.below(links)),
            17 if paths > 0 && links > 0 => Step::Notless(r.below(paths), r.below(links)),
            18 if paths > 0 && links > 0 => Step::Lesseq(r.below(paths), r.below(links)),
            19 if paths > 0 && links > 0 => Step::Notlesseq(r.below(paths), r.below(links)),
            20 if paths > 0 => Step::Onelang(r.below(paths)),
            21 if paths > 0 => Step::Manylang(r.below(paths)),
            22 if links > 0 => Step::From(r.below(links)),
            23 if links > 0 => Step::Into(r.below(links)),
            24.. if nodes > 0 => Step::Typed(r.below(nodes)),
            _ => Step::All,
        });
    }
    // with no step, a rule's step is none of the plan's
    p.rules = b.rules.iter().map(|_| some(r, p.steps.len())).collect();
    p
}

/// Changes some cells of a plan, as change_tables does.
pub fn change_plan(r: &Random, b: &Book, cells: &mut [u16]) {
    let counts = [b.nodes(), b.pools[1].len(), b.paths.len(), b.forms.len(), b.rules.len(), cells[0] as usize].map(|n| n as u16);
    let place = |cells: &[u16]| match r.below(12) {
        0 => r.below(plan::PLAN_CELLS),
        1 => 0,
        2 => plan::RULE_STEPS + r.below(32),
        _ => plan::STEP_CODES + plan::STEPS * r.below(5) + some(r, cells[0].min(512) as usize),
    };
    for _ in 0..r.pick(&[1, 2, 5, 20]) {
        let at = place(cells);
        let before = std::mem::replace(&mut cells[at], number(r, &counts));
        if plan::decode(b, cells).is_none() && r.below(10) > 0 {
            cells[at] = before;
        }
    }
    if r.once_in(3) {
        let at = place(cells);
        let before = cells[at];
        let border = on_a_border(r, |x| {
            cells[at] = x;
            plan::decode(b, cells).is_some()
        });
        cells[at] = border.unwrap_or(before);
    }
}
