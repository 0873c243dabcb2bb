//! Plans: document 01's table of steps, what each step's set is, and a plan in lent cells at the places of docs/LAYOUT.md.

use crate::set::Set;
use crate::tables::{below, end, high, NO_NUMBER};
use crate::{Book, End, Form, Target};

/// A step; numbers of nodes, links, path entries, form entries and steps before it.
#[derive(Clone, Copy, Debug, PartialEq)]
pub enum Step {
    All,
    None,
    Is(usize),
    Isnot(usize),
    /// the form entry that is the test
    Test(usize),
    Untest(usize),
    Both(usize, usize),
    Either(usize, usize),
    Count {
        path: usize,
        step: usize,
        lo: usize,
        hi: Option<usize>,
    },
    Every(usize, usize),
    Equal(End, usize),
    Unequal(End, usize),
    Apart(End, usize),
    Meet(End, usize),
    /// the form entry that has the list
    Closed(usize),
    Open(usize),
    Less(usize, usize),
    Notless(usize, usize),
    Lesseq(usize, usize),
    Notlesseq(usize, usize),
    Onelang(usize),
    Manylang(usize),
    From(usize),
    Into(usize),
    Typed(usize),
}

#[derive(Clone, Debug, Default, PartialEq)]
pub struct Plan {
    pub steps: Vec<Step>,
    /// the step of each rule's list
    pub rules: Vec<usize>,
}

impl Plan {
    fn add(&mut self, step: Step) -> usize {
        self.steps.push(step);
        self.steps.len() - 1
    }

    /// the breaking steps of a count; the last is the entry's
    fn broken_count(&mut self, path: usize, step: usize, lo: usize, hi: Option<usize>) -> usize {
        let low = |lo: usize| Step::Count { path, step, lo: 0, hi: Some(lo - 1) };
        let high = |hi: usize| Step::Count { path, step, lo: hi + 1, hi: None };
        match (lo, hi) {
            (0, None) => self.add(Step::None),
            (0, Some(h)) => self.add(high(h)),
            (_, None) => self.add(low(lo)),
            (_, Some(h)) => {
                let (l, u) = (self.add(low(lo)), self.add(high(h)));
                self.add(Step::Either(l, u))
            }
        }
    }
}

/// Document 01's table of steps.
pub fn compile(book: &Book) -> Plan {
    let mut plan = Plan::default();
    // the keeping and the breaking step of each entry
    let mut two: Vec<(usize, usize)> = Vec::new();
    for (k, form) in book.forms.iter().enumerate() {
        let steps = match *form {
            Form::Shape(s) => {
                two.push(two[book.shapes[s]]);
                continue;
            }
            Form::Not(f) => {
                two.push((two[f].1, two[f].0));
                continue;
            }
            Form::Count { path, form, lo, hi } => {
                let keeps = plan.add(Step::Count { path, step: two[form].0, lo, hi });
                let breaks = plan.broken_count(path, two[form].0, lo, hi);
                two.push((keeps, breaks));
                continue;
            }
            Form::True => (Step::All, Step::None),
            Form::Is(c) => (Step::Is(c), Step::Isnot(c)),
            Form::And(f, g) => (Step::Both(two[f].0, two[g].0), Step::Either(two[f].1, two[g].1)),
            Form::Or(f, g) => (Step::Either(two[f].0, two[g].0), Step::Both(two[f].1, two[g].1)),
            Form::All(e, f) => (Step::Every(e, two[f].0), Step::Count { path: e, step: two[f].1, lo: 1, hi: None }),
            Form::Equal(e, p) => (Step::Equal(e, p), Step::Unequal(e, p)),
            Form::Apart(e, p) => (Step::Apart(e, p), Step::Meet(e, p)),
            Form::Closed(_) => (Step::Closed(k), Step::Open(k)),
            Form::Less(e, p) => (Step::Less(e, p), Step::Notless(e, p)),
            Form::Lesseq(e, p) => (Step::Lesseq(e, p), Step::Notlesseq(e, p)),
            Form::Onelang(e) => (Step::Onelang(e), Step::Manylang(e)),
            _ => (Step::Test(k), Step::Untest(k)),
        };
        let keeps = plan.add(steps.0);
        two.push((keeps, plan.add(steps.1)));
    }
    for (shape, target) in &book.rules {
        let selected = plan.add(match *target {
            Target::Node(c) => Step::Is(c),
            Target::Subjects(p) => Step::From(p),
            Target::Objects(p) => Step::Into(p),
            Target::Class(c) => Step::Typed(c),
        });
        let list = plan.add(Step::Both(selected, two[book.shapes[*shape]].1));
        plan.rules.push(list);
    }
    plan
}

/// The set of each step, as its name says: each condition that breaks is asked for itself.
pub fn run(book: &Book, plan: &Plan) -> Vec<Set> {
    let (ends, out) = (book.ends(), book.links_out());
    let mut sets: Vec<Set> = Vec::new();
    for step in &plan.steps {
        let link = match *step {
            Step::Equal(_, p) | Step::Unequal(_, p) | Step::Apart(_, p) | Step::Meet(_, p) => book.link_ends(p),
            Step::Less(_, p) | Step::Notless(_, p) | Step::Lesseq(_, p) | Step::Notlesseq(_, p) => book.link_ends(p),
            _ => Vec::new(),
        };
        let start = |e: End, v: usize| book.end_set(&ends, e, v);
        let fails = |e: usize, v: usize, order: fn(i64, i64) -> bool| {
            ends[e][v].iter().any(|x| {
                link[v].iter().any(|y| match (book.number(x), book.number(y)) {
                    (Some(s), Some(t)) => !order(s, t),
                    _ => true,
                })
            })
        };
        let listed = |k: usize, p: usize| matches!(&book.forms[k], Form::Closed(links) if links.contains(&p));
        let holds = |v: usize| match *step {
            Step::All => true,
            Step::None => false,
            Step::Is(c) => v == c,
            Step::Isnot(c) => v != c,
            Step::Test(k) => book.test(&book.forms[k], v),
            Step::Untest(k) => !book.test(&book.forms[k], v),
            Step::Both(a, b) => sets[a].has(v) && sets[b].has(v),
            Step::Either(a, b) => sets[a].has(v) || sets[b].has(v),
            Step::Count { path, step, lo, hi } => {
                let n = ends[path][v].and(&sets[step]).len();
                lo <= n && hi.is_none_or(|h| n <= h)
            }
            Step::Every(e, m) => ends[e][v].iter().all(|w| sets[m].has(w)),
            Step::Equal(e, _) => start(e, v) == link[v],
            Step::Unequal(e, _) => {
                let first = start(e, v);
                (0..book.nodes()).any(|w| first.has(w) != link[v].has(w))
            }
            Step::Apart(e, _) => start(e, v).and(&link[v]).is_empty(),
            Step::Meet(e, _) => start(e, v).iter().any(|w| link[v].has(w)),
            Step::Closed(k) => out[v].iter().all(|&p| listed(k, p)),
            Step::Open(k) => out[v].iter().any(|&p| !listed(k, p)),
            Step::Less(e, _) => book.less(&ends[e][v], &link[v]),
            Step::Notless(e, _) => fails(e, v, |s, t| s < t),
            Step::Lesseq(e, _) => book.lesseq(&ends[e][v], &link[v]),
            Step::Notlesseq(e, _) => fails(e, v, |s, t| s <= t),
            Step::Onelang(e) => book.onelang(&ends[e][v]),
            Step::Manylang(e) => {
                let mut seen = [false; 32];
                let again = |l: usize| std::mem::replace(&mut seen[l], true);
                ends[e][v].iter().filter_map(|w| book.language(w)).any(again)
            }
            Step::From(_) | Step::Into(_) | Step::Typed(_) => unreachable!("found by facts"),
        };
        let set = match *step {
            Step::From(p) => book.subjects(p),
            Step::Into(p) => book.objects(p),
            Step::Typed(c) => book.instances(c),
            _ => Set::of(book.nodes(), holds),
        };
        sets.push(set);
    }
    sets
}

pub const PLAN_CELLS: usize = 2593;
pub const RULE_STEPS: usize = 1;
pub const STEP_CODES: usize = 33;
/// how many steps there may be, and so how far apart their columns are
pub const STEPS: usize = 512;

/// a step's code and four operands
fn numbers(step: &Step) -> [usize; 5] {
    let from = |e: End| match e {
        End::Id => NO_NUMBER as usize,
        End::Along(e) => e,
    };
    match *step {
        Step::All => [0; 5],
        Step::None => [1, 0, 0, 0, 0],
        Step::Is(c) => [2, c, 0, 0, 0],
        Step::Isnot(c) => [3, c, 0, 0, 0],
        Step::Test(k) => [4, k, 0, 0, 0],
        Step::Untest(k) => [5, k, 0, 0, 0],
        Step::Both(a, b) => [6, a, b, 0, 0],
        Step::Either(a, b) => [7, a, b, 0, 0],
        Step::Count { path, step, lo, hi } => [8, path, step, lo, hi.unwrap_or(NO_NUMBER as usize)],
        Step::Every(e, m) => [9, e, m, 0, 0],
        Step::Equal(e, p) => [10, from(e), p, 0, 0],
        Step::Unequal(e, p) => [11, from(e), p, 0, 0],
        Step::Apart(e, p) => [12, from(e), p, 0, 0],
        Step::Meet(e, p) => [13, from(e), p, 0, 0],
        Step::Closed(k) => [14, k, 0, 0, 0],
        Step::Open(k) => [15, k, 0, 0, 0],
        Step::Less(e, p) => [16, e, p, 0, 0],
        Step::Notless(e, p) => [17, e, p, 0, 0],
        Step::Lesseq(e, p) => [18, e, p, 0, 0],
        Step::Notlesseq(e, p) => [19, e, p, 0, 0],
        Step::Onelang(e) => [20, e, 0, 0, 0],
        Step::Manylang(e) => [21, e, 0, 0, 0],
        Step::From(p) => [22, p, 0, 0, 0],
        Step::Into(p) => [23, p, 0, 0, 0],
        Step::Typed(c) => [24, c, 0, 0, 0],
    }
}

/// The cells of a plan.
pub fn encode(plan: &Plan) -> Vec<u16> {
    let mut cells = vec![0; PLAN_CELLS];
    cells[0] = plan.steps.len() as u16;
    plan.rules.iter().enumerate().for_each(|(r, &k)| cells[RULE_STEPS + r] = k as u16);
    for (k, step) in plan.steps.iter().enumerate() {
        numbers(step).iter().enumerate().for_each(|(i, &n)| cells[STEP_CODES + STEPS * i + k] = n as u16);
    }
    cells
}

/// The plan in these cells, for well-formed tables; nothing where it is not well formed (refusal 9).
pub fn decode(book: &Book, cells: &[u16]) -> Option<Plan> {
    let count = below(cells[0] as usize, STEPS + 1)?;
    let mut plan = Plan::default();
    for k in 0..count {
        let [code, a, b, lo, hi]: [usize; 5] = std::array::from_fn(|i| cells[STEP_CODES + STEPS * i + k] as usize);
        let node = || below(a, book.nodes());
        let path = || below(a, book.paths.len());
        let start = || end(a, book.paths.len());
        let link = |n: usize| below(n, book.pools[1].len());
        let step = |n: usize| below(n, k);
        let test = || {
            let form = book.forms.get(a)?;
            let is_test = matches!(
                form,
                Form::Kind(_) | Form::Datatype(_) | Form::Lang(_) | Form::From(_) | Form::Above(_) | Form::To(_) | Form::Below(_)
            );
            is_test.then_some(a)
        };
        let closed = || matches!(book.forms.get(a)?, Form::Closed(_)).then_some(a);
        plan.steps.push(match code {
            0 => Step::All,
            1 => Step::None,
            2 => Step::Is(node()?),
            3 => Step::Isnot(node()?),
            4 => Step::Test(test()?),
            5 => Step::Untest(test()?),
            6 => Step::Both(step(a)?, step(b)?),
            7 => Step::Either(step(a)?, step(b)?),
            8 => Step::Count { path: path()?, step: step(b)?, lo: below(lo, 1026)?, hi: high(hi)? },
            9 => Step::Every(path()?, step(b)?),
            10 => Step::Equal(start()?, link(b)?),
            11 => Step::Unequal(start()?, link(b)?),
            12 => Step::Apart(start()?, link(b)?),
            13 => Step::Meet(start()?, link(b)?),
            14 => Step::Closed(closed()?),
            15 => Step::Open(closed()?),
            16 => Step::Less(path()?, link(b)?),
            17 => Step::Notless(path()?, link(b)?),
            18 => Step::Lesseq(path()?, link(b)?),
            19 => Step::Notlesseq(path()?, link(b)?),
            20 => Step::Onelang(path()?),
            21 => Step::Manylang(path()?),
            22 => Step::From(link(a)?),
            23 => Step::Into(link(a)?),
            24 => Step::Typed(node()?),
            _ => return None,
        });
    }
    for r in 0..book.rules.len() {
        plan.rules.push(below(cells[RULE_STEPS + r] as usize, count)?);
    }
    Some(plan)
}

/// Document 01's book B and its plan: Equal, Unequal, From twin, Both 2 1.
#[test]
fn plan_of_book_b() {
    let text = include_bytes!("../../vectors/000-book-b.book");
    let book = crate::reader::read(text).unwrap();
    let (path, mount, twin) = (End::Along(2), 1, 2);
    let steps = vec![Step::Equal(path, mount), Step::Unequal(path, mount), Step::From(twin), Step::Both(2, 1)];
    assert_eq!(compile(&book), Plan { steps, rules: vec![3] });
}
