//! One generated book through the library and through the reference: every answer, and every lent cell afterwards.

use crate::library::{self, Lent, Room};
use crate::random::Random;
use crate::{books, hostile};
use reference::nearest::{self, Spare};
use reference::plan::{self, Plan, PLAN_CELLS};
use reference::set::Set;
use reference::tables::{self, Tables, CELLS, NAMES, VALUES};
use reference::verdicts::{self, Question, TALLIES};
use reference::{reader, rounds, Book, Ends};
use std::fmt::Debug;

const WORK: usize = 8192;
const ROW: usize = 1024;
const LISTS: usize = 32 * ROW;
const LENGTHS: usize = 32;
const PAGE: usize = 45056;

/// What differs, in words; or nothing.
pub type Outcome = Result<(), String>;

/// What a lent slice may hold.
pub trait Cell: Copy + PartialEq + Debug {
    fn any(r: &Random) -> Self;
}
impl Cell for u8 {
    fn any(r: &Random) -> u8 {
        r.next() as u8
    }
}
impl Cell for u16 {
    fn any(r: &Random) -> u16 {
        r.next() as u16
    }
}
impl Cell for u32 {
    fn any(r: &Random) -> u32 {
        r.next() as u32
    }
}
impl Cell for u64 {
    fn any(r: &Random) -> u64 {
        r.next()
    }
}
impl Cell for i64 {
    fn any(r: &Random) -> i64 {
        r.next() as i64
    }
}

fn garbage<T: Cell>(r: &Random, length: usize) -> Vec<T> {
    let some: Vec<T> = (0..251).map(|_| T::any(r)).collect();
    let mut all = Vec::with_capacity(length);
    while all.len() < length {
        all.extend_from_slice(&some[..some.len().min(length - all.len())]);
    }
    all
}

/// How long a slice is lent: as long as it must be or longer, now and then shorter.
fn length(r: &Random, needed: usize) -> usize {
    match r.below(100) {
        0 => r.pick(&[0, 1, needed / 2, needed - 1]),
        1..=40 => needed,
        41..=70 => needed + 1,
        _ => needed + r.below(80),
    }
}

/// a slice to be written, full of garbage
fn lend<T: Cell>(r: &Random, needed: usize) -> Vec<T> {
    let n = length(r, needed);
    garbage(r, n)
}

/// a slice to be read: its content with garbage past it, or cut short
fn lend_of<T: Cell>(r: &Random, content: &[T]) -> Vec<T> {
    let mut lent = lend(r, content.len());
    let n = lent.len().min(content.len());
    lent[..n].copy_from_slice(&content[..n]);
    lent
}

/// what was there, with this from `at` on
fn put<T: Copy>(lent: &mut [T], at: usize, content: &[T]) {
    lent[at..at + content.len()].copy_from_slice(content);
}

/// One book's comparisons.
pub struct Case<'a> {
    pub r: &'a Random,
    /// answers compared
    pub answers: usize,
}

/// Three tables as they are lent to an operation that reads them.
#[derive(Clone, PartialEq)]
struct Three {
    names: Vec<u8>,
    cells: Vec<u16>,
    values: Vec<i64>,
}

impl Three {
    fn lent(&self) -> Lent<'_> {
        Lent { names: &self.names, cells: &self.cells, values: &self.values }
    }

    fn enough(&self) -> bool {
        self.names.len() >= NAMES && self.cells.len() >= CELLS && self.values.len() >= VALUES
    }
}

impl Case<'_> {
    fn same<T: PartialEq + Debug>(&mut self, what: &str, library: T, reference: T) -> Outcome {
        self.answers += 1;
        if library == reference {
            return Ok(());
        }
        Err(format!("{what}: the library says {library:?}, the reference {reference:?}"))
    }

    fn same_slice<T: Cell>(&mut self, what: &str, library: &[T], reference: &[T]) -> Outcome {
        self.answers += 1;
        if library == reference {
            return Ok(());
        }
        let at = (0..library.len()).find(|&i| library[i] != reference[i]).unwrap();
        Err(format!("{what} at {at}: the library left {:?}, the reference {:?}", library[at], reference[at]))
    }

    fn three(&mut self, t: &Tables) -> Three {
        let (names, cells) = (lend_of(self.r, &t.names), lend_of(self.r, &t.cells));
        Three { names, cells, values: lend_of(self.r, &t.values) }
    }

    /// Everything about one generated text, then about tables and plans of any content.
    pub fn book(&mut self, text: &[u8]) -> Outcome {
        let read = reader::read(text);
        self.read(text, &read)?;
        self.validate(text, &read)?;
        if let Ok(book) = read {
            let mut t = tables::encode(&book);
            self.made_right(&book, &t)?;
            self.tables(&t)?;
            if book.nodes() * book.paths.len() <= 4000 || self.r.once_in(4) {
                hostile::change_tables(self.r, &mut t);
                self.tables(&t)?;
            }
        }
        if self.r.once_in(4) {
            let mut t = hostile::tables(self.r);
            self.tables(&t)?;
            hostile::change_tables(self.r, &mut t);
            self.tables(&t)?;
        }
        Ok(())
    }

    /// What document 01 promises of an accepted book, held against the reference itself.
    fn made_right(&mut self, book: &Book, t: &Tables) -> Outcome {
        let plan = plan::compile(book);
        self.same("tables say their book again", tables::decode(t).as_ref() == Some(book), true)?;
        self.same("a plan of a book is well formed", plan::decode(book, &plan::encode(&plan)).as_ref() == Some(&plan), true)?;
        self.same("steps at most", plan.steps.len() <= 4 * book.forms.len() + 2 * book.rules.len(), true)?;
        let (met, sets) = (book.met(), plan::run(book, &plan));
        let from_plan: Vec<Vec<usize>> = plan.rules.iter().map(|&k| sets[k].iter().collect()).collect();
        self.same("lists by plan and by shapes", from_plan, book.lists(&met))
    }

    fn read(&mut self, text: &[u8], read: &Result<Book, (u8, usize)>) -> Outcome {
        let (mut names, mut cells, mut values): (Vec<u8>, Vec<u16>, Vec<i64>) =
            (lend(self.r, NAMES), lend(self.r, CELLS), lend(self.r, VALUES));
        let (mut names_after, mut cells_after, mut values_after) = (names.clone(), cells.clone(), values.clone());
        let enough = names.len() >= NAMES && cells.len() >= CELLS && values.len() >= VALUES;
        let expected = match read {
            _ if !enough => (8, 0, 0, 0, 0),
            Err((number, line)) => (*number as u32, *line, 0, 0, 0),
            Ok(book) => (0, 0, book.nodes(), book.facts.len(), book.rules.len()),
        };
        if enough {
            let t = read.as_ref().map_or_else(|_| Tables::zeros(), tables::encode);
            put(&mut names_after, 0, &t.names);
            put(&mut cells_after, 0, &t.cells);
            put(&mut values_after, 0, &t.values);
        }
        let r = library::read(text, &mut names, &mut cells, &mut values);
        self.same("read: refusal, line, nodes, facts, rules", (r.refusal, r.line, r.nodes, r.facts, r.rules), expected)?;
        self.same_slice("read: names", &names, &names_after)?;
        self.same_slice("read: cells", &cells, &cells_after)?;
        self.same_slice("read: values", &values, &values_after)
    }

    fn validate(&mut self, text: &[u8], read: &Result<Book, (u8, usize)>) -> Outcome {
        let mut room = Room {
            names: lend(self.r, NAMES),
            cells: lend(self.r, CELLS),
            values: lend(self.r, VALUES),
            plan: lend(self.r, PLAN_CELLS),
            work: lend(self.r, WORK),
            lists: lend(self.r, LISTS),
            lengths: lend(self.r, LENGTHS),
        };
        let mut after = room.clone();
        let enough = room.names.len() >= NAMES
            && room.cells.len() >= CELLS
            && room.values.len() >= VALUES
            && room.plan.len() >= PLAN_CELLS
            && room.work.len() >= WORK
            && room.lists.len() >= LISTS
            && room.lengths.len() >= LENGTHS;
        let mut expected = (8, 0, 0);
        let mut report = Vec::new();
        if enough {
            let t = read.as_ref().map_or_else(|_| Tables::zeros(), tables::encode);
            put(&mut after.names, 0, &t.names);
            put(&mut after.cells, 0, &t.cells);
            put(&mut after.values, 0, &t.values);
            match read {
                Err((number, line)) => expected = (*number as u32, *line, 0),
                Ok(book) => {
                    let plan = plan::compile(book);
                    expected = (0, 0, plan.steps.len());
                    put(&mut after.plan, 0, &plan::encode(&plan));
                    put(&mut after.work, 0, &words(&plan::run(book, &plan)));
                    let lists = book.lists(&book.met());
                    for (k, list) in lists.iter().enumerate() {
                        put(&mut after.lists, ROW * k, &narrow(list));
                        after.lengths[k] = list.len() as u16;
                    }
                    report = reference::report_of(book, &lists);
                }
            }
        }
        let answer = library::validate(text, &mut room);
        self.same("validate: refusal, line, steps", answer, expected)?;
        self.same_slice("validate: names", &room.names, &after.names)?;
        self.same_slice("validate: cells", &room.cells, &after.cells)?;
        self.same_slice("validate: values", &room.values, &after.values)?;
        self.same_slice("validate: plan", &room.plan, &after.plan)?;
        self.same_slice("validate: work", &room.work, &after.work)?;
        self.same_slice("validate: lists", &room.lists, &after.lists)?;
        self.same_slice("validate: lengths", &room.lengths, &after.lengths)?;
        if answer.0 == 0 {
            self.whole_report(&room, &report)
        } else {
            Ok(())
        }
    }

    /// The report of a whole run, put together from its parts.
    fn whole_report(&mut self, room: &Room, report: &[u8]) -> Outcome {
        let t = Lent { names: &room.names, cells: &room.cells, values: &room.values };
        let mut page: Vec<u8> = garbage(self.r, PAGE);
        let mut out = Vec::new();
        for part in 0..room.cells[9] as usize + 2 {
            let (refusal, bytes) = library::report(t, &room.lists, &room.lengths, part, &mut page);
            self.same("report: refusal", refusal, 0)?;
            out.extend(&page[..bytes.min(PAGE)]);
        }
        self.same("report", String::from_utf8_lossy(&out), String::from_utf8_lossy(report))
    }

    /// All operations on tables of any content.
    fn tables(&mut self, t: &Tables) -> Outcome {
        let book = tables::decode(t);
        let (ends, met) = book.as_ref().map_or_else(Default::default, |book| (book.ends(), book.met()));
        self.compile(t, &book)?;
        self.verdicts(t, &book, &met)?;
        self.rounds(t, &book, &ends)?;
        self.nearest(t, &book, &ends, &met)?;
        self.report(t, &book)?;
        let Some(book) = book else {
            let cells = garbage(self.r, PLAN_CELLS);
            return self.plan(t, None, &cells);
        };
        let mut cells = plan::encode(&plan::compile(&book));
        self.plan(t, Some(&book), &cells)?;
        if self.r.once_in(2) {
            return Ok(());
        }
        if self.r.once_in(2) {
            cells = plan::encode(&hostile::plan(self.r, &book));
        }
        hostile::change_plan(self.r, &book, &mut cells);
        self.plan(t, Some(&book), &cells)
    }

    fn compile(&mut self, t: &Tables, book: &Option<Book>) -> Outcome {
        let three = self.three(t);
        let mut plan: Vec<u16> = lend(self.r, PLAN_CELLS);
        let mut after = plan.clone();
        let expected = match book {
            _ if !three.enough() || plan.len() < PLAN_CELLS => (8, 0),
            None => (9, 0),
            Some(book) => {
                let made = plan::compile(book);
                put(&mut after, 0, &plan::encode(&made));
                (0, made.steps.len())
            }
        };
        let before = three.clone();
        let answer = library::compile(three.lent(), &mut plan);
        self.same("compile: refusal, steps", answer, expected)?;
        self.same_slice("compile: plan", &plan, &after)?;
        self.same("compile: the tables are as before", three == before, true)
    }

    /// Questions of all consoles, one after the other, the tallies handed on.
    fn verdicts(&mut self, t: &Tables, book: &Option<Book>, met: &[Set]) -> Outcome {
        let three = self.three(t);
        let questions = self.questions(&three, book);
        let mut tallies: Vec<u32> = lend(self.r, TALLIES);
        tallies.iter_mut().for_each(|tally| *tally = self.r.pick(&[*tally, 0, 7, u32::MAX - 1, u32::MAX]));
        let mut after = tallies.clone();
        let before = three.clone();
        for &q in &questions {
            let told = if three.enough() { verdicts::ask(book.as_ref(), met, q, &mut after) } else { Err(8) };
            let expected = told.map_or_else(|refusal| (refusal, 0), |conforms| (0, conforms as u32));
            let answer = library::verdict(three.lent(), q, &mut tallies);
            self.same(&format!("verdict on {q:?}: refusal, conforms"), answer, expected)?;
            self.same_slice(&format!("verdict on {q:?}: tallies"), &tallies, &after)?;
        }
        let (q, few) = (questions[0], tallies.len().min(TALLIES - 1));
        self.same("verdict: tallies too short", library::verdict(three.lent(), q, &mut tallies[..few]), (8, 0))?;
        self.same_slice("verdict: tallies too short", &tallies, &after)?;
        self.own_questions(&three, &questions)?;
        self.same("verdict: the tables are as before", three == before, true)
    }

    /// Every node and shape, or some of many, and numbers that are not there; by consoles that there are, mostly.
    fn questions(&mut self, three: &Three, book: &Option<Book>) -> Vec<Question> {
        let (nodes, shapes) = book.as_ref().map_or((2, 2), |book| (book.nodes(), book.shapes.len()));
        let mut asked: Vec<(usize, usize)> = Vec::new();
        if !three.enough() {
            asked.push((0, 0));
        } else if nodes * shapes <= 100 {
            asked.extend((0..nodes).flat_map(|v| (0..shapes).map(move |s| (v, s))));
        } else {
            asked.extend((0..40).map(|_| (self.some_node(nodes), self.r.below(shapes))));
        }
        let far = self.r.pick(&[1, 1024, usize::MAX]);
        asked.extend([(nodes, 0), (0, shapes), (nodes.saturating_add(far), shapes), (self.r.below(1024), self.r.below(64))]);
        // each in turn changes places with one before it
        (1..asked.len()).for_each(|k| asked.swap(k, self.r.below(k + 1)));
        let console =
            || if self.r.once_in(8) { self.r.pick(&[7, 8, 9, 15, 16, 1 << 32, usize::MAX]) } else { self.r.below(TALLIES) };
        asked.into_iter().map(|(node, shape)| Question { console: console(), node, shape }).collect()
    }

    /// A number below that of the nodes, oftener one of the first: they have more facts.
    fn some_node(&self, nodes: usize) -> usize {
        self.r.below(if self.r.once_in(2) { nodes.min(8) } else { nodes })
    }

    /// From eight zeros a console has the same answers and the same tally where it asks alone.
    fn own_questions(&mut self, three: &Three, questions: &[Question]) -> Outcome {
        let session = |of: &[Question]| {
            let mut tallies = [0; TALLIES];
            (of.iter().map(|&q| library::verdict(three.lent(), q, &mut tallies)).collect::<Vec<_>>(), tallies)
        };
        let console = self.r.below(TALLIES);
        let own: Vec<_> = questions.iter().copied().filter(|q| q.console == console).collect();
        let ((all, tallies), (alone, tallies_alone)) = (session(questions), session(&own));
        let heard: Vec<_> = questions.iter().zip(all).filter(|(q, _)| q.console == console).map(|(_, answer)| answer).collect();
        self.same(&format!("verdict: the answers to console {console}, beside others and alone"), heard, alone)?;
        let what = format!("verdict: the tally of console {console}, beside others and alone");
        self.same(&what, tallies[console], tallies_alone[console])
    }

    /// How far searches along paths go.
    fn rounds(&mut self, t: &Tables, book: &Option<Book>, ends: &[Ends]) -> Outcome {
        let three = self.three(t);
        let before = three.clone();
        for (node, path) in self.searches(&three, book) {
            let told = if three.enough() { rounds::ask(book.as_ref(), ends, node, path) } else { Err(8) };
            let expected = told.map_or_else(|refusal| (refusal, 0), |rounds| (0, rounds));
            let answer = library::rounds(three.lent(), node, path);
            self.same(&format!("rounds of path entry {path} from node {node}: refusal, rounds"), answer, expected)?;
        }
        self.same("rounds: the tables are as before", three == before, true)
    }

    /// Every node and path entry, or some of many; and numbers that are not there, some of them there in their last 16 bits.
    fn searches(&mut self, three: &Three, book: &Option<Book>) -> Vec<(usize, usize)> {
        let (nodes, paths) = book.as_ref().map_or((2, 2), |book| (book.nodes(), book.paths.len()));
        let far = self.r.pick(&[1, 1 << 16, 1 << 32, usize::MAX - 1024]);
        let mut asked = vec![(nodes, 0), (0, paths), (nodes, paths), (self.r.below(1024), self.r.below(128))];
        if !three.enough() || nodes * paths == 0 {
            return asked;
        }
        asked.extend([(self.r.below(nodes) + far, 0), (0, self.r.below(paths) + far)]);
        if nodes * paths <= 40 {
            asked.extend((0..nodes).flat_map(|v| (0..paths).map(move |e| (v, e))));
        } else {
            asked.extend((0..20).map(|_| (self.some_node(nodes), self.r.below(paths))));
        }
        asked
    }

    /// The nearest spares.
    fn nearest(&mut self, t: &Tables, book: &Option<Book>, ends: &[Ends], met: &[Set]) -> Outcome {
        let three = self.three(t);
        let before = three.clone();
        let ask = |[node, path, shape]: [usize; 3]| nearest::ask(book.as_ref(), ends, met, node, path, shape);
        for asked in self.hunts(&three, book, ask) {
            let told = if three.enough() { ask(asked) } else { Err(8) };
            let expected = match told {
                Err(refusal) => (refusal, 0, 0, 0),
                Ok(None) => (0, 0, 0, 0),
                Ok(Some(spare)) => (0, 1, spare.hops, spare.node),
            };
            let [node, path, shape] = asked;
            let answer = library::nearest(three.lent(), node, path, shape);
            let what = format!("nearest to node {node} along path entry {path} for shape {shape}: refusal, found, hops, spare");
            self.same(&what, answer, expected)?;
        }
        self.same("nearest: the tables are as before", three == before, true)
    }

    /// Every node, path entry and shape, or some of many; and numbers that are not there, some of them there in their last 16
    /// bits.
    fn hunts(
        &mut self, three: &Three, book: &Option<Book>, ask: impl Fn([usize; 3]) -> Result<Option<Spare>, u32>,
    ) -> Vec<[usize; 3]> {
        let all = book.as_ref().map_or([2; 3], |book| [book.nodes(), book.paths.len(), book.shapes.len()]);
        let [nodes, paths, shapes] = all;
        let any = [1024, 128, 64].map(|most| self.r.below(most));
        let mut asked = vec![all, [nodes, 0, 0], [0, paths, 0], [0, 0, shapes], any];
        if !three.enough() || all.contains(&0) {
            return asked;
        }
        for k in 0..3 {
            let mut far = all.map(|n| self.r.below(n));
            far[k] = far[k].saturating_add(self.r.pick(&[all[k], 1 << 16, 1 << 32, usize::MAX]));
            asked.push(far);
        }
        if all.iter().product::<usize>() <= 60 {
            asked.extend((0..nodes).flat_map(|v| (0..paths).flat_map(move |e| (0..shapes).map(move |s| [v, e, s]))));
            return asked;
        }
        let some = |_| [self.some_node(nodes), self.r.below(paths), self.r.below(shapes)];
        asked.extend((0..10).map(some));
        // most have a spare at hand, or none: of some, the one that has it farthest off
        let hops = |asked: &[usize; 3]| ask(*asked).ok().flatten().map(|spare| spare.hops);
        asked.extend((0..15).map(|_| (0..24).map(some).max_by_key(hops).unwrap()));
        asked
    }

    /// Parts of a report with lists of any content.
    fn report(&mut self, t: &Tables, book: &Option<Book>) -> Outcome {
        let three = self.three(t);
        let mut lists: Vec<u16> = lend(self.r, LISTS);
        let mut lengths: Vec<u16> = lend(self.r, LENGTHS);
        let nodes = book.as_ref().map_or(5, |book| book.nodes().max(1));
        // one row in so many is too long
        let rows = self.r.pick(&[4, 16, 1000]);
        for (k, length) in lengths.iter_mut().enumerate().take(LENGTHS) {
            let some: &[u16] = if self.r.once_in(rows) { &[1025, 65535] } else { &[0, 1, 2, 9, 1023, 1024] };
            *length = self.r.pick(some);
            let row = lists.iter_mut().skip(ROW * k).take((*length as usize).min(20));
            row.for_each(|v| *v = (self.r.below(nodes) + self.r.once_in(200) as usize) as u16);
            if *length > 20 && lists.len() >= LISTS && self.r.once_in(2) {
                lists[ROW * k..ROW * (k + 1)].iter_mut().for_each(|v| *v %= nodes as u16);
            }
        }
        let rules = book.as_ref().map_or(3, |book| book.rules.len());
        for _ in 0..3 {
            let part = match self.r.below(12) {
                0 => rules + 2,
                1 => usize::MAX - self.r.below(2),
                2 | 3 => rules + 1,
                _ => self.r.between(0, rules + 1),
            };
            let mut page: Vec<u8> = lend(self.r, PAGE);
            let mut after = page.clone();
            let enough = three.enough() && lists.len() >= LISTS && lengths.len() >= LENGTHS && page.len() >= PAGE;
            let written = if enough { part_of(book, &lists, &lengths, part) } else { Err(8) };
            let expected = match &written {
                Err(refusal) => (*refusal, 0),
                Ok(text) => {
                    put(&mut after, 0, text);
                    (0, text.len())
                }
            };
            let answer = library::report(three.lent(), &lists, &lengths, part, &mut page);
            self.same(&format!("report of part {part}: refusal, bytes"), answer, expected)?;
            self.same_slice(&format!("report of part {part}: page"), &page, &after)?;
        }
        Ok(())
    }

    /// A plan of any content, for tables of any content: its sets, and the lists read off them and off garbage.
    fn plan(&mut self, t: &Tables, book: Option<&Book>, cells: &[u16]) -> Outcome {
        let three = self.three(t);
        let lent_plan = lend_of(self.r, cells);
        let mut work: Vec<u64> = lend(self.r, WORK);
        let mut after = work.clone();
        let plan = book.and_then(|book| plan::decode(book, cells));
        let long = three.enough() && lent_plan.len() >= PLAN_CELLS;
        let expected = match (&plan, book) {
            _ if !long || work.len() < WORK => 8,
            (Some(plan), Some(book)) => {
                put(&mut after, 0, &words(&plan::run(book, plan)));
                0
            }
            _ => 9,
        };
        let before = (three.clone(), lent_plan.clone());
        let answer = library::run(three.lent(), &lent_plan, &mut work);
        self.same("run: refusal", answer, expected)?;
        self.same_slice("run: work", &work, &after)?;
        self.lists(&three, book, &plan, &lent_plan, &work)?;
        if self.r.once_in(4) {
            let any: Vec<u64> = lend(self.r, WORK);
            self.lists(&three, book, &plan, &lent_plan, &any)?;
        }
        self.same("run, list: tables and plan are as before", (three, lent_plan) == before, true)
    }

    fn lists(&mut self, three: &Three, book: Option<&Book>, plan: &Option<Plan>, lent_plan: &[u16], work: &[u64]) -> Outcome {
        let rules = book.map_or(2, |book| book.rules.len());
        let far = self.r.pick(&[rules + 1, 32, usize::MAX]);
        for rule in (0..rules).chain([rules, far]) {
            let mut row: Vec<u16> = lend(self.r, ROW);
            let mut after = row.clone();
            let long = three.enough() && lent_plan.len() >= PLAN_CELLS && work.len() >= WORK && row.len() >= ROW;
            let expected = match (plan, book) {
                _ if !long => (8, 0),
                (Some(plan), Some(book)) if rule < rules => {
                    let set = Set(std::array::from_fn(|i| work[16 * plan.rules[rule] + i]));
                    let list: Vec<usize> = set.iter().filter(|&v| v < book.nodes()).collect();
                    put(&mut after, 0, &narrow(&list));
                    (0, list.len())
                }
                (Some(_), Some(_)) => (10, 0),
                _ => (9, 0),
            };
            let answer = library::list(three.lent(), lent_plan, work, rule, &mut row);
            self.same(&format!("list of rule {rule}: refusal, nodes"), answer, expected)?;
            self.same_slice(&format!("list of rule {rule}: row"), &row, &after)?;
        }
        Ok(())
    }
}

/// Part k of the report by tables and lists: the first line, the lines of each rule, the last line.
fn part_of(book: &Option<Book>, lists: &[u16], lengths: &[u16], part: usize) -> Result<Vec<u8>, u32> {
    let Some(book) = book else { return Err(9) };
    let rules = book.rules.len();
    if part == 0 {
        return Ok(book.head_line().into_bytes());
    }
    if part <= rules {
        let length = lengths[part - 1] as usize;
        let row: Vec<usize> = lists[ROW * (part - 1)..].iter().take(length).map(|&v| v as usize).collect();
        if length > ROW || row.iter().any(|&v| v >= book.nodes()) {
            return Err(9);
        }
        return Ok(book.break_lines(part - 1, &row));
    }
    if part > rules + 1 {
        return Err(10);
    }
    let found: Vec<usize> = lengths[..rules].iter().map(|&n| n as usize).collect();
    if found.iter().any(|&n| n > ROW) {
        return Err(9);
    }
    Ok(reference::found_line(found.iter().sum()).into_bytes())
}

fn words(sets: &[Set]) -> Vec<u64> {
    sets.iter().flat_map(|set| set.0).collect()
}

fn narrow(list: &[usize]) -> Vec<u16> {
    list.iter().map(|&v| v as u16).collect()
}

/// The book of a seed, and whether all answers about it are the same.
pub fn compare(seed: u64) -> (Vec<u8>, &'static str, usize, Outcome) {
    let r = Random::new(seed);
    let (text, kind) = books::generate(&r);
    let mut case = Case { r: &r, answers: 0 };
    let outcome = case.book(&text);
    (text, kind, case.answers, outcome)
}
