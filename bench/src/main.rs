//! The parts of bench/run.sh:
//!   bench time SYSTEM FILE REPORT   times proved, reference or sqlite on a book: nanoseconds for read, compile, run, whole
//!   bench say SYSTEM FILE           the report of proved, reference, sqlite or direct (the reference by its direct verdicts)
//!   bench verdicts FILE             microseconds of the slowest of the direct verdicts on some nodes and every shape
//!   bench rounds FILE               the same of the rounds of every path entry from some nodes
//!   bench nearest FILE              the same of the nearest spare from few nodes along some path entries, for the shapes in turn
//!   bench turtle FILE DIR           the book as data.ttl and shapes.ttl
//!   bench breaks FILE LINES REPORT  a report from Jena's breaks
//!   bench sqlite                    SQLite's version, where it is on the machine
//!   bench table FIGURES             the table of all figures

mod sql;
mod sqlite;
mod table;
mod turtle;

use melivanoup::{Plan, Tables, Tallies, Validator, Work};
use reference::{report_of, Book};
use std::fs;
use std::io::Write;

/// read, compile, run, whole, in nanoseconds
type Times = [u64; 4];

extern "C" {
    fn clock_gettime(clock: i32, time: *mut [i64; 2]) -> i32;
}

/// A clock in nanoseconds. The best of many rounds is taken, so that other work on the machine counts little.
fn now() -> u64 {
    const CLOCK_MONOTONIC: i32 = 1;
    let mut time = [0; 2];
    // SAFETY: a timespec is two 64-bit numbers on 64-bit Linux.
    assert_eq!(unsafe { clock_gettime(CLOCK_MONOTONIC, &mut time) }, 0);
    time[0] as u64 * 1_000_000_000 + time[1] as u64
}

/// The best of several rounds, of each time by itself: rounds for so many seconds, at least three unless they take twenty. What
/// looking at the clock costs is taken off.
fn best(seconds: u64, mut round: impl FnMut() -> Times) -> Times {
    let start = now();
    let spent = || (now() - start) / 1_000_000_000;
    let mut best = round();
    let mut rounds = 1;
    while spent() < seconds || (seconds > 0 && rounds < 3 && spent() < 20) {
        let times = round();
        (0..4).for_each(|k| best[k] = best[k].min(times[k]));
        rounds += 1;
    }
    let clock = (0..1000).map(|_| timed(|| ()).1).min().unwrap();
    best.map(|time| time.saturating_sub(clock))
}

/// Runs something, and says how long it took.
fn timed<T>(run: impl FnOnce() -> T) -> (T, u64) {
    let start = now();
    let value = run();
    (value, now() - start)
}

fn parsed(bytes: &[u8]) -> Book {
    reference::reader::read(bytes).unwrap_or_else(|fault| panic!("refused: {fault:?}"))
}

/// Buffers are used again and never cleared between rounds; what the library itself clears is in its times.
fn proved(book: &[u8], seconds: u64) -> (Vec<u8>, Times) {
    let (mut tables, mut plan, mut work) = (Tables::new(), Plan::new(), Work::new());
    let mut validator = Validator::new();
    let text = validator.validate(book).expect("accepted").to_string().into_bytes();
    let times = best(seconds, || {
        let (counts, read) = timed(|| tables.read(book).unwrap());
        let (_, compile) = timed(|| tables.compile(&mut plan).unwrap());
        let (_, run) = timed(|| {
            tables.run(&plan, &mut work).unwrap();
            (0..counts.rules).for_each(|r| drop(tables.list(&plan, &work, r).unwrap()));
        });
        let (_, whole) = timed(|| validator.validate(book).unwrap());
        [read, compile, run, whole]
    });
    (text, times)
}

fn reference(bytes: &[u8], seconds: u64) -> (Vec<u8>, Times) {
    let mut text = Vec::new();
    let times = best(seconds, || {
        let (book, read) = timed(|| parsed(bytes));
        let (plan, compile) = timed(|| reference::plan::compile(&book));
        let (lists, run) = timed(|| {
            let sets = reference::plan::run(&book, &plan);
            plan.rules.iter().map(|&step| sets[step].iter().collect()).collect::<Vec<Vec<usize>>>()
        });
        let (said, print) = timed(|| report_of(&book, &lists));
        text = said;
        [read, compile, run, read + compile + run + print]
    });
    (text, times)
}

/// Reading is filling the tables: the time to read the book and to write its SQL is not counted.
fn sqlite(bytes: &[u8], seconds: u64) -> (Vec<u8>, Times) {
    let library = sqlite::Sqlite::load().expect("libsqlite3.so.0 is not on this machine");
    let book = parsed(bytes);
    let (rows, queries) = (sql::rows(&book), sql::queries(&book));
    let mut text = Vec::new();
    let times = best(seconds, || {
        let (memory, read) = timed(|| {
            let memory = library.memory();
            memory.exec(sql::SCHEMA);
            memory.exec("BEGIN");
            for (insert, rows) in &rows {
                let insert = memory.prepare(insert);
                rows.iter().for_each(|row| insert.insert(row));
            }
            memory.exec("COMMIT");
            memory
        });
        let (statements, compile) = timed(|| queries.iter().map(|q| memory.prepare(q)).collect::<Vec<_>>());
        let (lists, run) = timed(|| statements.iter().map(|s| s.numbers()).collect::<Vec<_>>());
        let (said, print) = timed(|| report_of(&book, &lists));
        text = said;
        [read, compile, run, read + compile + run + print]
    });
    (text, times)
}

/// The slowest question about so many nodes and the last, far from each other, and each of so many others; of two rounds the
/// better one.
fn slowest(nodes: usize, some: usize, others: usize, mut ask: impl FnMut(usize, usize) -> u64) -> u64 {
    let mut better = |node, other| ask(node, other).min(ask(node, other));
    let asked = (0..nodes).step_by(nodes / some + 1).chain(nodes.checked_sub(1));
    asked.flat_map(|node| (0..others).map(move |other| (node, other))).map(|(node, other)| better(node, other)).max().unwrap_or(0)
}

fn shapes(tables: &Tables) -> usize {
    (0..).take_while(|&s| tables.shape_name(s).is_some()).count()
}

fn slowest_verdict(book: &[u8]) -> u64 {
    let (mut tables, mut tallies) = (Tables::new(), Tallies::new());
    let nodes = tables.read(book).expect("accepted").nodes;
    slowest(nodes, 16, shapes(&tables), |node, shape| timed(|| tables.verdict(0, node, shape, &mut tallies).unwrap()).1)
}

fn slowest_rounds(book: &[u8]) -> u64 {
    let mut tables = Tables::new();
    let nodes = tables.read(book).expect("accepted").nodes;
    slowest(nodes, 16, tables.paths(), |node, path| timed(|| tables.rounds(node, path).unwrap()).1)
}

fn slowest_nearest(book: &[u8]) -> u64 {
    let mut tables = Tables::new();
    let nodes = tables.read(book).expect("accepted").nodes;
    let (paths, shapes) = (tables.paths(), shapes(&tables));
    // every eighth, from the last on
    let path = |k: usize| paths - 1 - 8 * k;
    slowest(nodes, 2, paths.div_ceil(8), |node, k| timed(|| tables.nearest(node, path(k), k % shapes).unwrap()).1)
}

fn time(system: &str, bytes: &[u8], seconds: u64) -> (Vec<u8>, Times) {
    match system {
        "proved" => proved(bytes, seconds),
        "reference" => reference(bytes, seconds),
        "sqlite" => sqlite(bytes, seconds),
        _ => panic!("no system {system}"),
    }
}

fn main() {
    let words: Vec<String> = std::env::args().skip(1).collect();
    let words: Vec<&str> = words.iter().map(String::as_str).collect();
    match words[..] {
        ["time", system, file, out] => {
            let (text, times) = time(system, &fs::read(file).unwrap(), 2);
            fs::write(out, text).unwrap();
            println!("{}", times.map(|t| t.to_string()).join(" "));
        }
        ["say", system, file] => {
            let bytes = fs::read(file).unwrap();
            let text = if system == "direct" { reference::report(&bytes) } else { time(system, &bytes, 0).0 };
            std::io::stdout().write_all(&text).unwrap();
        }
        ["verdicts", file] => println!("{}", slowest_verdict(&fs::read(file).unwrap()) / 1000),
        ["rounds", file] => println!("{}", slowest_rounds(&fs::read(file).unwrap()) / 1000),
        ["nearest", file] => println!("{}", slowest_nearest(&fs::read(file).unwrap()) / 1000),
        ["turtle", file, folder] => {
            let book = parsed(&fs::read(file).unwrap());
            fs::write(format!("{folder}/data.ttl"), turtle::data(&book)).unwrap();
            fs::write(format!("{folder}/shapes.ttl"), turtle::shapes(&book)).unwrap();
        }
        ["breaks", file, lines, out] => {
            let book = parsed(&fs::read(file).unwrap());
            fs::write(out, report_of(&book, &turtle::lists(&book, &fs::read_to_string(lines).unwrap()))).unwrap();
        }
        ["sqlite"] => match sqlite::Sqlite::load() {
            Some(library) => println!("{}", library.version()),
            None => std::process::exit(1),
        },
        ["table", figures] => print!("{}", table::table(&fs::read_to_string(figures).unwrap())),
        _ => panic!("see bench/src/main.rs"),
    }
}
