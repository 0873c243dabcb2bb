//! Generated books through the proved library and through the reference implementation. Usage: differential [BOOKS] [SEED]
//! Book i has the seed SEED + i; a difference is shown with the seed of its book.

mod books;
mod compare;
mod damage;
mod hostile;
#[rustfmt::skip] // arguments stand in the order of the exported functions, several to a line
mod library;
mod random;

use std::sync::atomic::{AtomicBool, AtomicU64, AtomicUsize, Ordering::Relaxed};
use std::time::{Duration, Instant};

/// no more books are begun after this many seconds, and none may take as long
const SECONDS: u64 = 290;

/// What the threads share.
#[derive(Default)]
struct Shared {
    next: AtomicU64,
    passed: AtomicUsize,
    failed: AtomicUsize,
    answers: AtomicUsize,
    accepted: AtomicUsize,
    over: AtomicBool,
}

fn work(shared: &Shared, books: u64, seed: u64) {
    while !shared.over.load(Relaxed) {
        let i = shared.next.fetch_add(1, Relaxed);
        if i >= books {
            return;
        }
        let seed = seed.wrapping_add(i);
        let result = std::panic::catch_unwind(|| compare::compare(seed));
        match result {
            Ok((text, kind, answers, outcome)) => {
                shared.answers.fetch_add(answers, Relaxed);
                shared.accepted.fetch_add(reference::reader::read(&text).is_ok() as usize, Relaxed);
                match outcome {
                    Ok(()) => {
                        shared.passed.fetch_add(1, Relaxed);
                    }
                    Err(difference) => {
                        shared.failed.fetch_add(1, Relaxed);
                        let file = format!("target/differential-{seed}.book");
                        let saved = std::fs::write(&file, &text).map_or("not saved".into(), |_| format!("saved as {file}"));
                        println!("DIFFERENCE at seed {seed}, a book of {} bytes ({kind}, {saved})\n  {difference}", text.len());
                    }
                }
            }
            Err(_) => {
                shared.failed.fetch_add(1, Relaxed);
                println!("PANIC at seed {seed}");
            }
        }
        if shared.failed.load(Relaxed) >= 10 {
            shared.over.store(true, Relaxed);
        }
    }
}

fn main() {
    let number = |k: usize, default: u64| std::env::args().nth(k).map_or(default, |s| s.parse().expect("a number"));
    let (books, seed) = (number(1, 20_000), number(2, 1));
    let threads = std::thread::available_parallelism().map_or(1, |n| n.get());
    println!("{books} books from seed {seed} on, {threads} threads");
    let shared: &'static Shared = Box::leak(Box::default());
    let begun = Instant::now();
    let run = move || work(shared, books, seed);
    let workers: Vec<_> =
        (0..threads).map(|_| std::thread::Builder::new().stack_size(64 << 20).spawn(run).expect("a thread")).collect();
    let mut shown = Instant::now();
    while workers.iter().any(|w| !w.is_finished()) {
        std::thread::sleep(Duration::from_millis(50));
        if begun.elapsed() > Duration::from_secs(SECONDS) {
            shared.over.store(true, Relaxed);
        }
        if begun.elapsed() > Duration::from_secs(2 * SECONDS) {
            println!(
                "a book does not end, one of the last {threads} before seed {}",
                seed.wrapping_add(shared.next.load(Relaxed))
            );
            std::process::exit(1);
        }
        if shown.elapsed() > Duration::from_secs(5) {
            shown = Instant::now();
            println!("{} of {books} books, {} s", shared.passed.load(Relaxed), begun.elapsed().as_secs());
        }
    }
    let (passed, failed) = (shared.passed.load(Relaxed), shared.failed.load(Relaxed));
    let seconds = begun.elapsed().as_secs_f64();
    let (accepted, answers) = (shared.accepted.load(Relaxed), shared.answers.load(Relaxed));
    println!("{} books in {seconds:.0} s, {accepted} of them accepted; {answers} answers compared", passed + failed);
    if failed == 0 && (passed as u64) < books {
        println!("stopped after {SECONDS} s: fewer books than asked for");
    }
    println!("{passed} passed, {failed} failed");
    std::process::exit((passed as u64 != books) as i32);
}
