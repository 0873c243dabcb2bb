//! Plants faults of one line in the crates' code, each in a copy, and shows those with which the crate is still proved.
//! Usage: faults KIT ROOM N SEED CRATE..: the kit's folder, a folder for copies, how many, the seed, and where.

mod plant;
mod prove;
mod random;
mod source;

use plant::Fault;
use prove::{Outcome, Prover};
use std::io::Write;
use std::sync::atomic::{AtomicUsize, Ordering::Relaxed};
use std::sync::Mutex;
use std::time::Instant;
use std::{env, fs, io};

/// where each fault is listed with what came of it
const LIST: &str = "target/faults.txt";

const ROWS: [(Outcome, &str); 5] = [
    (Outcome::Refused, "refused"),
    (Outcome::Misfit, "misfit"),
    (Outcome::NoProgram, "no program"),
    (Outcome::NoAnswer, "no answer"),
    (Outcome::Survived, "NOT REFUSED"),
];

struct Tried {
    outcome: Outcome,
    seconds: f64,
}

fn main() -> io::Result<()> {
    let words: Vec<String> = env::args().skip(1).collect();
    let [kit, room, n, seed, wanted @ ..] = &words[..] else { panic!("faults KIT ROOM N SEED CRATE..") };
    let (n, seed) = (n.parse().expect("a number of faults"), seed.parse().expect("a seed"));
    let root = env::current_dir()?;
    let prover = Prover { crates: source::crates(&root)?, root, kit: kit.into(), room: room.into() };
    let faults = drawn(&prover, wanted, n, seed)?;
    see_that_copies_are_proved(&prover, &faults)?;
    let begun = Instant::now();
    let tried = try_all(&prover, &faults)?;
    std::process::exit(report(&tried, begun.elapsed().as_secs_f64()))
}

fn drawn(prover: &Prover, wanted: &[String], n: usize, seed: u64) -> io::Result<Vec<Fault>> {
    let (mut sites, mut declared) = (Vec::new(), source::Declared::default());
    for c in &prover.crates {
        let found = source::sites(&prover.root, &c.name, &mut declared)?;
        if wanted.contains(&c.name) {
            sites.extend(found);
        }
    }
    let faults = plant::draw(&sites, &declared, n, seed);
    if faults.is_empty() {
        return Err(io::Error::other("no fault to plant"));
    }
    println!("{} faults in {} functions and groups of constants, seed {seed}", faults.len(), sites.len());
    Ok(faults)
}

/// A copy with no fault must be proved: else a refusal would say nothing of the fault.
fn see_that_copies_are_proved(prover: &Prover, faults: &[Fault]) -> io::Result<()> {
    let mut names: Vec<_> = faults.iter().map(|f| &f.krate).collect();
    names.sort();
    names.dedup();
    for name in names {
        let (outcome, error) = prover.check(name, None, "unchanged")?;
        if outcome != Outcome::Survived {
            return Err(io::Error::other(format!("the unchanged copy of {name} is not proved: {error}")));
        }
    }
    Ok(())
}

fn try_all(prover: &Prover, faults: &[Fault]) -> io::Result<Vec<Tried>> {
    let jobs = env::var("FAULT_JOBS").map_or(2, |s| s.parse().expect("FAULT_JOBS is a number"));
    let next = AtomicUsize::new(0);
    let tried = Mutex::new((Vec::new(), fs::File::create(LIST)?));
    let begun = Instant::now();
    let work = || loop {
        let i = next.fetch_add(1, Relaxed);
        let Some(fault) = faults.get(i) else { return Ok(()) };
        let started = Instant::now();
        let (outcome, error) = prover.check(&fault.krate, Some(fault), &i.to_string())?;
        let one = Tried { outcome, seconds: started.elapsed().as_secs_f64() };
        let (tried, list) = &mut *tried.lock().unwrap();
        writeln!(list, "{}\n  {}", shown(fault, &one), error.chars().take(300).collect::<String>())?;
        if outcome == Outcome::Survived {
            println!("{}", shown(fault, &one));
        }
        tried.push(one);
        if tried.len() % 20 == 0 {
            println!(
                "{} of {} in {:.0} s: {}",
                tried.len(),
                faults.len(),
                begun.elapsed().as_secs_f64(),
                counts(tried).join(", ")
            );
        }
    };
    std::thread::scope(|scope| {
        let workers: Vec<_> = (0..jobs).map(|_| scope.spawn(work)).collect();
        workers.into_iter().try_for_each(|w| w.join().expect("a worker"))
    })
    .map(|()| tried.into_inner().unwrap().0)
}

fn shown(fault: &Fault, one: &Tried) -> String {
    let name = ROWS.iter().find(|(row, _)| *row == one.outcome).map_or("", |(_, name)| name);
    let place = format!("crates/{}/src/{}:{}", fault.krate, fault.file, fault.line + 1);
    let (old, new) = (fault.old.trim(), fault.new.trim());
    format!("{name} {place} ({}, {:.1} s)\n  old: {old}\n  new: {new}", fault.kind, one.seconds)
}

fn count(tried: &[Tried], row: Outcome) -> usize {
    tried.iter().filter(|t| t.outcome == row).count()
}

fn counts(tried: &[Tried]) -> [String; 5] {
    ROWS.map(|(row, name)| format!("{} {name}", count(tried, row)))
}

fn report(tried: &[Tried], seconds: f64) -> i32 {
    let checking: f64 = tried.iter().map(|t| t.seconds).sum();
    println!("{seconds:.0} s, {:.1} s for each fault; all are in {LIST}", checking / tried.len() as f64);
    for (row, name) in ROWS {
        println!("{name:12} {:5}", count(tried, row));
    }
    let survived = count(tried, Outcome::Survived);
    println!("{} refused, {survived} survived", count(tried, Outcome::Refused));
    (survived > 0) as i32
}
