//! One fault: a copy of the crate with it, and what the prover says.

use crate::plant::Fault;
use crate::source::Crate;
use std::path::{Path, PathBuf};
use std::process::{Command, ExitStatus, Stdio};
use std::time::{Duration, Instant};
use std::{fs, io};

/// no check may take longer
const LIMIT: Duration = Duration::from_secs(120);

/// The table's rows, in its order.
#[derive(Clone, Copy, PartialEq, Debug)]
pub enum Outcome {
    Refused,
    Misfit,
    NoProgram,
    NoAnswer,
    Survived,
}

pub struct Prover {
    pub root: PathBuf,
    /// the folder of the kit
    pub kit: PathBuf,
    /// the folder for copies
    pub room: PathBuf,
    /// all crates that are no programs
    pub crates: Vec<Crate>,
}

impl Prover {
    /// Checks a crate, with a fault or as it is, in the folder `label`: what came of it, and the first error.
    pub fn check(&self, krate: &str, fault: Option<&Fault>, label: &str) -> io::Result<(Outcome, String)> {
        let copy = self.room.join(label);
        for part in ["src", "specs", "proofs"] {
            let from = self.root.join("crates").join(krate).join(part);
            if from.exists() {
                copy_folder(&from, &copy.join(part))?;
            }
        }
        if let Some(fault) = fault {
            plant(&copy.join("src").join(&fault.file), fault)?;
        }
        lend(&self.folder(krate).join("out/incremental"), &copy.join("kept"))?;
        let log = copy.join("log");
        let file = fs::File::create(&log)?;
        let mut command = Command::new(self.kit.join("bin/rattle"));
        command.arg("check").args(self.words(krate)).current_dir(&copy).env("TMPDIR", &copy);
        command.stdin(Stdio::null()).stdout(file.try_clone()?).stderr(file);
        let status = run(command)?;
        let said = String::from_utf8_lossy(&fs::read(&log)?).into_owned();
        fs::remove_dir_all(&copy)?;
        Ok((outcome(status, &said), first_error(&said)))
    }

    fn folder(&self, krate: &str) -> PathBuf {
        self.root.join("crates").join(krate)
    }

    /// Where the last check left the libraries below.
    fn libraries(&self, krate: &str) -> PathBuf {
        self.folder(krate).join("out/rlib")
    }

    /// The words of a check in a copy, as `rt must-fail` gives them: over what the last check of the crate kept.
    fn words(&self, krate: &str) -> Vec<String> {
        let shown = |path: PathBuf| path.display().to_string();
        let own = self.crates.iter().find(|c| c.name == krate);
        let mut words: Vec<String> = vec!["--crate-name".into(), krate.into(), "src/lib.rt".into()];
        words.extend(["--extern".into(), format!("std={}", shown(self.kit.join("rlibs/std.rlib")))]);
        for name in own.map_or(&[][..], |c| &c.below) {
            words.extend(["--extern".into(), format!("{name}={}", shown(self.libraries(name).join(format!("{name}.rlib"))))]);
        }
        words.extend(["-L".into(), format!("dependency={}", shown(self.kit.join("rlibs")))]);
        for c in &self.crates {
            words.extend(["-L".into(), format!("dependency={}", shown(self.libraries(&c.name)))]);
        }
        words.extend(["--antt-project".into(), shown(self.kit.join("rattle/logic/antt-project.json"))]);
        words.extend(["--logic-built".into(), shown(self.kit.join("logic_built"))]);
        if own.is_some_and(|c| c.is_static) {
            words.extend(["--crate-type".into(), "staticlib".into()]);
        }
        words.extend(["--incremental".into(), "kept".into()]);
        words
    }
}

/// Copies what a check kept, modules by links where it can: another check puts a new file in the place of one, and changes none.
fn lend(from: &Path, to: &Path) -> io::Result<()> {
    let lent = |from: &Path, to: &Path| from.extension().is_some_and(|e| e == "oantt") && fs::hard_link(from, to).is_ok();
    each_file(from, to, &|from, to| if lent(from, to) { Ok(()) } else { fs::copy(from, to).map(|_| ()) })
}

fn copy_folder(from: &Path, to: &Path) -> io::Result<()> {
    each_file(from, to, &|from, to| fs::copy(from, to).map(|_| ()))
}

fn each_file(from: &Path, to: &Path, copy: &dyn Fn(&Path, &Path) -> io::Result<()>) -> io::Result<()> {
    fs::create_dir_all(to)?;
    for entry in fs::read_dir(from)? {
        let entry = entry?;
        let (from, to) = (entry.path(), to.join(entry.file_name()));
        if entry.file_type()?.is_dir() {
            each_file(&from, &to, copy)?;
        } else {
            copy(&from, &to)?;
        }
    }
    Ok(())
}

fn plant(file: &Path, fault: &Fault) -> io::Result<()> {
    let text = fs::read_to_string(file)?;
    let lines = text.lines().enumerate().map(|(i, line)| if i == fault.line { &fault.new } else { line });
    fs::write(file, lines.map(|line| format!("{line}\n")).collect::<String>())
}

/// None where it does not end in time.
fn run(mut command: Command) -> io::Result<Option<ExitStatus>> {
    let begun = Instant::now();
    let mut child = command.spawn()?;
    loop {
        if let Some(status) = child.try_wait()? {
            return Ok(Some(status));
        }
        if begun.elapsed() > LIMIT {
            child.kill()?;
            child.wait()?;
            return Ok(None);
        }
        std::thread::sleep(Duration::from_millis(20));
    }
}

fn errors(said: &str) -> impl Iterator<Item = &str> {
    said.lines().filter(|line| line.contains(": error: "))
}

fn outcome(status: Option<ExitStatus>, said: &str) -> Outcome {
    let verdict = |word: &str| said.lines().any(|line| line.starts_with(word));
    match status.map(|s| s.code()) {
        Some(Some(0)) if verdict("logic=proved") => Outcome::Survived,
        Some(Some(1)) if verdict("logic=not-proved") && errors(said).any(is_misfit) => Outcome::Misfit,
        Some(Some(1)) if verdict("logic=not-proved") => Outcome::Refused,
        Some(Some(1)) => Outcome::NoProgram,
        _ => Outcome::NoAnswer,
    }
}

/// What is said of a proof that no longer fits the code: it names what the code no longer has, or leaves out what is new there.
const MISFITS: [&str; 5] =
    ["has no field `", "has no `", "is not in scope", "this pattern needs a function", "components but its type has"];

fn is_misfit(error: &str) -> bool {
    MISFITS.iter().any(|words| error.contains(words))
}

/// The first error that is not of what only waits for another, or what is not proved of a function that has no proof file.
fn first_error(said: &str) -> String {
    let own = errors(said).find(|line| !line.contains("which was rejected") && !line.contains("was not admitted"));
    let note = || said.lines().find(|line| line.starts_with("note: "));
    own.or_else(note).or(said.lines().next()).unwrap_or("").trim_start_matches("./").to_string()
}
