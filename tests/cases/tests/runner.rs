//! Plans that no compiler made, run over a small graph with the traps of document 01: each kind of step, then what is refused,
//! one ground at a time. Every word of the work space that is no step's own must stay what it was.

use cases::{places, Input, Line};
use melivanoup::{sizes, Work};

/// No step's set.
const BEFORE: u64 = 0x5555_5555_5555_5555;

/// What running says, and the work space after it.
fn run(title: &str, input: &Input) -> (String, Option<Work>) {
    let (plan, mut work) = (input.plan(), Work { words: vec![BEFORE; places(sizes::WORK, input.more[4])] });
    let ran = input.tables().run(&plan, &mut work);
    let (said, written) = match ran {
        Ok(()) => ("done".into(), 16 * plan.steps()),
        Err(why) => (format!("refused {} {}", why.ground.number(), why.line), 0),
    };
    let rest = if work.words[written..].iter().all(|&word| word == BEFORE) { "untouched" } else { "changed" };
    (format!("{title}: {said}, the rest {rest}\n"), ran.is_ok().then_some(work))
}

/// The set of step k: its first word, and the others together.
fn set(work: &Work, k: usize) -> String {
    let words = &work.words[16 * k..16 * k + 16];
    format!("{} {}", words[0], words[1..].iter().fold(0, |all, word| all | word))
}

/// The cases of `runner.txt`: where a plan runs, each of its steps with its set.
fn small() -> String {
    let text = cases::text("runner.txt");
    let steps: Vec<&str> = text.lines().filter(|line| line.starts_with("step ")).collect();
    let (common, parts) = cases::cases(&text);
    let mut written = String::new();
    for part in parts {
        let mut input = common.clone();
        part.lines.iter().for_each(|line| input.store(line));
        let (said, ran) = run(part.title, &input);
        written += &said;
        if let Some(work) = ran {
            steps.iter().enumerate().for_each(|(k, step)| written += &format!("{step}: {}\n", set(&work, k)));
        }
    }
    written
}

/// No nodes and no steps; 1,024 nodes and 512 steps, each of them All.
fn ends() -> String {
    let mut input = Input::new();
    input.more = [8; 5];
    let none = run("no steps", &input).0;
    input.store(&Line::new("cell 0 1024"));
    input.store(&Line::new("plan 0 512"));
    let (most, ran) = run("512 steps", &input);
    none + &most + &ran.map_or(String::new(), |work| format!("step 511: {}\n", set(&work, 511)))
}

#[test]
fn each_step_has_its_set_and_nothing_else_is_written() {
    cases::compare_file("runner", &(small() + &ends()));
}
