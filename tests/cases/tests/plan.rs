//! The plans of small tables, step by step: book B of document 01, each form, `not` in `not`, shapes of shapes, the broken
//! counts, the four targets; and the two refusals. Under each plan the steps of the first three rules.

use cases::{column, places, Input};
use melivanoup::{sizes, Plan};

/// The steps by code, and how many operands each has.
const NAMES: [&str; 25] = [
    "All", "None", "Is", "Isnot", "Test", "Untest", "Both", "Either", "Count", "Every", "Equal", "Unequal", "Apart", "Meet",
    "Closed", "Open", "Less", "Notless", "Lesseq", "Notlesseq", "Onelang", "Manylang", "From", "Into", "Typed",
];
const OPERANDS: [usize; 25] = [0, 0, 1, 1, 1, 1, 2, 2, 4, 2, 2, 2, 2, 2, 1, 1, 2, 2, 2, 2, 1, 1, 1, 1, 1];

/// Step k, by the columns of the plan.
fn step(plan: &Plan, k: usize) -> String {
    let cell = |name: &str| plan.cells[column(name) + k];
    let code = cell("STEP_CODES") as usize;
    let (name, operands) = if code < 25 { (NAMES[code], OPERANDS[code]) } else { ("?", 0) };
    let columns = [("STEP_FIRSTS", "id"), ("STEP_SECONDS", "*"), ("STEP_THIRDS", "*"), ("STEP_FOURTHS", "*")];
    let operand = |(name, word): (&str, &str)| match cell(name) {
        u16::MAX => format!(" {word}"),
        x => format!(" {x}"),
    };
    format!("  {k} {name}{}\n", columns.into_iter().take(operands).map(operand).collect::<String>())
}

/// The plan, or the refusal; and the steps of three rules, which stay what they were on a refusal.
fn plan_of(input: &Input) -> String {
    let mut plan = Plan { cells: vec![7; places(sizes::PLAN, input.more[3])] };
    let compiled = match input.tables().compile(&mut plan) {
        Ok(steps) if steps != plan.steps() => format!("  {steps} steps told, {} written\n", plan.steps()),
        Ok(steps) => (0..steps).map(|k| step(&plan, k)).collect(),
        Err(why) => format!("  refused {}\n", why.ground.number()),
    };
    format!("{compiled}  rules {} {} {}\n", plan.cells[1], plan.cells[2], plan.cells[3])
}

#[test]
fn plans_are_as_the_table_of_steps_says() {
    let text = cases::text("plan.txt");
    let (common, parts) = cases::cases(&text);
    let mut written = String::new();
    for part in parts {
        let mut input = common.clone();
        part.lines.iter().for_each(|line| input.store(line));
        written += &format!("{}\n{}", part.title, plan_of(&input));
    }
    cases::compare_file("plan", &written);
}
