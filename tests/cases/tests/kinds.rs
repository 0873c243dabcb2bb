//! What class rules select: in small tables with a link named `under`, or nearly, and in chains and rings of classes. One line
//! more than in the other texts: `ask NODE N C V P W`, which nodes the step Typed of that node has, with all lent as `lend` says.

use cases::{places, Input, Line};
use melivanoup::{sizes, Plan, Refusal, Work};

fn work(input: &Input) -> Work {
    Work { words: vec![0; places(sizes::WORK, input.more[4])] }
}

/// What the step Typed of a class has, as the one step of a plan.
fn by_step(mut input: Input, class: usize) -> Result<Vec<u16>, Refusal> {
    let mut work = work(&input);
    input.add(&Line::new(&format!("step 24 {class}")));
    input.tables().run(&input.plan(), &mut work)?;
    Ok((0..1024).filter(|&v| work.words[v as usize / 64] >> (v % 64) & 1 == 1).collect())
}

/// What a rule on the class lists, whose shape no node meets.
fn by_rule(mut input: Input, class: usize) -> Result<Vec<u16>, Refusal> {
    for line in ["entry 0 true", "entry 5 0 not", "shape 1", &format!("rule 0 3 {class}")] {
        input.add(&Line::new(line));
    }
    let (tables, mut plan, mut work) = (input.tables(), Plan::new(), work(&input));
    plan.cells.resize(places(sizes::PLAN, input.more[3]), 7);
    tables.compile(&mut plan)?;
    tables.run(&plan, &mut work)?;
    tables.list(&plan, &work, 0)
}

/// The nodes of a class, or the refusal: by the step and by the rule the same.
fn told(input: &Input, class: usize) -> String {
    let (step, rule) = (by_step(input.clone(), class), by_rule(input.clone(), class));
    match step {
        _ if step != rule => format!("{step:?} by the step, {rule:?} by a rule"),
        Ok(nodes) if nodes.is_empty() => "none".into(),
        Ok(nodes) => nodes.iter().map(u16::to_string).collect::<Vec<_>>().join(" "),
        Err(why) => format!("refused {}", why.ground.number()),
    }
}

fn ask(input: &mut Input, line: &Line) -> String {
    input.more = [1, 2, 3, 4, 5].map(|k| line.number(k));
    format!("{}: {}\n", line.text, told(input, line.number(0) as usize))
}

/// So many classes, of which the first of each pair is under the second; the first, the middle and the last are instances of
/// themselves. What is told of these three.
fn row(title: &str, classes: usize, pairs: impl Iterator<Item = (usize, usize)>) -> String {
    let mut input = Input::new();
    ["cell 1 2 links", "name 1 0 a", "name 1 1 under"].iter().for_each(|line| input.store(&Line::new(line)));
    (0..classes).for_each(|_| _ = input.add(&Line::new("node 0")));
    pairs.for_each(|(v, next)| _ = input.add(&Line::new(&format!("fact {v} 1 {next}"))));
    let some = [0, classes / 2, classes - 1];
    some.iter().for_each(|v| _ = input.add(&Line::new(&format!("fact {v} 0 {v}"))));
    format!("{title} of {classes}: {}\n", some.map(|class| told(&input, class)).join(", "))
}

fn rows(classes: usize) -> String {
    let up = (1..classes).map(|v| (v - 1, v));
    let down = up.clone().map(|(v, next)| (next, v));
    let ring = up.clone().chain([(classes - 1, 0)]);
    row("up", classes, up) + &row("down", classes, down) + &row("ring", classes, ring)
}

#[test]
fn class_rules_select_as_the_definitions_say() {
    let all: String = [1, 2, 3, 63, 64, 65, 127, 128, 129, 1023, 1024].map(rows).concat();
    cases::compare_file("kinds", &(cases::asked(&cases::text("kinds.txt"), ask) + "- chains and rings\n" + &all));
}
