//! What the verdict says of small tables to console 0, and its tally. Two lines more than in the other texts:
//! `tally N`, the tally from here on; `ask NODE SHAPE N C V`, a question, with names, cells and values lent as `lend` says.

use cases::{Input, Line};
use melivanoup::Tallies;

/// The answer, and the tally that is handed back.
fn ask(input: &mut Input, line: &Line, tallies: &mut Tallies) -> String {
    input.more = [2, 3, 4, 5, 6].map(|k| line.number(k));
    // -1 is the greatest number there is
    let [node, shape] = [0, 1].map(|k| line.number(k) as usize);
    let answer = match input.tables().verdict(0, node, shape, tallies) {
        Ok(true) => "yes".into(),
        Ok(false) => "no".into(),
        Err(why) => format!("refused {}", why.ground.number()),
    };
    let [tally, others @ ..] = tallies.counts;
    assert_eq!(others, [0; 7], "{}: the other consoles asked nothing", line.text);
    format!("{}: {answer}, {tally}\n", line.text)
}

#[test]
fn verdicts_are_as_the_definitions_say() {
    let text = cases::text("verdict.txt");
    let (empty, parts) = cases::cases(&text);
    let (mut written, mut tallies) = (String::new(), Tallies::new());
    for part in parts {
        written += &format!("- {}\n", part.title);
        let mut input = empty.clone();
        for line in &part.lines {
            match line.word {
                "tally" => tallies.counts[0] = line.number(0).try_into().expect("a tally"),
                "ask" => written += &ask(&mut input, line, &mut tallies),
                _ => input.store(line),
            }
        }
    }
    cases::compare_file("verdict", &written);
}
