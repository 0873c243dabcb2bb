//! A small well-formed table, damaged one cell at a time: which are well formed, and which are long enough. `tables.txt` has a
//! line `CELL VALUE what it is` for each cell of the table that is not zero, an empty line, and a line for each damage.

use melivanoup::{Ground, Plan, Refusal, Tables, Tallies};

/// What a line says: a value into a cell.
fn change(tables: &mut Tables, line: &str) {
    let numbers: Vec<u16> = line.split(' ').map_while(|word| word.parse().ok()).collect();
    assert!(numbers.len() >= 2, "no cell and value: {line}");
    tables.cells[numbers[0] as usize] = numbers[1];
}

/// Whether nothing is refused; else it must be refused on this ground, and the verdict must say so too.
fn answer(what: &str, tables: &Tables, ground: Ground) -> String {
    let compiled = tables.compile(&mut Plan::new()).map(|_| ());
    let refused = Err(Refusal { ground, line: 0 });
    let same = (tables.verdict(0, 0, 0, &mut Tallies::new()).map(|_| ()) == refused) == (compiled == refused);
    match compiled {
        _ if !same => format!("{what}: the verdict says otherwise\n"),
        Ok(()) => format!("{what}: yes\n"),
        _ if compiled == refused => format!("{what}: no\n"),
        Err(why) => format!("{what}: {why}\n"),
    }
}

fn lengths() -> String {
    let long = Tables::new();
    let mut short = [long.clone(), long.clone(), long.clone()];
    short[0].names.pop();
    short[1].cells.pop();
    short[2].values.pop();
    let titles = ["long enough", "names one short", "cells one short", "values one short"];
    let all = [&long, &short[0], &short[1], &short[2]];
    titles.iter().zip(all).map(|(what, tables)| answer(what, tables, Ground::Short)).collect()
}

#[test]
fn what_is_not_well_formed_is_refused() {
    let text = cases::text("tables.txt");
    let (table, damages) = text.split_once("\n\n").expect("a table and damages");
    let mut tables = Tables::new();
    table.lines().for_each(|line| change(&mut tables, line));
    let mut written = lengths();
    written += &answer("the table", &tables, Ground::Malformed);
    written += &answer("the table cleared", &Tables::new(), Ground::Malformed);
    for line in damages.lines() {
        let mut damaged = tables.clone();
        change(&mut damaged, line);
        written += &answer(line, &damaged, Ground::Malformed);
    }
    cases::compare_file("tables", &written);
}
