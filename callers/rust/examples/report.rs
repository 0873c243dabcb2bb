//! report FILE: prints the report of a book; for a refused one `(refused NUMBER LINE)`, and its ground on standard error.

use melivanoup::Validator;
use std::process::ExitCode;

fn main() -> ExitCode {
    let Some(file) = std::env::args().nth(1) else {
        eprintln!("usage: report FILE");
        return ExitCode::from(2);
    };
    let book = match std::fs::read(&file) {
        Ok(book) => book,
        Err(fault) => {
            eprintln!("{file}: {fault}");
            return ExitCode::from(2);
        }
    };
    match Validator::new().validate(&book) {
        Ok(report) => {
            print!("{report}");
            ExitCode::SUCCESS
        }
        Err(refusal) => {
            println!("(refused {} {})", refusal.ground.number(), refusal.line);
            eprintln!("{file}: {refusal}");
            ExitCode::FAILURE
        }
    }
}
