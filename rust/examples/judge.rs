//! Judges a file and says in words what was found: the verdict on the
//! commands, how the session ended, and the breached lines.
//! `examples/judge.c` says the same.

use std::process::ExitCode;

use migladze::{Checker, Run};

fn main() -> ExitCode {
    let name = std::env::args().nth(1);
    let Some(Ok(input)) = name.map(std::fs::read) else {
        eprintln!("usage: judge FILE");
        return ExitCode::from(2);
    };
    let mut checker = Checker::new();
    println!("{}", checker.verdict(&input));
    let Run::Ended {
        ending,
        first_breach,
    } = checker.run(&input)
    else {
        // Refused: the verdict has said why.
        return ExitCode::SUCCESS;
    };
    println!("{ending}");
    if first_breach.is_none() {
        println!("no line is breached");
    }
    let tables = checker.tables();
    for (i, line) in tables.finished_lines().enumerate() {
        if !line.breached {
            continue;
        }
        match line.row.and_then(|row| tables.row(row)) {
            Some(value) => println!("line {i} is breached; it gave {value}"),
            None => println!("line {i} is breached; it stopped"),
        }
    }
    ExitCode::SUCCESS
}
