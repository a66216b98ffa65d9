//! Holds a program to this implementation: many made files, byte for byte the
//! same report.

use std::env;
use std::fs;
use std::process::ExitCode;

use second::process::output_of;
use second::{generate, report};

fn main() -> ExitCode {
    let words: Vec<String> = env::args().skip(1).collect();
    let [program, count, first_seed] = words.as_slice() else {
        eprintln!("usage: compare-program PROGRAM COUNT FIRST-SEED");
        return ExitCode::FAILURE;
    };
    let (Ok(count), Ok(first_seed)) = (count.parse::<u64>(), first_seed.parse::<u64>()) else {
        eprintln!("COUNT and FIRST-SEED are numbers");
        return ExitCode::FAILURE;
    };
    for index in 0..count {
        let seed = first_seed.wrapping_add(index);
        let input = generate::file(seed);
        let expected = report(&input);
        match output_of(program, &input) {
            Ok(output) if output == expected => {}
            Ok(_) => {
                let _ = fs::write("differs.hex", &input);
                eprintln!("seed {seed}: the reports differ; the input is in differs.hex");
                return ExitCode::FAILURE;
            }
            Err(error) => {
                eprintln!("{program}: {error}");
                return ExitCode::FAILURE;
            }
        }
    }
    println!("{count} made files: the same report byte for byte");
    ExitCode::SUCCESS
}
