//! Holds the library's entries to the second implementation: for many made
//! files, the same answers and the same contents of all lent tables.

mod census;
mod lending;

use std::env;
use std::fmt::Debug;
use std::process::ExitCode;

use census::{Census, Event};
use lending::{Lender, Sizes};
use second::entries::{self, READ_SIZE, REPORT_SIZE, RUN_SIZE, VERDICT_SIZE};
use second::generate;
use second::tables::Tables;

/// From this many files on, everything that can occur must have occurred.
const ENOUGH_FILES: u64 = 20_000;

/// How many files in a hundred are also compared with each kind of odd sizes.
const ODD_SHARE: usize = 25;

/// Stands where no line is breached.
const NO_LINE: u64 = 0xffff;

/// An entry as either side has it.
type Function<T> = fn(&[u8], &mut Tables, &mut [T]) -> usize;

struct Entry<T> {
    name: &'static str,
    /// How many numbers or bytes the place for its answer has.
    size: usize,
    library: Function<T>,
    second: Function<T>,
}

const READ: Entry<u64> = Entry {
    name: "read",
    size: READ_SIZE,
    library: bindings::read,
    second: entries::read,
};

const VERDICT: Entry<u64> = Entry {
    name: "verdict",
    size: VERDICT_SIZE,
    library: bindings::verdict,
    second: entries::verdict,
};

const RUN: Entry<u64> = Entry {
    name: "run",
    size: RUN_SIZE,
    library: bindings::run,
    second: entries::run,
};

const REPORT: Entry<u8> = Entry {
    name: "report",
    size: REPORT_SIZE,
    library: bindings::report,
    second: entries::report,
};

/// The count that a call gave, and what it made of what it was lent.
struct Left<T> {
    count: usize,
    answer: Vec<T>,
    tables: Tables,
}

fn call<T: Clone>(function: Function<T>, input: &[u8], tables: &Tables, answer: &[T]) -> Left<T> {
    let (mut tables, mut answer) = (tables.clone(), answer.to_vec());
    Left {
        count: function(input, &mut tables, &mut answer),
        answer,
        tables,
    }
}

/// The first thing in which the library differs from the second
/// implementation. What they were lent has the same sizes.
fn difference<T: PartialEq + Debug>(library: &Left<T>, second: &Left<T>) -> Option<String> {
    let counts = first_difference("count", &[library.count], &[second.count]);
    let answers = || first_difference("answer", &library.answer, &second.answer);
    let tables = || {
        let seconds = second.tables.named();
        let mut pairs = library.tables.named().into_iter().zip(seconds);
        pairs.find_map(|((name, one), (_, other))| first_difference(name, one, other))
    };
    counts.or_else(answers).or_else(tables)
}

fn first_difference<T: PartialEq + Debug>(name: &str, one: &[T], other: &[T]) -> Option<String> {
    let place = one
        .iter()
        .zip(other)
        .position(|(one, other)| one != other)?;
    let (one, other) = (&one[place], &other[place]);
    Some(format!(
        "{name}, place {place}: the library has {one:#x?}, the second implementation {other:#x?}"
    ))
}

/// All the comparing, file after file.
#[derive(Default)]
struct Comparison {
    lender: Lender,
    census: Census,
    calls: u64,
}

impl Comparison {
    /// Compares all entries on the file of a seed; an error says what differs,
    /// and has the file.
    fn take(&mut self, seed: u64) -> Result<(), String> {
        let input = generate::file(seed);
        self.lender.start(seed);
        self.take_input(&input).map_err(|difference| {
            let text = input.escape_ascii().to_string().replace("\\n", "\n");
            format!("seed {seed}: {difference}\n{text}")
        })
    }

    fn take_input(&mut self, input: &[u8]) -> Result<(), String> {
        self.take_with_right_sizes(input)?;
        if self.lender.chance(ODD_SHARE) {
            let [read, ..] = self.numbers(input, Sizes::OddTables)?;
            self.census.count(Event::Refusal(read.answer[0]));
            self.entry(&REPORT, input, Sizes::OddTables)?;
        }
        if self.lender.chance(ODD_SHARE) {
            self.numbers(input, Sizes::OddAnswer)?;
            let report = self.entry(&REPORT, input, Sizes::OddAnswer)?;
            if report.count == 0 {
                self.census.count(Event::NoAnswer);
            }
        }
        Ok(())
    }

    fn take_with_right_sizes(&mut self, input: &[u8]) -> Result<(), String> {
        let [read, verdict, run] = self.numbers(input, Sizes::Right)?;
        let report = self.entry(&REPORT, input, Sizes::Right)?;
        if read.answer[0] != 0 {
            self.census.count_refusal(read.answer[0], read.answer[1]);
            return Ok(());
        }
        self.lender.keep_old(report.tables);
        let (number, ending) = (verdict.answer[0], run.answer[2]);
        let breach = Some(run.answer[4]).filter(|&line| line != NO_LINE);
        if number == 0 && breach.is_some() {
            return Err("accepted and yet breached".into());
        }
        self.census.count_file(number, ending, breach, &run.tables);
        Ok(())
    }

    /// The three entries whose answers are numbers.
    fn numbers(&mut self, input: &[u8], sizes: Sizes) -> Result<[Left<u64>; 3], String> {
        Ok([
            self.entry(&READ, input, sizes)?,
            self.entry(&VERDICT, input, sizes)?,
            self.entry(&RUN, input, sizes)?,
        ])
    }

    /// Calls one entry of both sides with the same garbage.
    fn entry<T>(&mut self, entry: &Entry<T>, input: &[u8], sizes: Sizes) -> Result<Left<T>, String>
    where
        T: Clone + PartialEq + Debug + From<u8>,
    {
        let (tables, answer) = self.lender.lend(entry.size, sizes);
        let library = call(entry.library, input, &tables, &answer);
        let second = call(entry.second, input, &tables, &answer);
        self.calls += 1;
        match difference(&library, &second) {
            None => Ok(library),
            Some(difference) => {
                let (name, lengths, size) = (entry.name, tables.lengths(), answer.len());
                let lent = format!("tables of {lengths:?} and a place of {size}");
                Err(format!("{name} with {lent}: {difference}"))
            }
        }
    }

    /// Says what was compared; an error says what never occurred.
    fn finish(&self, count: u64, first_seed: u64) -> Result<(), String> {
        let Comparison { calls, census, .. } = self;
        println!("{count} made files, seeds from {first_seed}, {calls} calls: the same answers and tables");
        census.print();
        let missing = census.missing();
        if count >= ENOUGH_FILES && !missing.is_empty() {
            return Err(format!("never occurred: {}", missing.join("; ")));
        }
        Ok(())
    }
}

fn compare(count: u64, first_seed: u64) -> Result<(), String> {
    let mut comparison = Comparison::default();
    for index in 0..count {
        comparison.take(first_seed.wrapping_add(index))?;
    }
    comparison.finish(count, first_seed)
}

fn main() -> ExitCode {
    let mut words = env::args().skip(1).map(|word| word.parse::<u64>());
    let (Some(Ok(count)), Some(Ok(first_seed)), None) = (words.next(), words.next(), words.next())
    else {
        eprintln!("usage: compare-entries COUNT FIRST-SEED");
        return ExitCode::FAILURE;
    };
    match compare(count, first_seed) {
        Ok(()) => ExitCode::SUCCESS,
        Err(wrong) => {
            eprintln!("{wrong}");
            ExitCode::FAILURE
        }
    }
}
