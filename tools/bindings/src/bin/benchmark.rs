//! The proved library and the second implementation side by side, on the same
//! inputs in one run: the time of one call of an entry, and the ratio.
//!
//! With a word, only the rows whose names contain it.

use std::env;
use std::hint::black_box;
use std::time::{Duration, Instant};

use second::entries::{self, READ_SIZE, REPORT_SIZE, RUN_SIZE, VERDICT_SIZE};
use second::session::{KEYS_LIMIT, ROWS_LIMIT};
use second::tables::{Tables, LENGTHS};
use second::{parse, report, run, verdict, File, Run};

/// How often each side is timed, in turn. The least time counts: what else
/// the machine does can only add to it.
const ROUNDS: usize = 400;
/// How long one timing lasts at least: so short that in many of them nothing
/// else comes between.
const ROUND: Duration = Duration::from_millis(1);

/// A row of the table: an entry on an input.
struct Row {
    name: &'static str,
    entry: Entry,
    input: String,
}

#[derive(Clone, Copy)]
enum Entry {
    Read,
    Verdict,
    Run,
    Report,
}

/// What is lent for a call.
#[derive(PartialEq, Debug)]
struct Lent {
    tables: Tables,
    numbers: [u64; READ_SIZE],
    bytes: Vec<u8>,
}

impl Lent {
    fn new() -> Lent {
        Lent {
            tables: Tables::zero(LENGTHS),
            numbers: [0; READ_SIZE],
            bytes: vec![0; REPORT_SIZE],
        }
    }
}

impl Entry {
    fn library(self, input: &[u8], lent: &mut Lent) {
        let (tables, numbers) = (&mut lent.tables, &mut lent.numbers);
        match self {
            Entry::Read => bindings::read(input, tables, &mut numbers[..READ_SIZE]),
            Entry::Verdict => bindings::verdict(input, tables, &mut numbers[..VERDICT_SIZE]),
            Entry::Run => bindings::run(input, tables, &mut numbers[..RUN_SIZE]),
            Entry::Report => bindings::report(input, tables, &mut lent.bytes),
        };
    }

    /// What the library must have left.
    fn second(self, input: &[u8], lent: &mut Lent) {
        let (tables, numbers) = (&mut lent.tables, &mut lent.numbers);
        match self {
            Entry::Read => entries::read(input, tables, &mut numbers[..READ_SIZE]),
            Entry::Verdict => entries::verdict(input, tables, &mut numbers[..VERDICT_SIZE]),
            Entry::Run => entries::run(input, tables, &mut numbers[..RUN_SIZE]),
            Entry::Report => entries::report(input, tables, &mut lent.bytes),
        };
    }

    /// The plain way to the same answer, which is timed: the second
    /// implementation without the tables, its own trees being its result.
    fn plain(self, input: &[u8]) {
        match self {
            Entry::Read => drop(black_box(parse(input))),
            Entry::Verdict => drop(black_box(parse(input).map(|file| verdict(&file)))),
            Entry::Run => drop(black_box(parse(input).map(played))),
            Entry::Report => drop(black_box(report(input))),
        }
    }
}

fn played(file: File) -> Run {
    run(&file, ROWS_LIMIT, KEYS_LIMIT)
}

/// Templates 1 and 25 allowed.
const POLICY: &str = "01050000000002000002\n";
/// All templates allowed but those with A and without S.
const WIDE_POLICY: &str = "0102bbbbbbbbbbbbbbbb\n";
/// Makes a key under template 1 and returns its handle.
const GENERATE: &str = "0200020200000100000000\n";
/// Gets the key of a handle and returns it.
const GET: &str = "0201020100000100010000\n";
/// Takes four values and returns the first.
const FOUR: &str = "02040100000000\n";

/// 32 commands of 16 steps: fifteen gets that any template serves, then the
/// return.
fn long_commands() -> String {
    let gets = "01000000".repeat(15);
    format!("020410{gets}00000000\n").repeat(32)
}

/// 1,024 calls of command 0 with four new constants each.
fn four_constants() -> String {
    let line = |i: usize| {
        let constants = (0..4).map(|k| format!("{:04x}", 0x8000 + 4 * i + k));
        format!("03000004{}\n", constants.collect::<String>())
    };
    (0..1024).map(line).collect()
}

/// 1,024 lines, each of which derives from the one before under labels in
/// turn; the first from a constant.
fn derivations() -> String {
    let line = |i: usize| {
        let from = i.checked_sub(1).unwrap_or(0x8000);
        format!("0303{:02x}01{from:04x}\n", i % 2)
    };
    (0..1024).map(line).collect()
}

fn rows() -> Vec<Row> {
    let row = |name, entry, input| Row { name, entry, input };
    let (commands, filling) = (long_commands(), four_constants());
    let keys = "03000000\n".repeat(256);
    let gets: String = (0..768)
        .map(|i| format!("03000101{:04x}\n", i % 256))
        .collect();
    vec![
        // No file that is taken is longer: all counts are at their limits.
        row(
            "read: the longest file, 29,941 bytes",
            Entry::Read,
            format!("{WIDE_POLICY}{commands}{filling}"),
        ),
        row(
            "verdict: 32 commands of 16 steps, 48 templates",
            Entry::Verdict,
            format!("{WIDE_POLICY}{commands}"),
        ),
        // Next to nothing to do but clearing what is lent.
        row("report: a policy alone", Entry::Report, POLICY.into()),
        row(
            "report: the worked listing",
            Entry::Report,
            include_str!("../../../../examples/wrap-decrypt.hex").into(),
        ),
        row(
            "run: 1,024 lines with few rows",
            Entry::Run,
            format!("{POLICY}{}", "0301000280008001\n".repeat(1024)),
        ),
        row(
            "run: 1,024 lines that fill 4,096 rows",
            Entry::Run,
            format!("{POLICY}{FOUR}{filling}"),
        ),
        row(
            "run: 256 keys and 768 gets",
            Entry::Run,
            format!("{POLICY}{GENERATE}{GET}{keys}{gets}"),
        ),
        row(
            "run: 1,024 lines that derive, each from the last",
            Entry::Run,
            format!("{POLICY}{}", derivations()),
        ),
    ]
}

/// The time of one call, from calling it for a while. The clock is asked ever
/// more seldom, so that asking it does not count.
fn time(work: &mut impl FnMut()) -> Duration {
    let start = Instant::now();
    let mut calls = 0;
    let mut next = 1;
    loop {
        for _ in 0..next {
            work();
        }
        calls += next;
        let spent = start.elapsed();
        if spent >= ROUND {
            return spent / calls;
        }
        next = calls;
    }
}

/// The least times of the two, which are timed in turn.
fn least_times(mut one: impl FnMut(), mut other: impl FnMut()) -> (Duration, Duration) {
    let rounds = (0..ROUNDS).map(|_| (time(&mut one), time(&mut other)));
    let longest = (Duration::MAX, Duration::MAX);
    rounds.fold(longest, |least, round| {
        (least.0.min(round.0), least.1.min(round.1))
    })
}

fn main() {
    let word = env::args().nth(1).unwrap_or_default();
    println!(
        "{:<50}{:>12}{:>12}{:>8}",
        "entry and input", "library", "second", "ratio"
    );
    let rows = rows().into_iter().filter(|row| row.name.contains(&word));
    for Row { name, entry, input } in rows {
        let input = input.as_bytes();
        let (mut lent, mut expected) = (Lent::new(), Lent::new());
        entry.library(input, &mut lent);
        entry.second(input, &mut expected);
        assert_eq!(lent, expected, "{name}");
        let (library, second) = least_times(
            || entry.library(black_box(input), black_box(&mut lent)),
            || entry.plain(black_box(input)),
        );
        let ratio = library.as_secs_f64() / second.as_secs_f64();
        println!("{name:<50}{library:>12.2?}{second:>12.2?}{ratio:>8.2}");
    }
}
