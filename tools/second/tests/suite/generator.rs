//! The generator and the checker against each other, over some hundreds of
//! generated files.

use std::collections::HashSet;

use super::build::{command, file, line, text, Frame};
use second::frames::{Action, Argument, Line, Step};
use second::session::{KEYS_LIMIT, ROWS_LIMIT};
use second::token::Value;
use second::{generate, parse, report, run, verdict, File};

const SEEDS: std::ops::Range<u64> = 1_000_000..1_001_500;

#[test]
fn the_same_seed_gives_the_same_file() {
    for seed in SEEDS.step_by(7) {
        assert_eq!(generate::file(seed), generate::file(seed));
    }
    assert_ne!(generate::file(1), generate::file(2));
}

#[test]
fn every_output_is_made_of_whole_frames() {
    for seed in SEEDS {
        let output = report(&generate::file(seed));
        let lines: Vec<&[u8]> = output.split_inclusive(|&byte| byte == b'\n').collect();
        let refused = lines[0].starts_with(b"80");
        assert_eq!(refused, lines.len() == 1, "seed {seed}");
        assert!(refused || lines[0].starts_with(b"81"));
        assert!(refused || lines[lines.len() - 1].starts_with(b"83"));
    }
}

fn step_bytes(step: Step) -> [u8; 4] {
    match step {
        Step::Return { value } => [0, value, 0, 0],
        Step::Get { handle, attributes } => [1, handle, 0, attributes],
        Step::Generate { template } => [2, 0, 0, template],
        Step::Store { value, template } => [3, value, 0, template],
        Step::Encrypt { value, key } => [4, value, key, 0],
        Step::Decrypt { value, key } => [5, value, key, 0],
        Step::Derive { value, label } => [6, 0, value, label],
    }
}

/// The frame of a line, its names of earlier lines changed by `rename`.
fn line_frame(old: &Line, rename: impl Fn(u16) -> u16) -> Frame {
    let arguments: Vec<u16> = old
        .arguments()
        .iter()
        .map(|argument| match *argument {
            Argument::Constant(number) => 0x8000 | number,
            Argument::Line(earlier) => rename(earlier),
        })
        .collect();
    match old.action {
        Action::Call { command } => line(0, command, &arguments),
        Action::Encrypt => line(1, 0, &arguments),
        Action::Decrypt => line(2, 0, &arguments),
        Action::Derive { label } => line(3, label, &arguments),
    }
}

/// The frames before the session lines.
fn first_frames(file: &File) -> Vec<Frame> {
    let mut policy = vec![1, file.policy.transported as u8];
    policy.extend(file.policy.allowed.to_be_bytes());
    let mut frames = vec![policy];
    for old in &file.commands {
        let steps: Vec<[u8; 4]> = old.steps.iter().copied().map(step_bytes).collect();
        frames.push(command(old.parameters as u8, &steps));
    }
    frames
}

/// Reading loses nothing: what was read gives back the very bytes.
#[test]
fn a_file_that_is_read_can_be_written_again() {
    for seed in SEEDS {
        let input = generate::file(seed);
        let Ok(file) = parse(&input) else { continue };
        let mut frames = first_frames(&file);
        frames.extend(file.lines.iter().map(|old| line_frame(old, |name| name)));
        assert_eq!(text(&frames), input, "seed {seed}");
    }
}

/// Rows, atoms and keys are numbered as if the stopped lines had never been.
#[test]
fn a_run_without_its_stopped_lines_ends_the_same() {
    let mut with_stops = 0;
    for seed in SEEDS {
        let Ok(whole) = parse(&generate::file(seed)) else {
            continue;
        };
        let expected = run(&whole, ROWS_LIMIT, KEYS_LIMIT);
        let mut frames = first_frames(&whole);
        let mut numbers = Vec::new();
        let mut next = 0;
        for (old, outcome) in whole.lines.iter().zip(&expected.outcomes) {
            numbers.push(next);
            if outcome.row.is_some() {
                frames.push(line_frame(old, |name| numbers[usize::from(name)]));
                next += 1;
            }
        }
        let rest = run(&file(&frames), ROWS_LIMIT, KEYS_LIMIT);
        assert_eq!(rest.rows, expected.rows, "seed {seed}");
        assert_eq!(rest.keys, expected.keys, "seed {seed}");
        assert_eq!(
            rest.first_breached.is_some(),
            expected.first_breached.is_some()
        );
        with_stops += u32::from(rest.outcomes.len() < expected.outcomes.len());
    }
    assert!(with_stops > 50);
}

#[test]
fn no_accepted_file_is_breached() {
    let mut accepted = 0;
    for seed in SEEDS {
        let Ok(file) = parse(&generate::file(seed)) else {
            continue;
        };
        if verdict(&file).number == 0 {
            let run = run(&file, ROWS_LIMIT, KEYS_LIMIT);
            assert_eq!(run.first_breached, None, "seed {seed}");
            accepted += 1;
        }
    }
    assert!(accepted > 400);
}

/// The mark of every line, worked out afresh from the definition. Which keys
/// were there after a line shows in its count; a key that was generated has
/// the row after its handle's, a stored value one before it.
#[test]
fn the_marks_follow_their_definition() {
    for seed in SEEDS {
        let Ok(file) = parse(&generate::file(seed)) else {
            continue;
        };
        let run = run(&file, ROWS_LIMIT, KEYS_LIMIT);
        let mut shown = HashSet::new();
        for (number, outcome) in run.outcomes.iter().enumerate() {
            shown.extend(outcome.row);
            let mut keys = run.keys[..outcome.stored_keys].iter();
            let breached = keys.any(|stored| {
                let generated = stored.key > stored.handle;
                let guarded = stored.template & 2 != 0 || generated && stored.template & 1 != 0;
                let constant = matches!(run.rows[stored.key as usize], Value::Const(_));
                guarded && (constant || shown.contains(&stored.key))
            });
            assert_eq!(outcome.breached, breached, "seed {seed}, line {number}");
        }
    }
}
