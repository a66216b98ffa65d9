//! Small helpers that write frames by hand, so that the tests read like the
//! documents and share nothing with the generator.

use second::session::{KEYS_LIMIT, ROWS_LIMIT};
use second::{parse, run, verdict, File, Run};

pub type Frame = Vec<u8>;

pub fn policy(transported: u8, templates: &[u8]) -> Frame {
    let allowed = templates.iter().fold(0u64, |set, t| set | 1 << t);
    let mut frame = vec![1, transported];
    frame.extend(allowed.to_be_bytes());
    frame
}

pub fn command(parameters: u8, steps: &[[u8; 4]]) -> Frame {
    let mut frame = vec![2, parameters, steps.len() as u8];
    frame.extend(steps.iter().flatten());
    frame
}

/// A line of this kind; `command` is 0 but for calls.
pub fn line(kind: u8, command: u8, arguments: &[u16]) -> Frame {
    let mut frame = vec![3, kind, command, arguments.len() as u8];
    for argument in arguments {
        frame.extend(argument.to_be_bytes());
    }
    frame
}

pub fn call(command: u8, arguments: &[u16]) -> Frame {
    line(0, command, arguments)
}

/// The argument that is the public constant of this number.
pub fn constant(number: u16) -> u16 {
    0x8000 | number
}

pub fn text(frames: &[Frame]) -> Vec<u8> {
    let mut output = String::new();
    for frame in frames {
        for byte in frame {
            output += &format!("{byte:02x}");
        }
        output.push('\n');
    }
    output.into_bytes()
}

pub fn file(frames: &[Frame]) -> File {
    parse(&text(frames)).expect("a file that is read")
}

/// The number and the frame of the refusal of these bytes.
pub fn refusal_of_text(input: &[u8]) -> (u8, usize) {
    let refusal = parse(input).expect_err("a file that is refused");
    (refusal.number, refusal.frame)
}

pub fn refusal(frames: &[Frame]) -> (u8, usize) {
    refusal_of_text(&text(frames))
}

/// The number, frame and step of the verdict.
pub fn verdict_of(frames: &[Frame]) -> (u8, usize, usize) {
    let verdict = verdict(&file(frames));
    (verdict.number, verdict.frame, verdict.step)
}

pub fn run_of(frames: &[Frame]) -> Run {
    run(&file(frames), ROWS_LIMIT, KEYS_LIMIT)
}

/// The rows of the lines; None for a stopped line.
pub fn rows_of_lines(run: &Run) -> Vec<Option<u32>> {
    run.outcomes.iter().map(|outcome| outcome.row).collect()
}

pub fn marks(run: &Run) -> Vec<bool> {
    run.outcomes
        .iter()
        .map(|outcome| outcome.breached)
        .collect()
}

pub fn key_counts(run: &Run) -> Vec<usize> {
    run.outcomes
        .iter()
        .map(|outcome| outcome.stored_keys)
        .collect()
}
