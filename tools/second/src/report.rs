//! The program's whole output for a whole input: one frame for a refused file,
//! otherwise the verdict, the finished lines and the ending.

use crate::frames::{parse, Refusal};
use crate::session::{run, Outcome, Run, KEYS_LIMIT, ROWS_LIMIT};
use crate::text;
use crate::verdict::{verdict, Verdict};

const REFUSED: u8 = 0x80;
const VERDICT: u8 = 0x81;
const LINE: u8 = 0x82;
const END: u8 = 0x83;

/// Stands where a number of two bytes is missing.
const NONE: u16 = 0xffff;

/// The session is played whatever the verdict is.
pub fn report(input: &[u8]) -> Vec<u8> {
    match parse(input) {
        Ok(file) => of_run(verdict(&file), &run(&file, ROWS_LIMIT, KEYS_LIMIT)),
        Err(refusal) => of_refusal(refusal),
    }
}

pub fn of_refusal(refusal: Refusal) -> Vec<u8> {
    let mut output = Vec::new();
    let [high, low] = two_bytes(refusal.frame);
    text::encode(&[REFUSED, refusal.number, high, low], &mut output);
    output
}

pub fn of_run(verdict: Verdict, run: &Run) -> Vec<u8> {
    let mut output = Vec::new();
    write_verdict(verdict, &mut output);
    for (number, outcome) in run.outcomes.iter().enumerate() {
        write_outcome(number, outcome, &mut output);
    }
    write_end(run, &mut output);
    output
}

fn write_verdict(verdict: Verdict, output: &mut Vec<u8>) {
    let [high, low] = two_bytes(verdict.frame);
    let step = verdict.step as u8;
    text::encode(&[VERDICT, verdict.number, high, low, step], output);
}

fn write_outcome(number: usize, outcome: &Outcome, output: &mut Vec<u8>) {
    let [line_high, line_low] = two_bytes(number);
    let stopped = u8::from(outcome.row.is_none());
    let [row_high, row_low] = two_bytes_or_none(outcome.row.map(|row| row as usize));
    let [keys_high, keys_low] = two_bytes(outcome.stored_keys);
    let breached = u8::from(outcome.breached);
    let frame = [
        LINE, line_high, line_low, stopped, row_high, row_low, keys_high, keys_low, breached,
    ];
    text::encode(&frame, output);
}

fn write_end(run: &Run, output: &mut Vec<u8>) {
    let [high, low] = two_bytes_or_none(run.first_breached);
    text::encode(&[END, run.ending, high, low], output);
}

fn two_bytes_or_none(number: Option<usize>) -> [u8; 2] {
    number.map_or(NONE.to_be_bytes(), two_bytes)
}

/// Frames, lines, rows and keys are all below 32,768 by the limits on input,
/// rows and keys, so nothing is cut off here.
fn two_bytes(number: usize) -> [u8; 2] {
    (number as u16).to_be_bytes()
}
