//! The library's four entries as their callers see them: each is lent the
//! tables and a place for its answer, writes both, and says how many numbers
//! or bytes the answer takes.
//!
//! A place of another size than the answer's gets none: then nothing is
//! written anywhere.

use crate::frames::{parse, File, Refusal};
use crate::report::{of_refusal, of_run};
use crate::session::{run as play, KEYS_LIMIT, ROWS_LIMIT};
use crate::tables::{Tables, LENGTHS};
use crate::verdict::{verdict as judge, Verdict};

pub const READ_SIZE: usize = 6;
pub const VERDICT_SIZE: usize = 3;
pub const RUN_SIZE: usize = 5;
/// The bytes of the longest report: 11 of the verdict, 19 for each of 1,024
/// lines and 9 of the end.
pub const REPORT_SIZE: usize = 11 + 19 * 1_024 + 9;

const WRONG_LENGTH: Refusal = Refusal {
    number: 15,
    frame: 0,
};

/// Stands where no line is breached.
const NO_LINE: u64 = 0xffff;

/// Number and frame of a refusal, then the transported type, the set of
/// allowed templates and the counts of commands and session lines.
pub fn read(input: &[u8], lent: &mut Tables, answer: &mut [u64]) -> usize {
    let Ok(answer): Result<&mut [u64; READ_SIZE], _> = answer.try_into() else {
        return 0;
    };
    *answer = match take(input, lent) {
        Err(Refusal { number, frame }) => [number.into(), frame as u64, 0, 0, 0, 0],
        Ok(file) => {
            let transported = file.policy.transported as u64;
            let (commands, lines) = (file.commands.len() as u64, file.lines.len() as u64);
            [0, 0, transported, file.policy.allowed, commands, lines]
        }
    };
    READ_SIZE
}

/// Number, frame and step of the verdict. A refusal is at step 0.
pub fn verdict(input: &[u8], lent: &mut Tables, answer: &mut [u64]) -> usize {
    let Ok(answer): Result<&mut [u64; VERDICT_SIZE], _> = answer.try_into() else {
        return 0;
    };
    *answer = match take(input, lent) {
        Err(Refusal { number, frame }) => [number.into(), frame as u64, 0],
        Ok(file) => {
            let Verdict {
                number,
                frame,
                step,
            } = judge(&file);
            [number.into(), frame as u64, step as u64]
        }
    };
    VERDICT_SIZE
}

/// Number and frame of a refusal, then the ending of the run, its place and
/// the first breached line.
pub fn run(input: &[u8], lent: &mut Tables, answer: &mut [u64]) -> usize {
    let Ok(answer): Result<&mut [u64; RUN_SIZE], _> = answer.try_into() else {
        return 0;
    };
    *answer = match take(input, lent) {
        Err(Refusal { number, frame }) => [number.into(), frame as u64, 0, 0, 0],
        Ok(file) => {
            let run = play(&file, ROWS_LIMIT, KEYS_LIMIT);
            lent.hold_run(&run);
            let first = run.first_breached.map_or(NO_LINE, |line| line as u64);
            [0, 0, run.ending.into(), run.place as u64, first]
        }
    };
    RUN_SIZE
}

/// The program's whole output, with zeros after it.
pub fn report(input: &[u8], lent: &mut Tables, buffer: &mut [u8]) -> usize {
    if buffer.len() != REPORT_SIZE {
        return 0;
    }
    let output = match take(input, lent) {
        Err(refusal) => of_refusal(refusal),
        Ok(file) => {
            let run = play(&file, ROWS_LIMIT, KEYS_LIMIT);
            lent.hold_run(&run);
            of_run(judge(&file), &run)
        }
    };
    let (front, rest) = buffer.split_at_mut(output.len());
    front.copy_from_slice(&output);
    rest.fill(0);
    output.len()
}

/// Reads the file into the tables. The lengths of the tables come before all
/// else; a file that is refused leaves them zero.
fn take(input: &[u8], lent: &mut Tables) -> Result<File, Refusal> {
    let lengths = lent.lengths();
    *lent = Tables::zero(lengths);
    if lengths != LENGTHS {
        return Err(WRONG_LENGTH);
    }
    let file = parse(input)?;
    lent.hold_file(&file);
    Ok(file)
}
