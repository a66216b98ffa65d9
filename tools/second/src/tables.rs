//! The seven tables of numbers that a caller lends to the library, and what
//! they hold once a file has been read or its session has been played. Places
//! that are not used hold 0.

use crate::frames::{Action, Argument, Command, File, Line, Step};
use crate::session::{Outcome, Run};
use crate::token::{StoredKey, Value};

/// How many steps a command can have, and so how many places of the table of
/// steps are its own.
const STEPS_OF_COMMAND: usize = 16;

/// Stands where a line has no row because it stopped.
const NO_ROW: u64 = 0xffff;

#[derive(Clone, PartialEq, Eq, Debug)]
pub struct Tables {
    /// All values, in order of first appearance.
    pub rows: Vec<u64>,
    /// All stored keys, in order of storing.
    pub keys: Vec<u64>,
    /// What each session line does.
    pub heads: Vec<u64>,
    /// What each session line does it with.
    pub arguments: Vec<u64>,
    /// What each finished session line left behind.
    pub outcomes: Vec<u64>,
    pub commands: Vec<u64>,
    /// The steps of all commands, sixteen places a command.
    pub steps: Vec<u64>,
}

/// The lengths that the tables must have, in the order in which they are lent.
pub const LENGTHS: [usize; 7] = [4_096, 256, 1_024, 1_024, 1_024, 32, 512];

impl Tables {
    /// Tables of these lengths that hold nothing.
    pub fn zero(lengths: [usize; 7]) -> Tables {
        let [rows, keys, heads, arguments, outcomes, commands, steps] =
            lengths.map(|length| vec![0; length]);
        Tables {
            rows,
            keys,
            heads,
            arguments,
            outcomes,
            commands,
            steps,
        }
    }

    pub fn lengths(&self) -> [usize; 7] {
        self.named().map(|(_, table)| table.len())
    }

    /// All tables in the order in which they are lent.
    pub fn named(&self) -> [(&'static str, &[u64]); 7] {
        [
            ("rows", &self.rows),
            ("keys", &self.keys),
            ("heads", &self.heads),
            ("arguments", &self.arguments),
            ("outcomes", &self.outcomes),
            ("commands", &self.commands),
            ("steps", &self.steps),
        ]
    }

    pub fn all_mut(&mut self) -> [&mut [u64]; 7] {
        [
            &mut self.rows,
            &mut self.keys,
            &mut self.heads,
            &mut self.arguments,
            &mut self.outcomes,
            &mut self.commands,
            &mut self.steps,
        ]
    }

    /// Puts a file that was read into tables that hold nothing.
    pub fn hold_file(&mut self, file: &File) {
        put(&mut self.heads, file.lines.iter().map(head));
        put(&mut self.arguments, file.lines.iter().map(arguments));
        put(&mut self.commands, file.commands.iter().map(counts));
        let places = self.steps.chunks_exact_mut(STEPS_OF_COMMAND);
        for (places, command) in places.zip(&file.commands) {
            put(places, command.steps.iter().map(step));
        }
    }

    /// Puts what a run has come to beside the file.
    pub fn hold_run(&mut self, run: &Run) {
        put(&mut self.rows, run.rows.iter().map(row));
        put(&mut self.keys, run.keys.iter().map(key));
        put(&mut self.outcomes, run.outcomes.iter().map(outcome));
    }
}

/// Puts the numbers at the front of a table.
fn put(table: &mut [u64], numbers: impl Iterator<Item = u64>) {
    for (place, number) in table.iter_mut().zip(numbers) {
        *place = number;
    }
}

/// Packs numbers into one, each with the place of its lowest bit.
fn pack<const N: usize>(parts: [(u64, u32); N]) -> u64 {
    parts
        .iter()
        .fold(0, |packed, (number, bit)| packed | number << bit)
}

fn row(value: &Value) -> u64 {
    let (kind, first, second) = match *value {
        Value::Const(number) => (1, 0, number.into()),
        Value::Fresh(number) => (2, 0, number.into()),
        Value::Enc(content, key) => (3, content.into(), key.into()),
        Value::Dec(content, key) => (4, content.into(), key.into()),
        Value::Div(label, value) => (5, label.into(), value.into()),
    };
    pack([(kind, 32), (first, 16), (second, 0)])
}

/// The highest bit says that the place is in use.
fn key(stored: &StoredKey) -> u64 {
    pack([
        (1, 40),
        (stored.handle.into(), 24),
        (stored.key.into(), 8),
        (stored.template.into(), 0),
    ])
}

fn head(line: &Line) -> u64 {
    // A derivation has its label where a call has its command.
    let (kind, command) = match line.action {
        Action::Call { command } => (0, command),
        Action::Encrypt => (1, 0),
        Action::Decrypt => (2, 0),
        Action::Derive { label } => (3, label),
    };
    let count = line.arguments().len() as u64;
    pack([(kind, 0), (command.into(), 8), (count, 16)])
}

/// The first argument has the lowest sixteen bits.
fn arguments(line: &Line) -> u64 {
    line.arguments()
        .iter()
        .rev()
        .fold(0, |packed, &given| packed << 16 | argument(given))
}

/// As in the frame: the top bit marks a constant.
fn argument(given: Argument) -> u64 {
    match given {
        Argument::Constant(number) => 0x8000 | u64::from(number),
        Argument::Line(earlier) => earlier.into(),
    }
}

/// The highest bit says that the line was finished.
fn outcome(outcome: &Outcome) -> u64 {
    pack([
        (outcome.row.map_or(NO_ROW, u64::from), 0),
        (outcome.stored_keys as u64, 16),
        (outcome.row.is_none().into(), 32),
        (outcome.breached.into(), 33),
        (1, 34),
    ])
}

fn counts(command: &Command) -> u64 {
    let parameters = command.parameters as u64;
    pack([(parameters, 0), (command.steps.len() as u64, 8)])
}

/// The four bytes op, a, b, t, with 0 in the fields that the op doesn't use.
fn step(step: &Step) -> u64 {
    let bytes = match *step {
        Step::Return { value } => [0, value, 0, 0],
        Step::Get { handle, attributes } => [1, handle, 0, attributes],
        Step::Generate { template } => [2, 0, 0, template],
        Step::Store { value, template } => [3, value, 0, template],
        Step::Encrypt { value, key } => [4, value, key, 0],
        Step::Decrypt { value, key } => [5, value, key, 0],
        Step::Derive { value, label } => [6, 0, value, label],
    };
    u32::from_le_bytes(bytes).into()
}
