//! Playing a session: the lines of a file in order, against a token that is
//! empty at first.

use crate::frames::{Action, Argument, Command, File, Line, Step};
use crate::token::{Halt, Row, StoredKey, Token, Value};

pub const ROWS_LIMIT: usize = 4_096;
pub const KEYS_LIMIT: usize = 256;

const RAN_THROUGH: u8 = 0;
const ROWS_FULL: u8 = 32;
const KEYS_FULL: u8 = 33;

/// What a finished line left behind.
#[derive(Clone, Copy, PartialEq, Eq, Debug)]
pub struct Outcome {
    /// The row of its value; None if the line stopped.
    pub row: Option<Row>,
    /// How many keys are stored after it.
    pub stored_keys: usize,
    /// Whether the token is breached after it.
    pub breached: bool,
}

/// A whole run. If it ended early, the rows and keys are those after the last
/// finished line.
#[derive(Clone, PartialEq, Eq, Debug)]
pub struct Run {
    /// One for each finished line.
    pub outcomes: Vec<Outcome>,
    /// 0, 32 or 33.
    pub ending: u8,
    /// The line not finished; 0 if all were.
    pub place: usize,
    pub first_breached: Option<usize>,
    /// All values, in order of first appearance.
    pub rows: Vec<Value>,
    /// All stored keys, in order of storing.
    pub keys: Vec<StoredKey>,
}

/// Plays all lines with room for that many rows and stored keys.
pub fn run(file: &File, rows_limit: usize, keys_limit: usize) -> Run {
    let mut player = Player {
        commands: &file.commands,
        token: Token::new(rows_limit, keys_limit),
        outcomes: Vec::with_capacity(file.lines.len()),
        values: Vec::new(),
    };
    for (place, line) in file.lines.iter().enumerate() {
        match player.play(line) {
            Ok(outcome) => player.outcomes.push(outcome),
            Err(ending) => return player.finish(ending, place),
        }
    }
    player.finish(RAN_THROUGH, 0)
}

struct Player<'a> {
    commands: &'a [Command],
    token: Token,
    outcomes: Vec<Outcome>,
    /// The values of the line at hand: its arguments, then one a step. Kept
    /// here so that lines share one allocation.
    values: Vec<Row>,
}

impl Player<'_> {
    /// Plays one line; an error is the number of the run's ending. Whatever a
    /// line did that gave no value is undone.
    fn play(&mut self, line: &Line) -> Result<Outcome, u8> {
        let mark = self.token.mark();
        let result = self.line_value(line);
        match result {
            Ok(row) => self.token.show(row),
            Err(_) => self.token.undo(mark),
        }
        let row = match result {
            Ok(row) => Some(row),
            Err(Halt::Stopped) => None,
            Err(Halt::RowsFull) => return Err(ROWS_FULL),
            Err(Halt::KeysFull) => return Err(KEYS_FULL),
        };
        Ok(Outcome {
            row,
            stored_keys: self.token.stored_keys(),
            breached: self.token.is_breached(),
        })
    }

    /// All arguments come first, left to right, whether they are used or not.
    fn line_value(&mut self, line: &Line) -> Result<Row, Halt> {
        self.values.clear();
        for &argument in line.arguments() {
            let row = match argument {
                Argument::Constant(number) => self.token.constant(number)?,
                Argument::Line(earlier) => {
                    let outcome = self.outcomes[usize::from(earlier)];
                    outcome.row.ok_or(Halt::Stopped)?
                }
            };
            self.values.push(row);
        }
        match line.action {
            Action::Call { command } => {
                let commands = self.commands;
                self.call(&commands[usize::from(command)])
            }
            Action::Encrypt => self.token.encrypt(self.values[0], self.values[1]),
            Action::Decrypt => self.token.decrypt(self.values[0], self.values[1]),
            Action::Derive { label } => self.token.derive(label, self.values[0]),
        }
    }

    /// Takes the steps of a command. Its last step is a return, so the value
    /// of the last step is the value of the call.
    fn call(&mut self, command: &Command) -> Result<Row, Halt> {
        for &step in &command.steps {
            let row = self.step(step)?;
            self.values.push(row);
        }
        Ok(self.values[self.values.len() - 1])
    }

    fn step(&mut self, step: Step) -> Result<Row, Halt> {
        let values = &self.values;
        let row = |value: u8| values[usize::from(value)];
        match step {
            Step::Return { value } => Ok(row(value)),
            Step::Get { handle, attributes } => self.token.get(row(handle), attributes),
            Step::Generate { template } => self.token.generate(template),
            Step::Store { value, template } => self.token.store(row(value), template),
            Step::Encrypt { value, key } => self.token.encrypt(row(value), row(key)),
            Step::Decrypt { value, key } => self.token.decrypt(row(value), row(key)),
            Step::Derive { value, label } => self.token.derive(label, row(value)),
        }
    }

    fn finish(self, ending: u8, place: usize) -> Run {
        let (rows, keys) = self.token.into_contents();
        Run {
            first_breached: self.outcomes.iter().position(|outcome| outcome.breached),
            outcomes: self.outcomes,
            ending,
            place,
            rows,
            keys,
        }
    }
}
