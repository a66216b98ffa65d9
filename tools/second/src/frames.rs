//! What a file holds, and how it is read from its frames: the policy, the
//! commands and the session lines, with the numbers of the read refusals.
//!
//! Within a frame the lowest number wins. So each frame is read in passes, one
//! for each number in rising order, and the first pass that fails decides.

use crate::text;
use crate::types::{Type, TEMPLATES, UNTYPED_TEMPLATES};

pub const INPUT_LIMIT: usize = 32_768;
pub const COMMANDS_LIMIT: usize = 32;
pub const LINES_LIMIT: usize = 1_024;
const STEPS_LIMIT: u8 = 16;
/// Parameters of a command and arguments of a session line alike.
const ARGUMENTS_LIMIT: usize = 4;
/// How many labels there are to derive under.
const LABELS: u8 = 2;

const POLICY: u8 = 1;
const COMMAND: u8 = 2;
const SESSION_LINE: u8 = 3;

const INPUT_TOO_LONG: u8 = 1;
const BROKEN_LINE: u8 = 2;
const OUT_OF_PLACE: u8 = 3;
const BAD_FIELD: u8 = 4;
const TOO_MANY: u8 = 5;
const BAD_NAME: u8 = 6;
const UNTYPED_ALLOWED: u8 = 7;

/// A whole file that was read without a refusal.
#[derive(Clone, PartialEq, Eq, Debug)]
pub struct File {
    pub policy: Policy,
    pub commands: Vec<Command>,
    pub lines: Vec<Line>,
}

#[derive(Clone, Copy, PartialEq, Eq, Debug)]
pub struct Policy {
    /// The transported type r; `as u8` gives its code.
    pub transported: Type,
    /// Bit m is set when template m is allowed.
    pub allowed: u64,
}

#[derive(Clone, PartialEq, Eq, Debug)]
pub struct Command {
    pub parameters: usize,
    pub steps: Vec<Step>,
}

/// A step of a command. The values it names are numbered within the command:
/// first the parameters, then one value a step.
#[derive(Clone, Copy, PartialEq, Eq, Debug)]
pub enum Step {
    Return { value: u8 },
    Get { handle: u8, attributes: u8 },
    Generate { template: u8 },
    Store { value: u8, template: u8 },
    Encrypt { value: u8, key: u8 },
    Decrypt { value: u8, key: u8 },
    Derive { value: u8, label: u8 },
}

/// A session line. Lines of all kinds keep their arguments alike because a run
/// takes them up in the same way whatever the line does next.
#[derive(Clone, Copy, PartialEq, Eq, Debug)]
pub struct Line {
    pub action: Action,
    slots: [Argument; ARGUMENTS_LIMIT],
    count: usize,
}

#[derive(Clone, Copy, PartialEq, Eq, Debug)]
pub enum Action {
    Call { command: u8 },
    Encrypt,
    Decrypt,
    Derive { label: u8 },
}

#[derive(Clone, Copy, PartialEq, Eq, Debug)]
pub enum Argument {
    /// The public constant of this number, below 32,768.
    Constant(u16),
    /// The value of an earlier session line.
    Line(u16),
}

/// Why a file was not read: the number of the refusal and the frame it is at.
#[derive(Clone, Copy, PartialEq, Eq, Debug)]
pub struct Refusal {
    pub number: u8,
    pub frame: usize,
}

/// Reads a whole file. Frames are taken in order, and each is judged in full
/// before the next line is looked at.
pub fn parse(input: &[u8]) -> Result<File, Refusal> {
    let refusal = |number, frame| Refusal { number, frame };
    if input.len() > INPUT_LIMIT {
        return Err(refusal(INPUT_TOO_LONG, 0));
    }
    let mut frame = Vec::new();
    let mut lines = text::lines(input);
    let first = lines.next().ok_or(refusal(OUT_OF_PLACE, 0))?;
    text::decode(first, &mut frame).ok_or(refusal(BROKEN_LINE, 0))?;
    let mut file = File {
        policy: policy(&frame).map_err(|number| refusal(number, 0))?,
        commands: Vec::new(),
        lines: Vec::new(),
    };
    for (number, line) in (1..).zip(lines) {
        text::decode(line, &mut frame).ok_or(refusal(BROKEN_LINE, number))?;
        take_frame(&mut file, &frame).map_err(|fault| refusal(fault, number))?;
    }
    Ok(file)
}

/// Adds a frame after the policy to the file. Its place goes by its first byte
/// alone.
fn take_frame(file: &mut File, frame: &[u8]) -> Result<(), u8> {
    match frame[0] {
        COMMAND if file.lines.is_empty() => {
            let command = decode_command(frame).ok_or(BAD_FIELD)?;
            if file.commands.len() == COMMANDS_LIMIT {
                return Err(TOO_MANY);
            }
            if !names_only_made_values(&command) {
                return Err(BAD_NAME);
            }
            file.commands.push(command);
        }
        SESSION_LINE => {
            let line = decode_line(frame).ok_or(BAD_FIELD)?;
            if file.lines.len() == LINES_LIMIT {
                return Err(TOO_MANY);
            }
            if !names_what_is_there(&line, file) {
                return Err(BAD_NAME);
            }
            file.lines.push(line);
        }
        _ => return Err(OUT_OF_PLACE),
    }
    Ok(())
}

fn policy(frame: &[u8]) -> Result<Policy, u8> {
    if frame[0] != POLICY {
        return Err(OUT_OF_PLACE);
    }
    let policy = decode_policy(frame).ok_or(BAD_FIELD)?;
    if policy.allowed & UNTYPED_TEMPLATES != 0 {
        return Err(UNTYPED_ALLOWED);
    }
    Ok(policy)
}

fn decode_policy(frame: &[u8]) -> Option<Policy> {
    let (&[_, code], allowed) = frame.split_first_chunk()?;
    Some(Policy {
        transported: Type::from_code(code)?,
        allowed: u64::from_be_bytes(allowed.try_into().ok()?),
    })
}

fn decode_command(frame: &[u8]) -> Option<Command> {
    let (&[_, parameters, count], bytes) = frame.split_first_chunk()?;
    let parameters = usize::from(parameters);
    let lawful_counts = parameters <= ARGUMENTS_LIMIT && (1..=STEPS_LIMIT).contains(&count);
    if !lawful_counts || bytes.len() != 4 * usize::from(count) {
        return None;
    }
    let steps = bytes
        .chunks_exact(4)
        .map(decode_step)
        .collect::<Option<Vec<Step>>>()?;
    let first_return = steps
        .iter()
        .position(|step| matches!(step, Step::Return { .. }));
    // Return must be there, as the last step and only there.
    (first_return == Some(steps.len() - 1)).then_some(Command { parameters, steps })
}

/// Reads the four bytes op, a, b, t. The zeros in the patterns are the fields
/// that the op does not use.
fn decode_step(bytes: &[u8]) -> Option<Step> {
    let known = |template: u8| usize::from(template) < TEMPLATES;
    match *bytes {
        [0, value, 0, 0] => Some(Step::Return { value }),
        [1, handle, 0, attributes] if known(attributes) => Some(Step::Get { handle, attributes }),
        [2, 0, 0, template] if known(template) => Some(Step::Generate { template }),
        [3, value, 0, template] if known(template) => Some(Step::Store { value, template }),
        [4, value, key, 0] => Some(Step::Encrypt { value, key }),
        [5, value, key, 0] => Some(Step::Decrypt { value, key }),
        [6, 0, value, label] if label < LABELS => Some(Step::Derive { value, label }),
        _ => None,
    }
}

fn names_only_made_values(command: &Command) -> bool {
    (command.parameters..)
        .zip(&command.steps)
        .all(|(made, step)| match *step {
            Step::Generate { .. } => true,
            Step::Return { value } | Step::Store { value, .. } | Step::Derive { value, .. } => {
                usize::from(value) < made
            }
            Step::Get { handle, .. } => usize::from(handle) < made,
            Step::Encrypt { value, key } | Step::Decrypt { value, key } => {
                usize::from(value.max(key)) < made
            }
        })
}

fn decode_line(frame: &[u8]) -> Option<Line> {
    let (&[_, kind, command, count], bytes) = frame.split_first_chunk()?;
    let count = usize::from(count);
    if count > ARGUMENTS_LIMIT || bytes.len() != 2 * count {
        return None;
    }
    let action = match (kind, command, count) {
        (0, command, _) => Action::Call { command },
        (1, 0, 2) => Action::Encrypt,
        (2, 0, 2) => Action::Decrypt,
        (3, label, 1) if label < LABELS => Action::Derive { label },
        _ => return None,
    };
    let mut slots = [Argument::Constant(0); ARGUMENTS_LIMIT];
    for (slot, pair) in slots.iter_mut().zip(bytes.chunks_exact(2)) {
        *slot = decode_argument(u16::from_be_bytes([pair[0], pair[1]]));
    }
    Some(Line {
        action,
        slots,
        count,
    })
}

fn decode_argument(number: u16) -> Argument {
    const TOP_BIT: u16 = 0x8000;
    if number & TOP_BIT != 0 {
        Argument::Constant(number & !TOP_BIT)
    } else {
        Argument::Line(number)
    }
}

/// Whether a line about to be added to `file` names only earlier lines, and a
/// command that is there and takes that many arguments.
fn names_what_is_there(line: &Line, file: &File) -> bool {
    let call_fits = match line.action {
        Action::Call { command } => file
            .commands
            .get(usize::from(command))
            .is_some_and(|command| command.parameters == line.count),
        Action::Encrypt | Action::Decrypt | Action::Derive { .. } => true,
    };
    call_fits
        && line.arguments().iter().all(|argument| match argument {
            Argument::Constant(_) => true,
            Argument::Line(earlier) => usize::from(*earlier) < file.lines.len(),
        })
}

impl Line {
    pub fn arguments(&self) -> &[Argument] {
        &self.slots[..self.count]
    }
}
