//! The tables that the library works in, and what their numbers mean.

use std::fmt;

/// The seven tables, of the lengths that the library asks for. What a call
/// left in them is read by the methods.
pub struct Tables {
    pub(crate) rows: Box<[u64; 4096]>,
    pub(crate) keys: Box<[u64; 256]>,
    pub(crate) heads: Box<[u64; 1024]>,
    pub(crate) arguments: Box<[u64; 1024]>,
    pub(crate) outcomes: Box<[u64; 1024]>,
    pub(crate) commands: Box<[u64; 32]>,
    pub(crate) steps: Box<[u64; 512]>,
}

impl Tables {
    pub(crate) fn new() -> Self {
        Tables {
            rows: Box::new([0; 4096]),
            keys: Box::new([0; 256]),
            heads: Box::new([0; 1024]),
            arguments: Box::new([0; 1024]),
            outcomes: Box::new([0; 1024]),
            commands: Box::new([0; 32]),
            steps: Box::new([0; 512]),
        }
    }

    /// The values that appeared in a run, in the order of their rows.
    pub fn rows(&self) -> impl Iterator<Item = Row> + '_ {
        in_use(&*self.rows).map(Row::from_code)
    }

    /// The value of a row, if a run has left one there.
    pub fn row(&self, row: u16) -> Option<Row> {
        let code = *self.rows.get(usize::from(row))?;
        (code != 0).then(|| Row::from_code(code))
    }

    /// The keys that are stored after a run, in the order of their storing.
    pub fn keys(&self) -> impl Iterator<Item = StoredKey> + '_ {
        in_use(&*self.keys).map(StoredKey::from_code)
    }

    /// The lines that a run finished, from line 0 on.
    pub fn finished_lines(&self) -> impl Iterator<Item = FinishedLine> + '_ {
        in_use(&*self.outcomes).map(FinishedLine::from_code)
    }

    /// The commands of the input, from command 0 on.
    pub fn commands(&self) -> impl Iterator<Item = Command> + '_ {
        let places = self.steps.chunks_exact(16);
        in_use(&*self.commands)
            .zip(places)
            .map(|(code, steps)| Command {
                parameters: byte(code, 0),
                steps: steps[..usize::from(byte(code, 8))]
                    .iter()
                    .copied()
                    .map(Step::from_code)
                    .collect(),
            })
    }

    /// The first session lines of the input. How many it has is told by
    /// [`crate::Read::Taken`]: a call of command 0 without arguments looks
    /// like an unused entry.
    pub fn lines(&self, count: usize) -> impl Iterator<Item = Line> + '_ {
        let codes = self.heads.iter().zip(self.arguments.iter());
        codes
            .take(count)
            .map(|(head, arguments)| Line::from_codes(*head, *arguments))
    }
}

/// The entries before the first that is 0. An entry that is in use is never 0.
fn in_use(table: &[u64]) -> impl Iterator<Item = u64> + '_ {
    table.iter().copied().take_while(|code| *code != 0)
}

/// The eight bits of a code from a place on.
fn byte(code: u64, from: u32) -> u8 {
    (code >> from) as u8
}

/// The sixteen bits of a code from a place on.
fn half(code: u64, from: u32) -> u16 {
    (code >> from) as u16
}

/// A set of attributes, the sum of their weights: sensitive 1, always
/// sensitive 2, encrypt 4, decrypt 8, wrap 16, unwrap 32.
#[derive(Clone, Copy, Debug, PartialEq, Eq, Hash)]
pub struct Template(pub u8);

impl Template {
    /// Whether keys under it are sensitive.
    pub fn sensitive(self) -> bool {
        self.0 & 1 != 0
    }

    /// Whether keys under it are always sensitive.
    pub fn always_sensitive(self) -> bool {
        self.0 & 2 != 0
    }
}

/// A value: it has a row from its first appearance on. Parts of a value are
/// rows too.
#[derive(Clone, Copy, Debug, PartialEq, Eq, Hash)]
pub enum Row {
    /// The public constant of this number.
    Const(u16),
    /// The atom of this number: a key or a handle that the token made.
    Fresh(u16),
    /// An encryption.
    Enc {
        /// The row of what is encrypted.
        value: u16,
        /// The row of the key.
        key: u16,
    },
    /// A decryption that undoes no encryption.
    Dec {
        /// The row of what is decrypted.
        value: u16,
        /// The row of the key.
        key: u16,
    },
    /// A derivation.
    Div {
        /// The label, 0 or 1.
        label: u8,
        /// The row of what it is derived from.
        value: u16,
    },
}

impl Row {
    fn from_code(code: u64) -> Self {
        let (value, key) = (half(code, 16), half(code, 0));
        // Of a derivation the label stands first, and the value last.
        let (label, seed) = (byte(code, 16), key);
        match code >> 32 {
            1 => Row::Const(key),
            2 => Row::Fresh(key),
            3 => Row::Enc { value, key },
            4 => Row::Dec { value, key },
            5 => Row::Div { label, value: seed },
            kind => panic!("{kind} is no kind of a value"),
        }
    }
}

impl fmt::Display for Row {
    fn fmt(&self, f: &mut fmt::Formatter) -> fmt::Result {
        match self {
            Row::Const(n) => write!(f, "the constant {n}"),
            Row::Fresh(n) => write!(f, "the atom {n}"),
            Row::Enc { value, key } => write!(f, "row {value} encrypted under row {key}"),
            Row::Dec { value, key } => write!(f, "row {value} decrypted under row {key}"),
            Row::Div { label, value } => {
                write!(f, "a value derived from row {value} under label {label}")
            }
        }
    }
}

/// A value that is kept under a template, and the handle that gets it.
#[derive(Clone, Copy, Debug, PartialEq, Eq, Hash)]
pub struct StoredKey {
    /// The template.
    pub template: Template,
    /// The row of the value.
    pub key: u16,
    /// The row of the handle.
    pub handle: u16,
}

impl StoredKey {
    fn from_code(code: u64) -> Self {
        StoredKey {
            template: Template(byte(code, 0)),
            key: half(code, 8),
            handle: half(code, 24),
        }
    }
}

/// What is known of a session line that finished.
#[derive(Clone, Copy, Debug, PartialEq, Eq, Hash)]
pub struct FinishedLine {
    /// The row of its value, or none if it stopped.
    pub row: Option<u16>,
    /// How many keys are stored after it.
    pub keys: u16,
    /// Whether a guarded value is in the attacker's hands after it.
    pub breached: bool,
}

impl FinishedLine {
    fn from_code(code: u64) -> Self {
        FinishedLine {
            row: (code >> 32 & 1 == 0).then_some(half(code, 0)),
            keys: half(code, 16),
            breached: code >> 33 & 1 == 1,
        }
    }
}

/// A command that the token offers. Its values are numbered: the parameters
/// first, then what each step gives.
#[derive(Clone, Debug, PartialEq, Eq, Hash)]
pub struct Command {
    /// How many parameters it has.
    pub parameters: u8,
    /// Its steps; the last returns.
    pub steps: Vec<Step>,
}

/// A step of a command. Values are named by their numbers in the command.
#[derive(Clone, Copy, Debug, PartialEq, Eq, Hash)]
pub enum Step {
    /// Gives the value back as the call's.
    Return {
        /// What is returned.
        value: u8,
    },
    /// Gets a stored key.
    Get {
        /// Its handle.
        handle: u8,
        /// The attributes that its template must have.
        attributes: Template,
    },
    /// Generates a key, and gives its handle.
    Generate {
        /// The template that it is kept under.
        template: Template,
    },
    /// Stores a value as a key, and gives its handle.
    Store {
        /// What is stored.
        value: u8,
        /// The template that it is kept under.
        template: Template,
    },
    /// Encrypts.
    Encrypt {
        /// What is encrypted.
        value: u8,
        /// Under which key.
        key: u8,
    },
    /// Decrypts.
    Decrypt {
        /// What is decrypted.
        value: u8,
        /// Under which key.
        key: u8,
    },
    /// Derives a key.
    Derive {
        /// From what.
        value: u8,
        /// Under which label, 0 or 1.
        label: u8,
    },
}

impl Step {
    fn from_code(code: u64) -> Self {
        let (value, key, template) = (byte(code, 8), byte(code, 16), Template(byte(code, 24)));
        match byte(code, 0) {
            0 => Step::Return { value },
            1 => Step::Get {
                handle: value,
                attributes: template,
            },
            2 => Step::Generate { template },
            3 => Step::Store { value, template },
            4 => Step::Encrypt { value, key },
            5 => Step::Decrypt { value, key },
            6 => Step::Derive {
                value: key,
                label: template.0,
            },
            op => panic!("{op} is no op"),
        }
    }
}

/// An argument of a session line.
#[derive(Clone, Copy, Debug, PartialEq, Eq, Hash)]
pub enum Argument {
    /// The public constant of this number.
    Constant(u16),
    /// The value of the earlier line of this number.
    Line(u16),
}

/// A session line: a call, or an operation of the attacker's own.
#[derive(Clone, Debug, PartialEq, Eq, Hash)]
pub enum Line {
    /// A call of a command.
    Call {
        /// The command's number.
        command: u8,
        /// What it is called with.
        arguments: Vec<Argument>,
    },
    /// The first argument encrypted under the second.
    Encrypt {
        /// The two.
        arguments: Vec<Argument>,
    },
    /// The first argument decrypted under the second.
    Decrypt {
        /// The two.
        arguments: Vec<Argument>,
    },
    /// What is derived from the argument.
    Derive {
        /// Under which label, 0 or 1.
        label: u8,
        /// The one.
        arguments: Vec<Argument>,
    },
}

impl Line {
    fn from_codes(head: u64, code: u64) -> Self {
        let argument = |i| match half(code, 16 * i) {
            n if n >= 0x8000 => Argument::Constant(n - 0x8000),
            i => Argument::Line(i),
        };
        let arguments = (0..u32::from(byte(head, 16))).map(argument).collect();
        match byte(head, 0) {
            0 => Line::Call {
                command: byte(head, 8),
                arguments,
            },
            1 => Line::Encrypt { arguments },
            2 => Line::Decrypt { arguments },
            3 => Line::Derive {
                label: byte(head, 8),
                arguments,
            },
            kind => panic!("{kind} is no kind of a line"),
        }
    }
}

#[cfg(test)]
mod tests {
    use super::*;
    use crate::{Checker, Read};

    /// A command of each kind of step, and a session line of each kind.
    const INPUT: &[u8] = b"01050000000002000002\n\
        0200020200000100000000\n\
        020103030000010101000100000000\n\
        020203040001000502010000030000\n\
        0201020600000100010000\n\
        03000000\n\
        0300020280050000\n\
        0301000200008001\n\
        0302000280018002\n\
        030300010003\n\
        030003018002\n";

    #[test]
    fn commands_and_lines() {
        let mut checker = Checker::new();
        let Read::Taken {
            commands, lines, ..
        } = checker.read(INPUT)
        else {
            panic!("the input is well formed");
        };
        assert_eq!((commands, lines), (4, 6));
        let template = Template(1);
        let command = |parameters, steps: &[Step]| Command {
            parameters,
            steps: steps.to_vec(),
        };
        let expected = [
            command(0, &[Step::Generate { template }, Step::Return { value: 0 }]),
            command(
                1,
                &[
                    Step::Store { value: 0, template },
                    Step::Get {
                        handle: 1,
                        attributes: template,
                    },
                    Step::Return { value: 0 },
                ],
            ),
            command(
                2,
                &[
                    Step::Encrypt { value: 0, key: 1 },
                    Step::Decrypt { value: 2, key: 1 },
                    Step::Return { value: 3 },
                ],
            ),
            command(
                1,
                &[
                    Step::Derive { value: 0, label: 1 },
                    Step::Return { value: 1 },
                ],
            ),
        ];
        assert_eq!(checker.tables().commands().collect::<Vec<_>>(), expected);
        use Argument::{Constant, Line as Earlier};
        let expected = [
            Line::Call {
                command: 0,
                arguments: vec![],
            },
            Line::Call {
                command: 2,
                arguments: vec![Constant(5), Earlier(0)],
            },
            Line::Encrypt {
                arguments: vec![Earlier(0), Constant(1)],
            },
            Line::Decrypt {
                arguments: vec![Constant(1), Constant(2)],
            },
            Line::Derive {
                label: 0,
                arguments: vec![Earlier(3)],
            },
            Line::Call {
                command: 3,
                arguments: vec![Constant(2)],
            },
        ];
        assert_eq!(checker.tables().lines(lines).collect::<Vec<_>>(), expected);
        assert_eq!(checker.tables().rows().count(), 0);
    }

    #[test]
    fn values_of_each_kind() {
        let mut checker = Checker::new();
        checker.run(INPUT);
        let tables = checker.tables();
        let rows: Vec<Row> = tables.rows().collect();
        let expected = [
            Row::Fresh(0),
            Row::Fresh(1),
            Row::Const(5),
            Row::Enc { value: 2, key: 0 },
            Row::Const(1),
            Row::Enc { value: 0, key: 4 },
            Row::Const(2),
            Row::Dec { value: 4, key: 6 },
            Row::Div { label: 0, value: 7 },
            Row::Div { label: 1, value: 6 },
        ];
        assert_eq!(rows, expected);
        let gave: Vec<Option<u16>> = tables.finished_lines().map(|line| line.row).collect();
        assert_eq!(gave, [0, 2, 5, 7, 8, 9].map(Some));
        assert!(tables.finished_lines().all(|line| !line.breached));
    }

    #[test]
    fn a_stopped_line_has_no_row() {
        let mut checker = Checker::new();
        checker.run(include_bytes!("../../examples/stopped-lines.hex"));
        assert!(checker
            .tables()
            .finished_lines()
            .any(|line| line.row.is_none()));
    }

    #[test]
    fn a_refusal_empties_the_tables() {
        let mut checker = Checker::new();
        checker.run(INPUT);
        checker.run(b"");
        let tables = checker.tables();
        assert_eq!((tables.rows().count(), tables.keys().count()), (0, 0));
        assert_eq!(
            (tables.commands().count(), tables.finished_lines().count()),
            (0, 0)
        );
    }

    #[test]
    fn the_worked_listing() {
        let mut checker = Checker::new();
        checker.run(include_bytes!("../../examples/wrap-decrypt.hex"));
        let tables = checker.tables();
        let rows: Vec<Row> = tables.rows().collect();
        let wrapped = Row::Enc { value: 1, key: 3 };
        let atoms = [0, 1, 2, 3].map(Row::Fresh);
        assert_eq!(rows, [&atoms[..], &[wrapped]].concat());
        assert_eq!(tables.row(4), Some(wrapped));
        assert_eq!((tables.row(5), tables.row(4096)), (None, None));
        let kept = |template, handle, key| StoredKey {
            template: Template(template),
            key,
            handle,
        };
        let keys: Vec<StoredKey> = tables.keys().collect();
        assert_eq!(keys, [kept(1, 0, 1), kept(25, 2, 3)]);
        let gave = |row, keys, breached| FinishedLine {
            row: Some(row),
            keys,
            breached,
        };
        let lines: Vec<FinishedLine> = tables.finished_lines().collect();
        let expected = [
            gave(0, 1, false),
            gave(2, 2, false),
            gave(4, 2, false),
            gave(1, 2, true),
        ];
        assert_eq!(lines, expected);
    }
}
