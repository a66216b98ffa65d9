//! Migladze for Rust: a safe interface to a proved checker of configurations
//! of hardware key tokens (PKCS#11).
//!
//! An input is lines of hexadecimal: a policy of allowed key templates, the
//! commands that the token offers, and a session. A [`Checker`] reads it,
//! judges its commands by typing rules, and runs its session on a symbolic
//! token. Where the verdict is [`Verdict::Accepted`], no session whatever over
//! these commands brings a sensitive key into an attacker's hands.
//!
//! ```
//! use migladze::{Checker, Run, Verdict};
//!
//! // A policy that allows sensitive keys, and a command that generates one
//! // and returns its handle; the session calls the command once.
//! let input = b"01050000000000000002\n0200020200000100000000\n03000000\n";
//! let mut checker = Checker::new();
//! assert_eq!(checker.verdict(input), Verdict::Accepted);
//! let Run::Ended { first_breach, .. } = checker.run(input) else {
//!     panic!("the input is well formed");
//! };
//! assert_eq!(first_breach, None);
//! assert_eq!(checker.tables().keys().count(), 1);
//! ```
//!
//! The answers are those of the library's C entries (`include/migladze.h`),
//! whose promises are proved for every input. This package adds only the
//! tables that they want lent, and types for their numbers.

#![deny(missing_docs)]

mod answers;
mod entries;
mod tables;

pub use answers::{Ending, Read, Refusal, Rule, Run, TemplateSet, Type, Verdict};
pub use tables::{Argument, Command, FinishedLine, Line, Row, Step, StoredKey, Tables, Template};

/// The bytes of the longest report: a verdict, 1,024 lines and an end.
pub const REPORT_SIZE: usize = 19476;

/// What judges inputs: it owns the tables that the library works in, so that
/// one checker serves any number of inputs, one after the other.
pub struct Checker {
    tables: Tables,
    buffer: Box<[u8; REPORT_SIZE]>,
}

impl Checker {
    /// A checker whose tables are empty.
    pub fn new() -> Self {
        Checker {
            tables: Tables::new(),
            buffer: Box::new([0; REPORT_SIZE]),
        }
    }

    /// Reads an input. Where it is taken, the tables hold its commands and its
    /// session lines.
    pub fn read(&mut self, input: &[u8]) -> Read {
        let mut answer = [0; 6];
        entries::read(input, &mut self.tables, &mut answer);
        Read::from_numbers(answer)
    }

    /// Judges an input's commands by the typing rules. The tables are left as
    /// [`Checker::read`] leaves them.
    pub fn verdict(&mut self, input: &[u8]) -> Verdict {
        let mut answer = [0; 3];
        entries::verdict(input, &mut self.tables, &mut answer);
        Verdict::from_numbers(answer)
    }

    /// Runs an input's session, whatever the verdict on its commands is. The
    /// tables hold also the values that appeared, the stored keys and the
    /// finished lines.
    pub fn run(&mut self, input: &[u8]) -> Run {
        let mut answer = [0; 5];
        entries::run(input, &mut self.tables, &mut answer);
        Run::from_numbers(answer)
    }

    /// The program's whole output for an input: verdict, finished lines and
    /// ending, or a refusal, as lines of hexadecimal. The tables are left as
    /// [`Checker::run`] leaves them.
    pub fn report(&mut self, input: &[u8]) -> &[u8] {
        let count = entries::report(input, &mut self.tables, &mut *self.buffer);
        &self.buffer[..count]
    }

    /// What the last call left in the tables.
    pub fn tables(&self) -> &Tables {
        &self.tables
    }
}

impl Default for Checker {
    fn default() -> Self {
        Checker::new()
    }
}
