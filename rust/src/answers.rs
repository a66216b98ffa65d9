//! What the entries answer, from their numbers.

use std::fmt;

/// Why an input was refused before it was judged.
#[derive(Clone, Copy, Debug, PartialEq, Eq, Hash)]
pub enum Refusal {
    /// 1: the input is longer than 32,768 bytes.
    TooLong,
    /// 2: a line is empty, has an odd count of digits, something else than
    /// lowercase hexadecimal digits, or no newline.
    Digits,
    /// 3: a frame is out of place, its first byte is unknown, or there is no
    /// policy.
    Place,
    /// 4: a frame is badly formed: a field, a count or its length.
    Form,
    /// 5: a 33rd command, or a 1,025th session line.
    TooMany,
    /// 6: a value, a command or a line is named that is not there.
    Name,
    /// 7: the policy allows a template that is always sensitive and not
    /// sensitive.
    Policy,
    /// 15: a lent table has the wrong length. A [`crate::Checker`] never
    /// lends such a table.
    TableLength,
}

impl Refusal {
    const ALL: [Refusal; 8] = [
        Refusal::TooLong,
        Refusal::Digits,
        Refusal::Place,
        Refusal::Form,
        Refusal::TooMany,
        Refusal::Name,
        Refusal::Policy,
        Refusal::TableLength,
    ];

    /// The number that the library answers for it.
    pub fn number(self) -> u8 {
        match self {
            Refusal::TooLong => 1,
            Refusal::Digits => 2,
            Refusal::Place => 3,
            Refusal::Form => 4,
            Refusal::TooMany => 5,
            Refusal::Name => 6,
            Refusal::Policy => 7,
            Refusal::TableLength => 15,
        }
    }

    fn from_number(number: u64) -> Self {
        let found = Self::ALL
            .into_iter()
            .find(|r| u64::from(r.number()) == number);
        found.unwrap_or_else(|| panic!("{number} is no refusal"))
    }
}

impl fmt::Display for Refusal {
    fn fmt(&self, f: &mut fmt::Formatter) -> fmt::Result {
        f.write_str(match self {
            Refusal::TooLong => "the input is longer than 32,768 bytes",
            Refusal::Digits => "the line is no hexadecimal",
            Refusal::Place => "the frame is out of place, or there is no policy",
            Refusal::Form => "the frame is badly formed",
            Refusal::TooMany => "one command or session line too many",
            Refusal::Name => "a value, a command or a line is named that is not there",
            Refusal::Policy => {
                "the policy allows a template that is always sensitive and not sensitive"
            }
            Refusal::TableLength => "a lent table has the wrong length",
        })
    }
}

/// A typing rule that a command's step breaks.
#[derive(Clone, Copy, Debug, PartialEq, Eq, Hash)]
pub enum Rule {
    /// 16: generate or store: the policy does not allow the template.
    TemplateAllowed,
    /// 17: get: no allowed template has the attributes.
    AttributesOffered,
    /// 18: encrypt: the key is no data or wrapping key for this value.
    Encrypt,
    /// 19: decrypt: the key is no data or wrapping key, or the value is not
    /// public.
    Decrypt,
    /// 20: store: the value's type is not below the template's.
    Store,
    /// 21: return: the value is not public.
    Return,
    /// 22: get: the handle is not public.
    Handle,
    /// 23: derive: from neither a seed nor a public value.
    Derive,
}

impl Rule {
    const ALL: [Rule; 8] = [
        Rule::TemplateAllowed,
        Rule::AttributesOffered,
        Rule::Encrypt,
        Rule::Decrypt,
        Rule::Store,
        Rule::Return,
        Rule::Handle,
        Rule::Derive,
    ];

    /// The number that the library answers where it is broken.
    pub fn number(self) -> u8 {
        match self {
            Rule::TemplateAllowed => 16,
            Rule::AttributesOffered => 17,
            Rule::Encrypt => 18,
            Rule::Decrypt => 19,
            Rule::Store => 20,
            Rule::Return => 21,
            Rule::Handle => 22,
            Rule::Derive => 23,
        }
    }

    fn from_number(number: u64) -> Option<Self> {
        Self::ALL
            .into_iter()
            .find(|r| u64::from(r.number()) == number)
    }
}

impl fmt::Display for Rule {
    fn fmt(&self, f: &mut fmt::Formatter) -> fmt::Result {
        f.write_str(match self {
            Rule::TemplateAllowed => "generate or store: the policy does not allow the template",
            Rule::AttributesOffered => "get: no allowed template has the attributes",
            Rule::Encrypt => "encrypt: the key is no data or wrapping key for this value",
            Rule::Decrypt => {
                "decrypt: the key is no data or wrapping key, or the value is not public"
            }
            Rule::Store => "store: the value's type is not below the template's",
            Rule::Return => "return: the value is not public",
            Rule::Handle => "get: the handle is not public",
            Rule::Derive => "derive: from neither a seed nor a public value",
        })
    }
}

/// The type of a value, in the typing rules. Of a key it follows from the
/// attributes of its template; the data role is encrypt or decrypt, and the
/// wrapping role is wrap or unwrap.
#[derive(Clone, Copy, Debug, PartialEq, Eq, Hash)]
pub enum Type {
    /// Public: not sensitive.
    Un,
    /// Always sensitive, with the data role alone.
    TData,
    /// Sensitive, with the data role alone.
    Data,
    /// Always sensitive, with the wrapping role alone.
    Wrap,
    /// Always sensitive, with both roles or none.
    Seed,
    /// Sensitive, with the wrapping role, both or none; above all others.
    Any,
}

impl Type {
    const ALL: [Type; 6] = [
        Type::Un,
        Type::TData,
        Type::Data,
        Type::Wrap,
        Type::Seed,
        Type::Any,
    ];
}

/// A set of the 64 templates.
#[derive(Clone, Copy, Debug, PartialEq, Eq, Hash)]
pub struct TemplateSet(pub u64);

impl TemplateSet {
    /// Whether a template is in the set.
    pub fn allows(self, template: crate::Template) -> bool {
        self.0
            .checked_shr(template.0.into())
            .is_some_and(|set| set & 1 == 1)
    }
}

/// What reading an input comes to.
#[derive(Clone, Copy, Debug, PartialEq, Eq)]
pub enum Read {
    /// The input holds no file.
    Refused {
        /// Why.
        refusal: Refusal,
        /// At which frame, counted from 0.
        frame: usize,
    },
    /// It holds a file, and the tables hold its commands and session lines.
    Taken {
        /// The policy's transported type.
        transported: Type,
        /// The templates that the policy allows.
        allowed: TemplateSet,
        /// How many commands there are.
        commands: usize,
        /// How many session lines there are.
        lines: usize,
    },
}

impl Read {
    pub(crate) fn from_numbers(answer: [u64; 6]) -> Self {
        match answer {
            [0, _, code, set, commands, lines] => Read::Taken {
                transported: Type::ALL[code as usize],
                allowed: TemplateSet(set),
                commands: commands as usize,
                lines: lines as usize,
            },
            [number, frame, ..] => Read::Refused {
                refusal: Refusal::from_number(number),
                frame: frame as usize,
            },
        }
    }
}

/// What the typing rules say of an input's commands.
#[derive(Clone, Copy, Debug, PartialEq, Eq)]
pub enum Verdict {
    /// The input holds no file.
    Refused {
        /// Why.
        refusal: Refusal,
        /// At which frame, counted from 0.
        frame: usize,
    },
    /// A command breaks a rule: the first that does, at its first such step.
    Broken {
        /// The rule.
        rule: Rule,
        /// The command's frame; the first command is frame 1.
        frame: usize,
        /// The step, counted from 0.
        step: usize,
    },
    /// No session whatever over these commands has a breached line.
    Accepted,
}

impl Verdict {
    pub(crate) fn from_numbers([number, frame, step]: [u64; 3]) -> Self {
        let frame = frame as usize;
        match (number, Rule::from_number(number)) {
            (0, _) => Verdict::Accepted,
            (_, Some(rule)) => Verdict::Broken {
                rule,
                frame,
                step: step as usize,
            },
            (_, None) => Verdict::Refused {
                refusal: Refusal::from_number(number),
                frame,
            },
        }
    }
}

impl fmt::Display for Verdict {
    fn fmt(&self, f: &mut fmt::Formatter) -> fmt::Result {
        match self {
            Verdict::Refused { refusal, frame } => {
                write!(
                    f,
                    "refused: {} at frame {frame}: {refusal}",
                    refusal.number()
                )
            }
            Verdict::Broken { rule, frame, step } => {
                let number = rule.number();
                write!(
                    f,
                    "verdict: rule {number} is broken at frame {frame}, step {step}: {rule}"
                )
            }
            Verdict::Accepted => f.write_str("verdict: accepted"),
        }
    }
}

/// How a session ended.
#[derive(Clone, Copy, Debug, PartialEq, Eq)]
pub enum Ending {
    /// Every line finished.
    RanThrough,
    /// 32: there was no room for a 4,097th distinct value.
    RowsFull {
        /// The line that did not finish, counted from 0.
        line: usize,
    },
    /// 33: there was no room for a 257th stored key.
    KeysFull {
        /// The line that did not finish, counted from 0.
        line: usize,
    },
}

impl fmt::Display for Ending {
    fn fmt(&self, f: &mut fmt::Formatter) -> fmt::Result {
        match self {
            Ending::RanThrough => f.write_str("run: every line finished"),
            Ending::RowsFull { line } => {
                write!(f, "run: ending 32 at line {line}: a 4,097th distinct value")
            }
            Ending::KeysFull { line } => {
                write!(f, "run: ending 33 at line {line}: a 257th stored key")
            }
        }
    }
}

/// What running an input's session comes to.
#[derive(Clone, Copy, Debug, PartialEq, Eq)]
pub enum Run {
    /// The input holds no file.
    Refused {
        /// Why.
        refusal: Refusal,
        /// At which frame, counted from 0.
        frame: usize,
    },
    /// The session was run, and the tables hold what it left.
    Ended {
        /// Whether all lines finished.
        ending: Ending,
        /// The first breached line, counted from 0, if there is one.
        first_breach: Option<usize>,
    },
}

impl Run {
    pub(crate) fn from_numbers(answer: [u64; 5]) -> Self {
        match answer {
            [0, _, ending, place, first] => {
                let line = place as usize;
                Run::Ended {
                    ending: match ending {
                        0 => Ending::RanThrough,
                        32 => Ending::RowsFull { line },
                        33 => Ending::KeysFull { line },
                        _ => panic!("{ending} is no ending"),
                    },
                    first_breach: (first != 65535).then_some(first as usize),
                }
            }
            [number, frame, ..] => Run::Refused {
                refusal: Refusal::from_number(number),
                frame: frame as usize,
            },
        }
    }
}

#[cfg(test)]
mod tests {
    use super::*;
    use crate::Template;

    #[test]
    fn a_refusal_is_not_taken() {
        let frame = 4;
        for refusal in Refusal::ALL {
            let number = refusal.number().into();
            let refused = [number, 4, 0, 0, 0, 0];
            assert_eq!(
                Read::from_numbers(refused),
                Read::Refused { refusal, frame }
            );
            let refused = [number, 4, 0];
            assert_eq!(
                Verdict::from_numbers(refused),
                Verdict::Refused { refusal, frame }
            );
            let refused = [number, 4, 0, 0, 0];
            assert_eq!(Run::from_numbers(refused), Run::Refused { refusal, frame });
        }
    }

    #[test]
    fn each_rule_is_told_by_its_number() {
        let (frame, step) = (3, 2);
        for rule in Rule::ALL {
            let broken = [rule.number().into(), 3, 2];
            assert_eq!(
                Verdict::from_numbers(broken),
                Verdict::Broken { rule, frame, step }
            );
        }
        assert_eq!(Verdict::from_numbers([0, 0, 0]), Verdict::Accepted);
    }

    #[test]
    fn endings() {
        let ended = |ending, first_breach| Run::Ended {
            ending,
            first_breach,
        };
        let through = ended(Ending::RanThrough, None);
        assert_eq!(Run::from_numbers([0, 0, 0, 0, 65535]), through);
        let full = ended(Ending::RowsFull { line: 7 }, Some(0));
        assert_eq!(Run::from_numbers([0, 0, 32, 7, 0]), full);
        let full = ended(Ending::KeysFull { line: 0 }, None);
        assert_eq!(Run::from_numbers([0, 0, 33, 0, 65535]), full);
    }

    #[test]
    fn a_set_of_templates() {
        let set = TemplateSet(1 << 63 | 2);
        assert!(set.allows(Template(1)) && set.allows(Template(63)));
        assert!(!set.allows(Template(0)) && !set.allows(Template(64)));
    }
}
