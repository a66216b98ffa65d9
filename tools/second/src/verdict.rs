//! The verdict: whether every command of a file is well typed under its
//! policy, and if not, the first step that isn't and why.

use crate::frames::{Command, File, Policy, Step};
use crate::types::{self, Type, TEMPLATES};

const TEMPLATE_NOT_ALLOWED: u8 = 16;
const NOTHING_TO_GET: u8 = 17;
const ENCRYPT_REFUSED: u8 = 18;
const DECRYPT_REFUSED: u8 = 19;
const STORE_REFUSED: u8 = 20;
const SECRET_RETURNED: u8 = 21;
const HANDLE_NOT_PUBLIC: u8 = 22;
const DERIVE_REFUSED: u8 = 23;

/// Acceptance is number 0 at frame 0 and step 0.
#[derive(Clone, Copy, PartialEq, Eq, Debug)]
pub struct Verdict {
    pub number: u8,
    pub frame: usize,
    pub step: usize,
}

const ACCEPTED: Verdict = Verdict {
    number: 0,
    frame: 0,
    step: 0,
};

pub fn verdict(file: &File) -> Verdict {
    // The policy is frame 0, so the commands are the frames from 1 on.
    (1..)
        .zip(&file.commands)
        .find_map(|(frame, command)| {
            let (step, number) = first_fault(&file.policy, command)?;
            Some(Verdict {
                number,
                frame,
                step,
            })
        })
        .unwrap_or(ACCEPTED)
}

/// The first step that is refused, with the number of the refusal.
fn first_fault(policy: &Policy, command: &Command) -> Option<(usize, u8)> {
    // Parameters come from the attacker.
    let mut values = vec![Type::Un; command.parameters];
    for (place, step) in command.steps.iter().enumerate() {
        match step_type(policy, &values, *step) {
            Ok(given) => values.push(given),
            Err(number) => return Some((place, number)),
        }
    }
    None
}

/// The type of the value that a step gives, or the number of its refusal.
fn step_type(policy: &Policy, values: &[Type], step: Step) -> Result<Type, u8> {
    let value_type = |value: u8| values[usize::from(value)];
    match step {
        Step::Return { value } => require(value_type(value) == Type::Un, SECRET_RETURNED)?,
        Step::Get { handle, attributes } => {
            require(value_type(handle) == Type::Un, HANDLE_NOT_PUBLIC)?;
            return got_type(policy, attributes).ok_or(NOTHING_TO_GET);
        }
        Step::Generate { template } => {
            allowed_type(policy, template).ok_or(TEMPLATE_NOT_ALLOWED)?;
        }
        Step::Store { value, template } => {
            let place = allowed_type(policy, template).ok_or(TEMPLATE_NOT_ALLOWED)?;
            require(value_type(value).is_below(place), STORE_REFUSED)?;
        }
        Step::Encrypt { value, key } => {
            let lawful = may_encrypt(policy, value_type(value), value_type(key));
            require(lawful, ENCRYPT_REFUSED)?;
        }
        Step::Decrypt { value, key } => {
            return decrypted_type(policy, value_type(value), value_type(key))
                .ok_or(DECRYPT_REFUSED);
        }
        Step::Derive { value, label } => {
            return derived_type(value_type(value), label).ok_or(DERIVE_REFUSED);
        }
    }
    // Handles and ciphertexts are public, and what is returned is so too.
    Ok(Type::Un)
}

fn require(met: bool, number: u8) -> Result<(), u8> {
    if met {
        Ok(())
    } else {
        Err(number)
    }
}

/// The type of a template that the policy allows; None if it doesn't. A policy
/// never allows a template without a type: reading refuses that.
fn allowed_type(policy: &Policy, template: u8) -> Option<Type> {
    if policy.allowed >> template & 1 == 0 {
        return None;
    }
    types::of_template(template)
}

/// The join of the types of all allowed templates that contain the attributes:
/// the key may have been stored under any of them.
fn got_type(policy: &Policy, attributes: u8) -> Option<Type> {
    (0..TEMPLATES as u8)
        .filter(|template| template & attributes == attributes)
        .filter_map(|template| allowed_type(policy, template))
        .reduce(Type::join)
}

fn may_encrypt(policy: &Policy, value: Type, key: Type) -> bool {
    if key == Type::Wrap {
        value.is_below(policy.transported)
    } else {
        key.is_below(Type::Data) && value == Type::Un
    }
}

/// A seed gives keys for one role each, and from what is public anyone can
/// derive. From all else nothing is derived, not even from what may be a seed.
fn derived_type(value: Type, label: u8) -> Option<Type> {
    match (value, label) {
        (Type::Seed, 0) => Some(Type::TData),
        (Type::Seed, _) => Some(Type::Wrap),
        (Type::Un, _) => Some(Type::Un),
        _ => None,
    }
}

fn decrypted_type(policy: &Policy, value: Type, key: Type) -> Option<Type> {
    if value != Type::Un {
        None
    } else if key == Type::Wrap {
        Some(policy.transported)
    } else {
        key.is_below(Type::Data).then_some(Type::Un)
    }
}
