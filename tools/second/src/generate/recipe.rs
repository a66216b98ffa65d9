//! Recipes: commands together with what they are for, so that a session can
//! call them with arguments that make sense.

use super::random::Random;

/// A step as it stands in a file: op, a, b, t.
pub type RawStep = [u8; 4];

pub fn give_back(value: u8) -> RawStep {
    [0, value, 0, 0]
}

pub fn get(handle: u8, attributes: u8) -> RawStep {
    [1, handle, 0, attributes]
}

pub fn make(template: u8) -> RawStep {
    [2, 0, 0, template]
}

pub fn keep(value: u8, template: u8) -> RawStep {
    [3, value, 0, template]
}

pub fn enc(value: u8, key: u8) -> RawStep {
    [4, value, key, 0]
}

pub fn dec(value: u8, key: u8) -> RawStep {
    [5, value, key, 0]
}

pub fn div(value: u8, label: u8) -> RawStep {
    [6, 0, value, label]
}

/// What a parameter is meant for.
#[derive(Clone, Copy, PartialEq)]
pub enum Want {
    Anything,
    /// The handle of a key with at least these attributes.
    Handle(u8),
    Ciphertext,
}

/// What a command is expected to return.
#[derive(Clone, Copy, PartialEq)]
pub enum Gives {
    Something,
    /// A handle of a key stored under this template.
    Handle(u8),
    /// A ciphertext under the key whose handle is this parameter.
    Ciphertext(usize),
}

#[derive(Clone, PartialEq)]
pub struct Recipe {
    pub wants: Vec<Want>,
    pub steps: Vec<RawStep>,
    pub gives: Gives,
}

fn recipe(wants: &[Want], steps: &[RawStep], gives: Gives) -> Recipe {
    Recipe {
        wants: wants.to_vec(),
        steps: steps.to_vec(),
        gives,
    }
}

pub fn generate(template: u8) -> Recipe {
    recipe(
        &[],
        &[make(template), give_back(0)],
        Gives::Handle(template),
    )
}

pub fn import(template: u8) -> Recipe {
    recipe(
        &[Want::Anything],
        &[keep(0, template), give_back(1)],
        Gives::Handle(template),
    )
}

pub fn encrypt(role: u8) -> Recipe {
    recipe(
        &[Want::Anything, Want::Handle(role)],
        &[get(1, role), enc(0, 2), give_back(3)],
        Gives::Ciphertext(1),
    )
}

pub fn decrypt(role: u8) -> Recipe {
    recipe(
        &[Want::Ciphertext, Want::Handle(role)],
        &[get(1, role), dec(0, 2), give_back(3)],
        Gives::Something,
    )
}

pub fn wrap(key_attributes: u8, role: u8) -> Recipe {
    recipe(
        &[Want::Handle(key_attributes), Want::Handle(role)],
        &[
            get(0, key_attributes),
            get(1, role),
            enc(2, 3),
            give_back(4),
        ],
        Gives::Ciphertext(1),
    )
}

pub fn unwrap(role: u8, template: u8) -> Recipe {
    recipe(
        &[Want::Ciphertext, Want::Handle(role)],
        &[get(1, role), dec(0, 2), keep(3, template), give_back(4)],
        Gives::Handle(template),
    )
}

pub fn copy(attributes: u8, template: u8) -> Recipe {
    recipe(
        &[Want::Handle(attributes)],
        &[get(0, attributes), keep(1, template), give_back(2)],
        Gives::Handle(template),
    )
}

pub fn read_out(attributes: u8) -> Recipe {
    recipe(
        &[Want::Handle(attributes)],
        &[get(0, attributes), give_back(1)],
        Gives::Something,
    )
}

/// A new key that leaves the token only in wrapped form.
pub fn generate_wrapped(template: u8, role: u8) -> Recipe {
    recipe(
        &[Want::Handle(role)],
        &[
            make(template),
            get(1, template),
            get(0, role),
            enc(2, 3),
            give_back(4),
        ],
        Gives::Ciphertext(0),
    )
}

/// Derives a key from a stored one, and stores it.
pub fn diversify(attributes: u8, label: u8, template: u8) -> Recipe {
    recipe(
        &[Want::Handle(attributes)],
        &[
            get(0, attributes),
            div(1, label),
            keep(2, template),
            give_back(3),
        ],
        Gives::Handle(template),
    )
}

/// Encrypts under a key that is derived for this alone.
pub fn encrypt_diversified(attributes: u8, label: u8) -> Recipe {
    recipe(
        &[Want::Anything, Want::Handle(attributes)],
        &[get(1, attributes), div(2, label), enc(0, 3), give_back(4)],
        Gives::Ciphertext(1),
    )
}

pub fn decrypt_diversified(attributes: u8, label: u8) -> Recipe {
    recipe(
        &[Want::Ciphertext, Want::Handle(attributes)],
        &[get(1, attributes), div(2, label), dec(0, 3), give_back(4)],
        Gives::Something,
    )
}

pub fn wrap_diversified(key_attributes: u8, attributes: u8, label: u8) -> Recipe {
    recipe(
        &[Want::Handle(key_attributes), Want::Handle(attributes)],
        &[
            get(0, key_attributes),
            get(1, attributes),
            div(3, label),
            enc(2, 4),
            give_back(5),
        ],
        Gives::Ciphertext(1),
    )
}

pub fn unwrap_diversified(attributes: u8, label: u8, template: u8) -> Recipe {
    recipe(
        &[Want::Ciphertext, Want::Handle(attributes)],
        &[
            get(1, attributes),
            div(2, label),
            dec(0, 3),
            keep(4, template),
            give_back(5),
        ],
        Gives::Handle(template),
    )
}

/// Derives from its argument and gives that back.
pub fn derive(label: u8) -> Recipe {
    recipe(
        &[Want::Anything],
        &[div(0, label), give_back(1)],
        Gives::Something,
    )
}

/// Derives from a stored key and gives that back.
pub fn derive_out(attributes: u8, label: u8) -> Recipe {
    recipe(
        &[Want::Handle(attributes)],
        &[get(0, attributes), div(1, label), give_back(2)],
        Gives::Something,
    )
}

/// Uses a key as if it were a handle.
pub fn get_twice(attributes: u8, further: u8) -> Recipe {
    recipe(
        &[Want::Handle(attributes)],
        &[get(0, attributes), get(1, further), give_back(0)],
        Gives::Something,
    )
}

/// Decrypts a key under itself, as if it were a ciphertext.
pub fn decrypt_key(role: u8) -> Recipe {
    recipe(
        &[Want::Handle(role)],
        &[get(0, role), dec(1, 1), give_back(0)],
        Gives::Something,
    )
}

/// Stores its argument, then stops unless that is also a handle.
pub fn store_then_get(template: u8) -> Recipe {
    recipe(
        &[Want::Handle(0)],
        &[keep(0, template), get(0, 0), give_back(0)],
        Gives::Something,
    )
}

pub fn identity() -> Recipe {
    recipe(&[Want::Anything], &[give_back(0)], Gives::Something)
}

/// What a value inside a command is likely to be.
#[derive(Clone, Copy, PartialEq)]
enum Sort {
    /// A parameter that no step has used yet: it may become anything.
    Open,
    Handle(u8),
    Key,
    Public,
}

/// A command of random steps that each make sense for the values before it.
struct Wanderer<'a> {
    random: &'a mut Random,
    templates: &'a [u8],
    wants: Vec<Want>,
    sorts: Vec<Sort>,
    steps: Vec<RawStep>,
}

/// Random lawful steps over the given templates, of which there is at least
/// one.
pub fn wander(random: &mut Random, templates: &[u8]) -> Recipe {
    let parameters = random.below(5);
    let limit = if random.chance(10) { 15 } else { 6 };
    let count = random.between(usize::from(parameters == 0), limit);
    let mut wanderer = Wanderer {
        random,
        templates,
        wants: vec![Want::Anything; parameters],
        sorts: vec![Sort::Open; parameters],
        steps: Vec::new(),
    };
    for _ in 0..count {
        wanderer.add_step();
    }
    wanderer.finish()
}

impl Wanderer<'_> {
    fn add_step(&mut self) {
        let template = self.random.pick(self.templates);
        let (step, sort) = match self.random.below(12) {
            0 | 1 => (make(template), Sort::Handle(template)),
            2 => match self.any_value() {
                Some(value) => (keep(value, template), Sort::Handle(template)),
                None => (make(template), Sort::Handle(template)),
            },
            3..=5 => self.get_step(template),
            6 | 7 => self.cipher_step(enc, template),
            8 | 9 => self.derive_step(template),
            _ => self.cipher_step(dec, template),
        };
        self.steps.push(step);
        self.sorts.push(sort);
    }

    /// Gets the key of some handle. A parameter not used yet becomes one.
    fn get_step(&mut self, template: u8) -> (RawStep, Sort) {
        let may_be_handle = |sort| matches!(sort, Sort::Open | Sort::Handle(_));
        let Some(handle) = self.value_where(may_be_handle) else {
            return (make(template), Sort::Handle(template));
        };
        let place = usize::from(handle);
        let full = match self.sorts[place] {
            Sort::Handle(stored) => stored,
            _ => template,
        };
        let attributes = full & self.random.pick(&[4, 8, 12, 16, 32, 63]);
        self.sorts[place] = Sort::Handle(full);
        if let Some(want) = self.wants.get_mut(place) {
            *want = Want::Handle(full);
        }
        (get(handle, attributes), Sort::Key)
    }

    /// Encrypts or decrypts, if possible under a key.
    fn cipher_step(&mut self, op: fn(u8, u8) -> RawStep, template: u8) -> (RawStep, Sort) {
        let key = self.value_where(|sort| sort == Sort::Key);
        let key = key.or_else(|| self.any_value());
        let careless = self.random.chance(15);
        let value = self.value_where(|sort| careless || sort != Sort::Key);
        let value = value.or_else(|| self.any_value());
        match (value, key) {
            (Some(value), Some(key)) => (op(value, key), Sort::Public),
            _ => (make(template), Sort::Handle(template)),
        }
    }

    /// Derives, if possible from a key; what comes of a key is a key again.
    fn derive_step(&mut self, template: u8) -> (RawStep, Sort) {
        let label = self.random.below(2) as u8;
        if let Some(key) = self.value_where(|sort| sort == Sort::Key) {
            return (div(key, label), Sort::Key);
        }
        match self.any_value() {
            Some(value) => (div(value, label), Sort::Public),
            None => (make(template), Sort::Handle(template)),
        }
    }

    fn value_where(&mut self, fits: impl Fn(Sort) -> bool) -> Option<u8> {
        let fitting: Vec<u8> = (0..)
            .zip(&self.sorts)
            .filter(|(_, &sort)| fits(sort))
            .map(|(value, _)| value)
            .collect();
        self.random.pick_any(&fitting)
    }

    fn any_value(&mut self) -> Option<u8> {
        self.value_where(|_| true)
    }

    /// Returns, mostly, something other than a key.
    fn finish(mut self) -> Recipe {
        let careless = self.random.chance(10);
        let value = self.value_where(|sort| careless || sort != Sort::Key);
        let value = value.or_else(|| self.any_value()).unwrap_or(0);
        let gives = match self.sorts.get(usize::from(value)) {
            Some(&Sort::Handle(template)) => Gives::Handle(template),
            _ => Gives::Something,
        };
        self.steps.push(give_back(value));
        Recipe {
            wants: self.wants,
            steps: self.steps,
            gives,
        }
    }
}
