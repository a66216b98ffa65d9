//! The attributes of keys, the types that templates have, and their order.

pub const SENSITIVE: u8 = 1;
pub const ALWAYS_SENSITIVE: u8 = 2;
pub const ENCRYPT: u8 = 4;
pub const DECRYPT: u8 = 8;
pub const WRAP: u8 = 16;
pub const UNWRAP: u8 = 32;

/// How many templates there are: every set of the six attributes.
pub const TEMPLATES: usize = 64;

/// The types, in the order of their codes in files.
#[derive(Clone, Copy, PartialEq, Eq, Debug)]
#[repr(u8)]
pub enum Type {
    Un,
    TData,
    Data,
    Wrap,
    Seed,
    Any,
}

const ALL: [Type; 6] = [
    Type::Un,
    Type::TData,
    Type::Data,
    Type::Wrap,
    Type::Seed,
    Type::Any,
];

/// The type of each template, worked out once by the compiler.
const TYPE_OF: [Option<Type>; TEMPLATES] = {
    let mut table = [None; TEMPLATES];
    let mut template = 0;
    while template < TEMPLATES {
        table[template] = rule(template as u8);
        template += 1;
    }
    table
};

/// The set of all templates without a type, one bit a template.
pub const UNTYPED_TEMPLATES: u64 = {
    let mut set = 0;
    let mut template = 0;
    while template < TEMPLATES {
        if TYPE_OF[template].is_none() {
            set |= 1 << template;
        }
        template += 1;
    }
    set
};

/// The rule that the table of types follows.
const fn rule(template: u8) -> Option<Type> {
    let sensitive = template & SENSITIVE != 0;
    let always = template & ALWAYS_SENSITIVE != 0;
    let data = template & (ENCRYPT | DECRYPT) != 0;
    let wrap = template & (WRAP | UNWRAP) != 0;
    match (sensitive, always, data, wrap) {
        (false, true, _, _) => None,
        (false, false, _, _) => Some(Type::Un),
        (true, false, true, false) => Some(Type::Data),
        (true, false, _, _) => Some(Type::Any),
        (true, true, true, false) => Some(Type::TData),
        (true, true, false, true) => Some(Type::Wrap),
        (true, true, _, _) => Some(Type::Seed),
    }
}

/// The type of a template below 64; None for A without S.
pub fn of_template(template: u8) -> Option<Type> {
    TYPE_OF[usize::from(template)]
}

impl Type {
    pub fn from_code(code: u8) -> Option<Type> {
        ALL.get(usize::from(code)).copied()
    }

    /// Whether `self` is below `other` or the same. Wrap is deliberately not
    /// below Data: else a plain encryption under a wrapping key could be
    /// unwrapped as a trusted key.
    pub fn is_below(self, other: Type) -> bool {
        match other {
            Type::Any => true,
            Type::Data => matches!(self, Type::Un | Type::TData | Type::Data),
            _ => self == other,
        }
    }

    /// The lowest type above both.
    pub fn join(self, other: Type) -> Type {
        if self.is_below(other) {
            other
        } else if other.is_below(self) {
            self
        } else if self.is_below(Type::Data) && other.is_below(Type::Data) {
            Type::Data
        } else {
            Type::Any
        }
    }
}
