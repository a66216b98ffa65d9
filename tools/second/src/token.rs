//! The token: the values seen so far, the stored keys, and the guards that
//! show whether it is breached.
//!
//! Every value has one row, found again by hashing, so equal values have equal
//! row numbers and comparing values is comparing numbers. Before a line the
//! token can be marked and afterwards put back to the mark; putting back costs
//! only as much as the line did.

use std::collections::HashMap;

use crate::types::{ALWAYS_SENSITIVE, SENSITIVE};

/// The number of a value, by first appearance.
pub type Row = u32;

#[derive(Clone, Copy, PartialEq, Eq, Hash, Debug)]
pub enum Value {
    Const(u16),
    /// A fresh atom, numbered from 0 in the order of making.
    Fresh(u32),
    /// An encryption: the value and the key.
    Enc(Row, Row),
    /// A decryption that did not undo an encryption: the value and the key.
    Dec(Row, Row),
    /// A derivation: the label and the value derived from.
    Div(u8, Row),
}

#[derive(Clone, Copy, PartialEq, Eq, Debug)]
pub struct StoredKey {
    pub handle: Row,
    pub key: Row,
    pub template: u8,
}

/// Why a line does not finish with a value.
#[derive(Clone, Copy, PartialEq, Eq, Debug)]
pub enum Halt {
    /// The line stops; the session goes on after it.
    Stopped,
    /// One row more would be needed; the run ends.
    RowsFull,
    /// One stored key more would be needed; the run ends.
    KeysFull,
}

struct Entry {
    value: Value,
    guarded: bool,
    /// Whether it is the value of a finished line.
    shown: bool,
}

/// What must be known to put the token back to where it was.
pub struct Mark {
    rows: usize,
    keys: usize,
    atoms: u32,
    breached: bool,
}

pub struct Token {
    rows_limit: usize,
    keys_limit: usize,
    entries: Vec<Entry>,
    /// The rows of all values but fresh atoms, which are never met again.
    rows: HashMap<Value, Row>,
    atoms: u32,
    keys: Vec<StoredKey>,
    /// Where in `keys` the key of a handle is. Handles are fresh atoms, so no
    /// two keys share one.
    places: HashMap<Row, usize>,
    breached: bool,
    /// The rows guarded since the last mark.
    newly_guarded: Vec<Row>,
}

impl Token {
    pub fn new(rows_limit: usize, keys_limit: usize) -> Token {
        Token {
            rows_limit,
            keys_limit,
            entries: Vec::new(),
            rows: HashMap::new(),
            atoms: 0,
            keys: Vec::new(),
            places: HashMap::new(),
            breached: false,
            newly_guarded: Vec::new(),
        }
    }

    pub fn stored_keys(&self) -> usize {
        self.keys.len()
    }

    pub fn is_breached(&self) -> bool {
        self.breached
    }

    /// The rows and the stored keys, at the end of a run.
    pub fn into_contents(self) -> (Vec<Value>, Vec<StoredKey>) {
        let rows = self.entries.iter().map(|entry| entry.value).collect();
        (rows, self.keys)
    }

    pub fn constant(&mut self, number: u16) -> Result<Row, Halt> {
        self.row_of(Value::Const(number))
    }

    pub fn encrypt(&mut self, value: Row, key: Row) -> Result<Row, Halt> {
        self.row_of(Value::Enc(value, key))
    }

    /// Only the right key undoes an encryption. Any other decryption is a value
    /// of its own, never a failure.
    pub fn decrypt(&mut self, value: Row, key: Row) -> Result<Row, Halt> {
        match self.entries[value as usize].value {
            Value::Enc(inner, used) if used == key => Ok(inner),
            _ => self.row_of(Value::Dec(value, key)),
        }
    }

    /// The same label and value always give the same; nothing undoes it.
    pub fn derive(&mut self, label: u8, value: Row) -> Result<Row, Halt> {
        self.row_of(Value::Div(label, value))
    }

    /// The key behind a handle. The call stops if there is none or if its
    /// template lacks one of the attributes.
    pub fn get(&self, handle: Row, attributes: u8) -> Result<Row, Halt> {
        let place = *self.places.get(&handle).ok_or(Halt::Stopped)?;
        let stored = self.keys[place];
        if stored.template & attributes == attributes {
            Ok(stored.key)
        } else {
            Err(Halt::Stopped)
        }
    }

    /// Makes a new handle, then a new key. Gives the handle.
    pub fn generate(&mut self, template: u8) -> Result<Row, Halt> {
        self.check_room_for_key()?;
        let handle = self.fresh()?;
        let key = self.fresh()?;
        if template & SENSITIVE != 0 {
            self.guard(key);
        }
        self.keep(handle, key, template);
        Ok(handle)
    }

    /// Makes a new handle for a value that is there. Gives the handle.
    pub fn store(&mut self, value: Row, template: u8) -> Result<Row, Halt> {
        self.check_room_for_key()?;
        let handle = self.fresh()?;
        self.keep(handle, value, template);
        Ok(handle)
    }

    /// A finished line shows its value to the attacker.
    pub fn show(&mut self, row: Row) {
        let entry = &mut self.entries[row as usize];
        entry.shown = true;
        self.breached |= entry.guarded;
    }

    /// Notes where the token stands, for `undo`.
    pub fn mark(&mut self) -> Mark {
        self.newly_guarded.clear();
        Mark {
            rows: self.entries.len(),
            keys: self.keys.len(),
            atoms: self.atoms,
            breached: self.breached,
        }
    }

    /// Puts the token back to the last mark. Guards are taken off first, while
    /// all the rows they are on still exist.
    pub fn undo(&mut self, mark: Mark) {
        for row in self.newly_guarded.drain(..) {
            self.entries[row as usize].guarded = false;
        }
        for stored in self.keys.drain(mark.keys..) {
            self.places.remove(&stored.handle);
        }
        for entry in self.entries.drain(mark.rows..) {
            self.rows.remove(&entry.value);
        }
        self.atoms = mark.atoms;
        self.breached = mark.breached;
    }

    /// Asked before any row of a storing step is made, so that a full store of
    /// keys shows before full rows.
    fn check_room_for_key(&self) -> Result<(), Halt> {
        if self.keys.len() < self.keys_limit {
            Ok(())
        } else {
            Err(Halt::KeysFull)
        }
    }

    fn keep(&mut self, handle: Row, key: Row, template: u8) {
        if template & ALWAYS_SENSITIVE != 0 {
            self.guard(key);
        }
        self.places.insert(handle, self.keys.len());
        self.keys.push(StoredKey {
            handle,
            key,
            template,
        });
    }

    /// A guarded value that anyone can know, or that was shown before, is a
    /// breach at once.
    fn guard(&mut self, row: Row) {
        let entry = &mut self.entries[row as usize];
        if !entry.guarded {
            entry.guarded = true;
            self.newly_guarded.push(row);
            self.breached |= entry.shown || matches!(entry.value, Value::Const(_));
        }
    }

    fn fresh(&mut self) -> Result<Row, Halt> {
        let row = self.add_entry(Value::Fresh(self.atoms))?;
        self.atoms += 1;
        Ok(row)
    }

    fn row_of(&mut self, value: Value) -> Result<Row, Halt> {
        if let Some(&row) = self.rows.get(&value) {
            return Ok(row);
        }
        let row = self.add_entry(value)?;
        self.rows.insert(value, row);
        Ok(row)
    }

    fn add_entry(&mut self, value: Value) -> Result<Row, Halt> {
        if self.entries.len() >= self.rows_limit {
            return Err(Halt::RowsFull);
        }
        let row = self.entries.len() as Row;
        self.entries.push(Entry {
            value,
            guarded: false,
            shown: false,
        });
        Ok(row)
    }
}
