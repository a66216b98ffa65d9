//! What is lent for a call: tables and a place for the answer, both full of
//! what an entry must not rely on.

use second::generate::random::Random;
use second::tables::{Tables, LENGTHS};

/// Which sizes are lent.
#[derive(Clone, Copy)]
pub enum Sizes {
    Right,
    /// At least one table has another length than it should.
    OddTables,
    /// The place for the answer has another size than it should; the tables
    /// may be odd as well.
    OddAnswer,
}

pub struct Lender {
    random: Random,
    /// What a call for an earlier file left: the garbage that looks most like
    /// what belongs there.
    old: Tables,
}

impl Default for Lender {
    fn default() -> Lender {
        Lender {
            random: Random::new(0),
            old: Tables::zero(LENGTHS),
        }
    }
}

impl Lender {
    /// What is lent from here on depends on this seed and the old tables only,
    /// so that a difference can be found again without all files before it.
    pub fn start(&mut self, seed: u64) {
        self.random = Random::new(!seed);
    }

    pub fn chance(&mut self, percent: usize) -> bool {
        self.random.chance(percent)
    }

    /// Takes tables of the right lengths, to be lent again as they are.
    pub fn keep_old(&mut self, left: Tables) {
        self.old = left;
    }

    /// Tables, and a place for an answer that should have this size.
    pub fn lend<T: From<u8>>(&mut self, size: usize, sizes: Sizes) -> (Tables, Vec<T>) {
        let odd_tables = match sizes {
            Sizes::Right => false,
            Sizes::OddTables => true,
            Sizes::OddAnswer => self.random.chance(50),
        };
        let tables = if odd_tables {
            let lengths = self.odd_lengths();
            self.random_tables(lengths)
        } else if self.random.chance(50) {
            self.old.clone()
        } else {
            self.random_tables(LENGTHS)
        };
        let size = match sizes {
            Sizes::OddAnswer => self.other_than(size),
            _ => size,
        };
        let answer = (0..size).map(|_| self.random.byte().into()).collect();
        (tables, answer)
    }

    fn odd_lengths(&mut self) -> [usize; 7] {
        let mut lengths = LENGTHS;
        for _ in 0..self.random.pick(&[1, 1, 2, 7]) {
            let table = self.random.below(LENGTHS.len());
            lengths[table] = self.other_than(LENGTHS[table]);
        }
        lengths
    }

    fn other_than(&mut self, size: usize) -> usize {
        let mut sizes = vec![0, 1, size - 1, size + 1, 2 * size];
        sizes.extend(LENGTHS);
        sizes.retain(|&other| other != size);
        self.random.pick(&sizes)
    }

    fn random_tables(&mut self, lengths: [usize; 7]) -> Tables {
        let mut tables = Tables::zero(lengths);
        for table in tables.all_mut() {
            table.fill_with(|| self.random.bits());
        }
        tables
    }
}
