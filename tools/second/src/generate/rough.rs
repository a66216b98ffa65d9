//! Files without any purpose: every field is drawn by itself, mostly within
//! its limits and now and then just beyond. So steps and lines are combined as
//! no sensible configuration would, and several faults meet in one frame.

use super::random::Random;
use super::scene::{constant, text_of};
use crate::types::UNTYPED_TEMPLATES;

type Frames = Vec<Vec<u8>>;

pub fn file(mut random: Random) -> Vec<u8> {
    let faults = random.pick(&[0, 0, 0, 1, 4]);
    let mut rough = Rough { random, faults };
    let mut frames = vec![rough.policy()];
    let parameters = rough.add_commands(&mut frames);
    rough.add_lines(&mut frames, &parameters);
    text_of(&frames)
}

struct Rough {
    random: Random,
    /// How many fields in a hundred are beyond their limits.
    faults: usize,
}

impl Rough {
    /// A number below the limit, or one just beyond it.
    fn field(&mut self, limit: usize) -> u8 {
        let beyond = self.random.chance(self.faults) || limit == 0;
        let number = if beyond {
            limit + self.random.pick(&[0, 0, 1, 100])
        } else {
            self.random.below(limit)
        };
        number as u8
    }

    /// A field that is not used: 0 but for the faults.
    fn unused(&mut self) -> u8 {
        self.field(1)
    }

    fn policy(&mut self) -> Vec<u8> {
        let mut allowed = self.random.bits() | self.random.bits();
        if self.random.chance(40) {
            allowed &= self.random.bits() & self.random.bits();
        }
        if !self.random.chance(self.faults) {
            allowed &= !UNTYPED_TEMPLATES;
        }
        let mut frame = vec![1, self.field(6)];
        frame.extend(allowed.to_be_bytes());
        frame
    }

    /// Gives the parameter count of each command.
    fn add_commands(&mut self, frames: &mut Frames) -> Vec<u8> {
        let count = self.random.pick(&[1, 2, 4, 8, 16, 32]);
        let count = self.random.between(1, count) + usize::from(self.random.chance(self.faults));
        for _ in 0..count {
            let frame = self.command();
            frames.push(frame);
        }
        frames[1..].iter().map(|frame| frame[1]).collect()
    }

    fn command(&mut self) -> Vec<u8> {
        let parameters = self.field(5);
        // Of a command without parameters the first step must make a value.
        let least = if parameters == 0 { 2 } else { 1 };
        let steps = self.random.pick(&[4, 4, 16, 16 + self.faults.min(1)]);
        let steps = self.random.between(least, steps);
        let mut frame = vec![2, parameters, steps as u8];
        for step in 0..steps {
            let made = usize::from(parameters) + step;
            let misplaced = self.random.chance(self.faults);
            let returns = (step + 1 == steps) != misplaced;
            frame.extend(self.step(made, returns));
        }
        frame
    }

    /// A step when so many values are made.
    fn step(&mut self, made: usize, returns: bool) -> [u8; 4] {
        let op = match (returns, made) {
            (true, _) => 0,
            (false, 0) => 2,
            (false, _) => 1 + self.field(6),
        };
        match op {
            0 => [0, self.field(made), self.unused(), self.unused()],
            1 => [1, self.field(made), self.unused(), self.attributes()],
            2 => [2, self.unused(), self.unused(), self.field(64)],
            3 => [3, self.field(made), self.unused(), self.field(64)],
            6 => [6, self.unused(), self.field(made), self.field(2)],
            _ => [op, self.field(made), self.field(made), self.unused()],
        }
    }

    /// Few attributes, so that some template serves them.
    fn attributes(&mut self) -> u8 {
        self.field(64) & self.random.pick(&[0, 1, 4, 8, 16, 32, 0xff])
    }

    fn add_lines(&mut self, frames: &mut Frames, parameters: &[u8]) {
        let most = self.random.pick(&[0, 4, 12, 60]);
        for line in 0..self.random.between(0, most) {
            let frame = self.line(line, parameters);
            frames.push(frame);
        }
    }

    /// A line when so many lines are before it.
    fn line(&mut self, before: usize, parameters: &[u8]) -> Vec<u8> {
        let kind = match self.random.below(4) {
            0 => self.field(4),
            _ => 0,
        };
        let (command, count) = match kind {
            0 => {
                let command = self.field(parameters.len());
                let own = parameters.get(usize::from(command));
                (command, own.copied().unwrap_or(0))
            }
            3 => (self.field(2), 1),
            _ => (self.unused(), 2),
        };
        let wrong_count = self.random.chance(self.faults);
        let count = if wrong_count { self.field(5) } else { count };
        let mut frame = vec![3, kind, command, count];
        for _ in 0..count {
            frame.extend(self.argument(before).to_be_bytes());
        }
        frame
    }

    fn argument(&mut self, before: usize) -> u16 {
        if before == 0 || self.random.chance(30) {
            constant(self.random.pick(&[0, 1, 2, 0x7fff]))
        } else {
            self.field(before).into()
        }
    }
}
