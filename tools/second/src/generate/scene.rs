//! A scene: a policy, the commands learnt so far and a session that grows line
//! by line. It remembers what each line is likely to have given, so that later
//! lines can use handles as handles and ciphertexts as ciphertexts.

use super::random::Random;
use super::recipe::{Gives, Recipe, Want};
use crate::frames::{COMMANDS_LIMIT, LINES_LIMIT};
use crate::text;

/// The kinds of session lines in which the attacker computes.
pub const ENCRYPTS: u8 = 1;
pub const DECRYPTS: u8 = 2;
const DERIVES: u8 = 3;

/// What a line is likely to have given.
#[derive(Clone, Copy)]
enum Made {
    Handle(u8),
    /// A ciphertext, with the argument that named its key.
    Ciphertext(u16),
    Something,
    /// The line has probably stopped.
    Nothing,
}

pub struct Scene {
    pub random: Random,
    pub transported: u8,
    pub allowed: u64,
    recipes: Vec<Recipe>,
    /// The session lines as frames.
    lines: Vec<Vec<u8>>,
    /// One for each session line.
    made: Vec<Made>,
}

/// The argument that names the public constant of this number.
pub fn constant(number: usize) -> u16 {
    0x8000 | number as u16
}

impl Scene {
    pub fn new(random: Random, transported: u8, allowed: u64) -> Scene {
        Scene {
            random,
            transported,
            allowed,
            recipes: Vec::new(),
            lines: Vec::new(),
            made: Vec::new(),
        }
    }

    /// The allowed templates, in order.
    pub fn templates(&self) -> Vec<u8> {
        (0..64)
            .filter(|template| self.allowed >> template & 1 != 0)
            .collect()
    }

    pub fn has_room_for_command(&self) -> bool {
        self.recipes.len() < COMMANDS_LIMIT
    }

    pub fn has_room_for_line(&self) -> bool {
        self.lines.len() < LINES_LIMIT
    }

    /// Adds a command, unless the same one is there, and gives its number.
    pub fn learn(&mut self, recipe: Recipe) -> usize {
        let known = self.recipes.iter().position(|other| *other == recipe);
        known.unwrap_or_else(|| {
            self.recipes.push(recipe);
            self.recipes.len() - 1
        })
    }

    /// Adds a line that calls a command. Gives the argument that names it.
    pub fn call(&mut self, command: usize, arguments: &[u16]) -> u16 {
        let recipe = &self.recipes[command];
        let fits = recipe
            .wants
            .iter()
            .zip(arguments)
            .all(|(&want, &argument)| self.suits(argument, want));
        let made = match recipe.gives {
            _ if !fits => Made::Nothing,
            Gives::Something => Made::Something,
            Gives::Handle(template) => Made::Handle(template),
            Gives::Ciphertext(key) => Made::Ciphertext(arguments[key]),
        };
        self.add_line(0, command as u8, arguments, made)
    }

    /// Adds the command if needed, and a line that calls it.
    pub fn perform(&mut self, recipe: Recipe, arguments: &[u16]) -> u16 {
        let command = self.learn(recipe);
        self.call(command, arguments)
    }

    /// Adds a line in which the attacker computes by himself.
    pub fn compute(&mut self, kind: u8, value: u16, key: u16) -> u16 {
        let made = match kind {
            ENCRYPTS => Made::Ciphertext(key),
            _ => Made::Something,
        };
        self.add_line(kind, 0, &[value, key], made)
    }

    /// Adds a line in which the attacker derives by himself.
    pub fn derive(&mut self, label: u8, value: u16) -> u16 {
        self.add_line(DERIVES, label, &[value], Made::Something)
    }

    fn add_line(&mut self, kind: u8, command: u8, arguments: &[u16], made: Made) -> u16 {
        let mut frame = vec![3, kind, command, arguments.len() as u8];
        for argument in arguments {
            frame.extend(argument.to_be_bytes());
        }
        self.lines.push(frame);
        self.made.push(made);
        self.lines.len() as u16 - 1
    }

    /// Adds up to this many lines that make sense after those before.
    pub fn wander(&mut self, count: usize) {
        for _ in 0..count {
            if !self.has_room_for_line() {
                return;
            }
            if self.recipes.is_empty() || self.random.chance(15) {
                self.compute_something();
            } else {
                self.call_something();
            }
        }
    }

    fn compute_something(&mut self) {
        let kind = self.random.pick(&[ENCRYPTS, ENCRYPTS, DECRYPTS, DERIVES]);
        let value = self.anything();
        if kind == DERIVES {
            let label = self.random.below(2) as u8;
            self.derive(label, value);
            return;
        }
        let key = match self.made_by(value) {
            Made::Ciphertext(key) if self.random.chance(50) => key,
            _ => self.anything(),
        };
        self.compute(kind, value, key);
    }

    /// Calls some command whose parameters can be filled. If they can't, it is
    /// called all the same now and then, to see lines that stop.
    fn call_something(&mut self) {
        let command = self.random.below(self.recipes.len());
        let wants = self.recipes[command].wants.clone();
        let mut arguments = Vec::new();
        let mut key_of_ciphertext = None;
        for want in wants {
            let argument = match self.fitting(want, key_of_ciphertext) {
                Some(argument) if self.random.chance(98) => argument,
                None if self.random.chance(80) => return,
                _ => self.careless(),
            };
            if let Made::Ciphertext(key) = self.made_by(argument) {
                key_of_ciphertext = Some(key);
            }
            arguments.push(argument);
        }
        self.call(command, &arguments);
    }

    /// An argument that serves for what is wanted. Where a ciphertext went
    /// before, its own key is preferred, so that decryptions undo it.
    fn fitting(&mut self, want: Want, preferred: Option<u16>) -> Option<u16> {
        match (want, preferred) {
            (Want::Anything, _) => Some(self.anything()),
            (Want::Ciphertext, _) => {
                self.line_where(|scene, line| matches!(scene.made_by(line), Made::Ciphertext(_)))
            }
            (Want::Handle(_), Some(key)) if self.suits(key, want) && self.random.chance(75) => {
                Some(key)
            }
            (Want::Handle(_), _) => self.line_where(|scene, line| scene.suits(line, want)),
        }
    }

    fn line_where(&mut self, fits: impl Fn(&Scene, u16) -> bool) -> Option<u16> {
        let lines = 0..self.lines.len() as u16;
        let fitting: Vec<u16> = lines.filter(|&line| fits(self, line)).collect();
        self.random.pick_any(&fitting)
    }

    /// A public constant or the value of a line that has probably given one.
    fn anything(&mut self) -> u16 {
        if self.lines.is_empty() || self.random.chance(50) {
            // Few constants, so that values meet again; some high ones.
            let first = self.random.pick(&[0, 0, 0, 0, 0x4000, 0x7ffc]);
            return constant(first + self.random.below(4));
        }
        let line = self.random.below(self.lines.len());
        match self.made[line] {
            Made::Nothing => constant(0),
            _ => line as u16,
        }
    }

    /// Any argument that can be written, even if the line will stop for it.
    fn careless(&mut self) -> u16 {
        if self.lines.is_empty() || self.random.chance(30) {
            constant(self.random.below(8))
        } else {
            self.random.below(self.lines.len()) as u16
        }
    }

    fn made_by(&self, argument: u16) -> Made {
        let line = self.made.get(usize::from(argument));
        line.copied().unwrap_or(Made::Something)
    }

    /// Whether a line with this argument in that place can go on. Anything can
    /// be decrypted, so only handles are looked at closely.
    fn suits(&self, argument: u16, want: Want) -> bool {
        match (want, self.made_by(argument)) {
            (_, Made::Nothing) => false,
            (Want::Handle(attributes), Made::Handle(template)) => {
                template & attributes == attributes
            }
            (Want::Handle(_), _) => false,
            _ => true,
        }
    }

    /// All frames, in order.
    pub fn frames(&self) -> Vec<Vec<u8>> {
        let mut policy = vec![1, self.transported];
        policy.extend(self.allowed.to_be_bytes());
        let mut frames = vec![policy];
        frames.extend(self.recipes.iter().map(command_frame));
        frames.extend(self.lines.iter().cloned());
        frames
    }

    pub fn text(&self) -> Vec<u8> {
        text_of(&self.frames())
    }
}

pub fn command_frame(recipe: &Recipe) -> Vec<u8> {
    let mut frame = vec![2, recipe.wants.len() as u8, recipe.steps.len() as u8];
    frame.extend(recipe.steps.iter().flatten());
    frame
}

/// The frames as lines of a file.
pub fn text_of(frames: &[Vec<u8>]) -> Vec<u8> {
    let mut output = Vec::new();
    for frame in frames {
        text::encode(frame, &mut output);
    }
    output
}
