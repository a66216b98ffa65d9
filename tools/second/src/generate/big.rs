//! Long sessions that come to the limits of rows and stored keys: just below,
//! just at, and one beyond; and long ordinary ones with many stops.

use super::random::Random;
use super::recipe::{self, Gives, RawStep, Recipe, Want};
use super::scene::{constant, Scene, ENCRYPTS};
use super::small_scene;
use crate::frames::LINES_LIMIT;
use crate::session::{KEYS_LIMIT, ROWS_LIMIT};
use crate::types::UNTYPED_TEMPLATES;

pub fn scene(mut random: Random) -> Scene {
    if random.chance(30) {
        let mut scene = small_scene(random);
        let length = scene.random.pick(&[200, 600, LINES_LIMIT]);
        scene.wander(length);
        return scene;
    }
    let scene = Scene::new(random, 2, !UNTYPED_TEMPLATES);
    let mut filler = Filler::new(scene);
    filler.fill();
    filler.add_last_straws();
    filler.scene
}

/// Fills the token up to planned numbers of rows and keys.
struct Filler {
    scene: Scene,
    /// How many rows and keys there are after the lines so far.
    rows: usize,
    keys: usize,
    planned_rows: usize,
    planned_keys: usize,
    /// How many keys one call makes, and how many encryptions another does.
    batch: usize,
    chain: usize,
    /// The next constant that is not used yet.
    next_constant: usize,
    /// A line that stopped, or before there is one a constant.
    stopped: u16,
}

/// Makes `count` keys and returns the first handle.
fn many_keys(count: usize, template: u8) -> Recipe {
    let mut steps = vec![recipe::make(template); count];
    steps.push(recipe::give_back(0));
    Recipe {
        wants: Vec::new(),
        steps,
        gives: Gives::Handle(template),
    }
}

/// What a link of a chain does to the value before it.
type Link = fn(u8) -> RawStep;

const LINKS: [Link; 2] = [|value| recipe::enc(value, 0), |value| recipe::div(value, 1)];

/// Encrypts its argument `count` times under itself, or derives from it as
/// often: as many new rows, beside that of the argument.
fn chain(count: usize, link: Link) -> Recipe {
    let mut steps: Vec<RawStep> = (0..count as u8).map(link).collect();
    steps.push(recipe::give_back(count as u8));
    Recipe {
        wants: vec![Want::Anything],
        steps,
        gives: Gives::Something,
    }
}

/// Makes keys and rows, then stops because its argument is no handle.
fn stop_late(count: usize) -> Recipe {
    let mut steps = vec![recipe::make(3); count];
    steps.push(recipe::enc(0, 0));
    steps.push(recipe::keep(0, 3));
    steps.push(recipe::get(0, 0));
    steps.push(recipe::give_back(1));
    Recipe {
        wants: vec![Want::Handle(0)],
        steps,
        gives: Gives::Something,
    }
}

impl Filler {
    fn new(mut scene: Scene) -> Filler {
        let planned_keys = match scene.random.below(4) {
            0 => scene.random.below(40),
            1 => KEYS_LIMIT - 1,
            _ => KEYS_LIMIT,
        };
        let planned_rows = match scene.random.below(6) {
            0 | 1 => 2 * planned_keys + scene.random.below(300),
            2 => ROWS_LIMIT - 1,
            3 => ROWS_LIMIT - 2,
            _ => ROWS_LIMIT,
        };
        Filler {
            rows: 0,
            keys: 0,
            planned_rows,
            planned_keys,
            batch: scene.random.between(1, 15),
            chain: scene.random.between(9, 15),
            next_constant: 0,
            stopped: constant(0),
            scene,
        }
    }

    fn new_constant(&mut self) -> u16 {
        self.next_constant += 1;
        constant(self.next_constant)
    }

    /// Keys and rows in random order. Rows for the keys still to come are kept
    /// free, so that both plans are met exactly.
    fn fill(&mut self) {
        while self.scene.has_room_for_line() {
            let missing_keys = self.planned_keys - self.keys;
            let missing_rows = self.planned_rows - self.rows - 2 * missing_keys;
            match self.scene.random.below(8) {
                0 => self.stopped_line(),
                1..=3 if missing_keys > 0 => self.keys_line(missing_keys),
                _ if missing_rows > 0 => self.rows_line(missing_rows),
                _ if missing_keys > 0 => self.keys_line(missing_keys),
                _ => return,
            }
        }
    }

    fn keys_line(&mut self, missing: usize) {
        let count = if missing >= self.batch { self.batch } else { 1 };
        let template = self.scene.random.pick(&[0, 13, 15]);
        self.scene.perform(many_keys(count, template), &[]);
        self.keys += count;
        self.rows += 2 * count;
    }

    fn rows_line(&mut self, missing: usize) {
        let argument = self.new_constant();
        if missing > self.chain {
            let link = self.scene.random.pick(&LINKS);
            self.scene.perform(chain(self.chain, link), &[argument]);
            self.rows += self.chain + 1;
        } else {
            self.scene.perform(recipe::identity(), &[argument]);
            self.rows += 1;
        }
    }

    /// A line that must leave nothing. Only where there is room for what it
    /// does before it stops; else the run would end here.
    fn stopped_line(&mut self) {
        let count = self.scene.random.pick(&[1, 6]);
        let fits = self.rows + 2 * count + 3 <= ROWS_LIMIT && self.keys + count < KEYS_LIMIT;
        if fits || self.scene.random.chance(1) {
            let argument = self.new_constant();
            self.stopped = self.scene.perform(stop_late(count), &[argument]);
        }
    }

    /// A few lines more, each of which may be the one too many.
    fn add_last_straws(&mut self) {
        for _ in 0..self.scene.random.below(4) {
            if !self.scene.has_room_for_line() {
                return;
            }
            let argument = self.new_constant();
            self.add_straw(argument);
        }
    }

    fn add_straw(&mut self, argument: u16) {
        let old = constant(1);
        let scene = &mut self.scene;
        match scene.random.below(13) {
            0 => scene.perform(recipe::generate(13), &[]),
            1 => scene.perform(recipe::import(13), &[old]),
            2 => scene.perform(recipe::identity(), &[argument]),
            3 => scene.perform(recipe::identity(), &[old]),
            4 => scene.compute(ENCRYPTS, old, constant(2)),
            // These come to the limit in the midst of a line.
            5 => scene.perform(many_keys(self.batch, 3), &[]),
            6 => scene.perform(chain(self.chain, LINKS[0]), &[argument]),
            7 => scene.perform(chain(self.chain, LINKS[1]), &[argument]),
            // In these a stop and the limit compete for being first.
            8 => scene.perform(stop_late(1), &[old]),
            9 => scene.compute(ENCRYPTS, argument, self.stopped),
            10 => scene.derive(0, old),
            11 => scene.derive(0, argument),
            _ => scene.compute(ENCRYPTS, self.stopped, argument),
        };
    }
}
