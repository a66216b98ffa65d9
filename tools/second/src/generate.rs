//! A deterministic maker of test files: the same seed always gives the same
//! bytes.
//!
//! Random bytes would nearly all be refused at the first frame. So the files
//! are made from scenes that make sense (policies, commands of known use, and
//! sessions whose values flow from line to line), and some are damaged
//! afterwards. A part is made field by field without any sense.

mod attack;
mod big;
mod damage;
mod lawful;
pub mod random;
mod recipe;
mod rough;
mod scene;

use random::Random;
use scene::Scene;

/// The file of a seed. Most files are small; big ones are rare, so that many
/// thousands can be made and run in a few seconds.
pub fn file(seed: u64) -> Vec<u8> {
    let mut random = Random::new(seed);
    match random.below(100) {
        0..=44 => lawful::scene(random).text(),
        45..=67 => attack::scene(random).text(),
        68..=83 => damage::file(random),
        84..=93 => rough::file(random),
        _ => big::scene(random).text(),
    }
}

/// A small scene of either of the two small kinds, for damaging.
fn small_scene(mut random: Random) -> Scene {
    if random.chance(60) {
        lawful::scene(random)
    } else {
        attack::scene(random)
    }
}
