//! Whole configurations that look well typed, most of which are accepted, with
//! sessions that use them as intended.

use super::random::Random;
use super::recipe::{self, Recipe};
use super::scene::{command_frame, text_of, Scene};
use crate::types::UNTYPED_TEMPLATES;
use crate::{parse, verdict};

pub fn scene(mut random: Random) -> Scene {
    let (transported, allowed) = policy(&mut random);
    let mut scene = Scene::new(random, transported, allowed);
    if allowed != 0 {
        learn_commands(&mut scene);
        let starts = scene.random.between(1, 4);
        start(&mut scene, starts);
    }
    let length = match scene.random.below(20) {
        0 => 0,
        1 => 80,
        _ => scene.random.between(1, 24),
    };
    scene.wander(length);
    scene
}

/// A transported type and a set of allowed templates. Most come from families
/// that go together; some are random.
fn policy(random: &mut Random) -> (u8, u64) {
    match random.below(24) {
        0..=4 => (2, some_of(random, &[5, 9, 13, 13, 19, 35, 51, 51])),
        5..=7 => (1, some_of(random, &[7, 11, 15, 15, 19, 35, 51, 51])),
        8..=9 => (0, some_of(random, &[0, 4, 8, 12, 16, 32, 48, 60])),
        10..=12 => (2, some_of(random, &[0, 4, 12, 13, 15, 51, 51])),
        13 => (3, some_of(random, &[15, 19, 35, 51, 51])),
        14 => (4, some_of(random, &[3, 3, 13, 63, 51])),
        15 => (5, some_of(random, &[1, 25, 13, 51])),
        16..=17 => (random.below(6) as u8, few(random)),
        18 => {
            let most = random.bits() | random.bits();
            (random.below(6) as u8, most & !UNTYPED_TEMPLATES)
        }
        // Seeds beside the keys that are derived from them, and alone.
        19..=21 => (2, some_of(random, &[63, 63, 63, 13, 15, 15, 51, 51])),
        22 => (random.pick(&[2, 4]), some_of(random, &[0, 3, 3, 3, 13])),
        _ => (
            random.below(6) as u8,
            random.pick(&[0, !UNTYPED_TEMPLATES, 1]),
        ),
    }
}

/// All of the templates, or each with a fair chance. Templates listed twice
/// are likelier.
fn some_of(random: &mut Random, templates: &[u8]) -> u64 {
    let all = random.chance(40);
    templates
        .iter()
        .filter(|_| all || random.chance(50))
        .fold(0, |set, template| set | 1 << template)
}

/// A few templates that have a type.
fn few(random: &mut Random) -> u64 {
    let count = random.between(1, 5);
    let set = (0..count).fold(0, |set, _| set | 1 << random.below(64));
    set & !UNTYPED_TEMPLATES
}

/// Ways to make keys first, then commands of all sorts. A command that would
/// be refused is mostly dropped, so that whole files are often accepted.
fn learn_commands(scene: &mut Scene) {
    let templates = scene.templates();
    for _ in 0..scene.random.between(1, 3) {
        let template = scene.random.pick(&templates);
        scene.learn(recipe::generate(template));
    }
    let tries = match scene.random.below(30) {
        0 => 80,
        _ => scene.random.between(2, 12),
    };
    let careless = scene.random.chance(12);
    for _ in 0..tries {
        let candidates = if scene.random.chance(25) {
            matching_pair(&mut scene.random, &templates)
        } else {
            vec![any_recipe(&mut scene.random, &templates)]
        };
        for candidate in candidates {
            let keep = careless || is_accepted(scene, &candidate);
            if keep && scene.has_room_for_command() {
                scene.learn(candidate);
            }
        }
    }
}

/// Two commands of which one undoes what the other does.
fn matching_pair(random: &mut Random, templates: &[u8]) -> Vec<Recipe> {
    let template = random.pick(templates);
    let part = template & random.pick(&[4, 8, 16, 63]);
    let seed = seed_attributes(random);
    match random.below(6) {
        0 | 1 => vec![recipe::encrypt(4), recipe::decrypt(8)],
        2 | 3 => vec![recipe::wrap(part, 16), recipe::unwrap(32, template)],
        4 => vec![
            recipe::encrypt_diversified(seed, 0),
            recipe::decrypt_diversified(seed, 0),
        ],
        _ => vec![
            recipe::wrap_diversified(part, seed, 1),
            recipe::unwrap_diversified(seed, 1, template),
        ],
    }
}

/// What is asked of a key to derive from it: where keys of one role are about,
/// only both roles tell a seed.
fn seed_attributes(random: &mut Random) -> u8 {
    random.pick(&[3, 20, 40, 60, 63])
}

/// Asks the checker itself about this one command under the scene's policy.
fn is_accepted(scene: &Scene, candidate: &Recipe) -> bool {
    let policy = scene.frames().swap_remove(0);
    let text = text_of(&[policy, command_frame(candidate)]);
    parse(&text).is_ok_and(|file| verdict(&file).number == 0)
}

/// A command of some use over these templates, of which there is at least one.
pub fn any_recipe(random: &mut Random, templates: &[u8]) -> Recipe {
    let first = random.pick(templates);
    let second = random.pick(templates);
    // What is asked of a key is mostly one role; sometimes more of a template.
    let part = first & random.pick(&[4, 8, 12, 63]);
    let extra = if random.chance(15) { second & 35 } else { 0 };
    let seed = seed_attributes(random);
    let label = random.below(2) as u8;
    match random.below(15) {
        0 => recipe::generate(first),
        1 => recipe::import(first),
        2 => recipe::encrypt(4 | extra),
        3 => recipe::decrypt(8 | extra),
        4 => recipe::wrap(part, 16 | extra),
        5 => recipe::unwrap(32 | extra, first),
        6 => recipe::copy(part, second),
        7 => recipe::read_out(part),
        8 => recipe::generate_wrapped(first, 16),
        9 | 10 => recipe::diversify(seed, label, second),
        11 => recipe::derive(label),
        12 => recipe::derive_out(part, label),
        _ => recipe::wander(random, templates),
    }
}

/// Makes some keys, so that there are handles to work with.
fn start(scene: &mut Scene, rounds: usize) {
    let templates = scene.templates();
    for _ in 0..rounds {
        let template = scene.random.pick(&templates);
        let command = recipe::generate(template);
        if scene.has_room_for_command() {
            scene.perform(command, &[]);
        }
    }
}
