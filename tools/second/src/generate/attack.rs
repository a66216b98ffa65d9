//! Configurations with a hole, and sessions that make use of it: each of the
//! known ways to get at a key, with variations and unrelated lines around.

use super::lawful::any_recipe;
use super::random::Random;
use super::recipe::{self, Gives, Recipe, Want};
use super::scene::{constant, Scene, DECRYPTS, ENCRYPTS};
use crate::types::UNTYPED_TEMPLATES;

type Attack = fn(&mut Scene);

const ATTACKS: [Attack; 19] = [
    wrap_then_decrypt,
    wrap_under_known_key,
    return_key,
    import_as_trusted,
    encrypt_then_unwrap,
    copy_to_weaker,
    unwrap_to_two_roles,
    use_key_as_handle,
    decrypt_under_any,
    store_shown_value,
    wrap_under_data_key,
    take_no_notice_of_policy,
    decrypt_secret,
    guard_then_stop,
    derive_from_known_seed,
    derive_from_leaked_seed,
    derive_for_two_roles,
    derive_from_other_key,
    return_derived_key,
];

/// Templates of which the attacks make use, for what else is in the file.
const USUAL: [u8; 10] = [0, 1, 3, 12, 13, 15, 25, 48, 51, 63];

pub fn scene(mut random: Random) -> Scene {
    let transported = random.below(6) as u8;
    let mut scene = Scene::new(random, transported, 0);
    if scene.random.chance(40) {
        add_noise(&mut scene);
    }
    for _ in 0..scene.random.between(1, 2) {
        let attack = scene.random.pick(&ATTACKS);
        attack(&mut scene);
    }
    if scene.random.chance(50) {
        add_noise(&mut scene);
    }
    scene
}

/// Other commands and lines, so that attacks stand in the midst of ordinary
/// use.
fn add_noise(scene: &mut Scene) {
    for _ in 0..scene.random.below(4) {
        let recipe = any_recipe(&mut scene.random, &USUAL);
        let allow = scene.random.chance(70);
        for step in &recipe.steps {
            if allow && matches!(step[0], 2 | 3) {
                scene.allowed |= 1 << step[3];
            }
        }
        scene.learn(recipe);
    }
    let length = scene.random.below(8);
    scene.wander(length);
}

/// Mostly allows the template; what isn't allowed shows as 16 or 17.
fn allow(scene: &mut Scene, template: u8) {
    if scene.random.chance(94) {
        scene.allowed |= (1 << template) & !UNTYPED_TEMPLATES;
    }
}

fn fresh_key(scene: &mut Scene, template: u8) -> u16 {
    allow(scene, template);
    scene.perform(recipe::generate(template), &[])
}

fn known_key(scene: &mut Scene, template: u8, known: u16) -> u16 {
    allow(scene, template);
    scene.perform(recipe::import(template), &[known])
}

fn some_constant(scene: &mut Scene) -> u16 {
    constant(scene.random.below(5))
}

/// A template of a key worth having.
fn secret(scene: &mut Scene) -> u8 {
    scene.random.pick(&[1, 3, 5, 13, 15, 15, 51])
}

/// A template of a key to derive from.
fn seed(scene: &mut Scene) -> u8 {
    scene.random.pick(&[3, 23, 63, 63])
}

fn some_label(scene: &mut Scene) -> u8 {
    scene.random.below(2) as u8
}

/// Mostly the template for what is derived under the label.
fn derived_template(scene: &mut Scene, label: u8) -> u8 {
    let templates = if label == 0 { [15, 7] } else { [51, 19] };
    if scene.random.chance(80) {
        scene.random.pick(&templates)
    } else {
        secret(scene)
    }
}

/// One key that wraps and decrypts.
fn wrap_then_decrypt(scene: &mut Scene) {
    let (target, both) = (secret(scene), scene.random.pick(&[24, 25, 27, 63]));
    let target = fresh_key(scene, target);
    let both = fresh_key(scene, both);
    let wrapped = scene.perform(recipe::wrap(1, 16), &[target, both]);
    scene.perform(recipe::decrypt(8), &[wrapped, both]);
}

/// A wrapping key that the attacker put there himself.
fn wrap_under_known_key(scene: &mut Scene) {
    let (target, wrapper) = (secret(scene), scene.random.pick(&[16, 17, 48, 49, 51]));
    let target = fresh_key(scene, target);
    let known = some_constant(scene);
    let wrapper = known_key(scene, wrapper, known);
    let wrapped = scene.perform(recipe::wrap(1, 16), &[target, wrapper]);
    scene.compute(DECRYPTS, wrapped, known);
}

fn return_key(scene: &mut Scene) {
    let template = secret(scene);
    let target = fresh_key(scene, template);
    let attributes = template & scene.random.byte();
    scene.perform(recipe::read_out(attributes), &[target]);
}

/// A public value becomes a key that counts as always sensitive.
fn import_as_trusted(scene: &mut Scene) {
    let template = scene.random.pick(&[2, 3, 7, 15, 51, 63]);
    let known = some_constant(scene);
    known_key(scene, template, known);
}

/// One key that encrypts and unwraps: a known value comes in as trusted.
fn encrypt_then_unwrap(scene: &mut Scene) {
    let both = scene.random.pick(&[36, 37, 39, 63]);
    let trusted = scene.random.pick(&[3, 15, 51]);
    let both = fresh_key(scene, both);
    allow(scene, trusted);
    let known = some_constant(scene);
    let forged = scene.perform(recipe::encrypt(4), &[known, both]);
    scene.perform(recipe::unwrap(32, trusted), &[forged, both]);
}

/// The key of a strong template is stored again under a weak one.
fn copy_to_weaker(scene: &mut Scene) {
    let (strong, weak) = (secret(scene), scene.random.pick(&[0, 4, 12, 48]));
    let target = fresh_key(scene, strong);
    allow(scene, weak);
    let copied = scene.perform(recipe::copy(strong & 13, weak), &[target]);
    scene.perform(recipe::read_out(weak), &[copied]);
}

/// A wrapped key comes back twice, once to wrap and once to decrypt.
fn unwrap_to_two_roles(scene: &mut Scene) {
    let target = secret(scene);
    let target = fresh_key(scene, target);
    let wrapper = fresh_key(scene, 51);
    allow(scene, 13);
    let own = scene.perform(recipe::wrap(16, 16), &[wrapper, wrapper]);
    let decrypter = scene.perform(recipe::unwrap(32, 13), &[own, wrapper]);
    let wrapped = scene.perform(recipe::wrap(1, 16), &[target, wrapper]);
    scene.perform(recipe::decrypt(8), &[wrapped, decrypter]);
}

/// A key stands where a handle should: refused by the verdict, and the call
/// stops.
fn use_key_as_handle(scene: &mut Scene) {
    let template = secret(scene);
    let target = fresh_key(scene, template);
    let attributes = scene.random.pick(&[1, template]);
    let further = scene.random.pick(&[attributes, 0, 32, 63]);
    scene.perform(recipe::get_twice(attributes, further), &[target]);
}

/// A key stands where a ciphertext should: nothing comes out, but the verdict
/// must refuse it.
fn decrypt_secret(scene: &mut Scene) {
    let template = scene.random.pick(&[8, 9, 15, 35, 51]);
    let target = fresh_key(scene, template);
    let role = template & 40;
    scene.perform(recipe::decrypt_key(role), &[target]);
}

/// A value is guarded by a call that stops afterwards. Shown again it is no
/// breach, for the guard went with the call.
fn guard_then_stop(scene: &mut Scene) {
    allow(scene, 15);
    let (one, other) = (some_constant(scene), some_constant(scene));
    let forged = scene.compute(ENCRYPTS, one, other);
    let value = scene.random.pick(&[one, forged]);
    if scene.random.chance(50) {
        scene.perform(recipe::identity(), &[value]);
    }
    scene.perform(recipe::store_then_get(15), &[value]);
    scene.perform(recipe::identity(), &[value]);
    if scene.random.chance(30) {
        known_key(scene, 15, value);
    }
}

/// A seed that the attacker put there himself: what is derived from it and
/// counts as always sensitive, he derives as well.
fn derive_from_known_seed(scene: &mut Scene) {
    let known = some_constant(scene);
    let template = scene.random.pick(&[0, 60, 63]);
    let imported = known_key(scene, template, known);
    let label = some_label(scene);
    let own = scene.derive(label, known);
    let trusted = derived_template(scene, label);
    if scene.random.chance(50) {
        allow(scene, trusted);
        scene.perform(recipe::diversify(template, label, trusted), &[imported]);
    } else {
        known_key(scene, trusted, own);
    }
}

/// The seed itself comes out, or nearly: the token shows its derivation under
/// the other label.
fn derive_from_leaked_seed(scene: &mut Scene) {
    let template = seed(scene);
    let handle = fresh_key(scene, template);
    let label = some_label(scene);
    let trusted = derived_template(scene, label);
    allow(scene, trusted);
    scene.perform(recipe::diversify(template, label, trusted), &[handle]);
    let leaked = if scene.random.chance(70) {
        scene.perform(recipe::read_out(template), &[handle])
    } else {
        scene.perform(recipe::derive_out(template, 1 - label), &[handle])
    };
    scene.derive(label, leaked);
}

/// One label for two roles: the same derived key wraps and decrypts. With two
/// labels they are two keys, and the attack comes to nothing.
fn derive_for_two_roles(scene: &mut Scene) {
    let template = seed(scene);
    let target = secret(scene);
    let handle = fresh_key(scene, template);
    let target = fresh_key(scene, target);
    let (one, other) = (some_label(scene), some_label(scene));
    allow(scene, 15);
    allow(scene, 51);
    let wrapper = scene.perform(recipe::diversify(template, one, 51), &[handle]);
    let data = scene.perform(recipe::diversify(template, other, 15), &[handle]);
    let wrapped = scene.perform(recipe::wrap(1, 16), &[target, wrapper]);
    scene.perform(recipe::decrypt(8), &[wrapped, data]);
}

/// A key that is no seed for certain, and keys derived from it.
fn derive_from_other_key(scene: &mut Scene) {
    let template = secret(scene);
    let handle = fresh_key(scene, template);
    let label = some_label(scene);
    let attributes = template & scene.random.byte();
    let value = some_constant(scene);
    match scene.random.below(3) {
        0 => {
            let trusted = derived_template(scene, label);
            allow(scene, trusted);
            scene.perform(recipe::diversify(attributes, label, trusted), &[handle])
        }
        1 => {
            let under = recipe::encrypt_diversified(attributes, label);
            scene.perform(under, &[value, handle])
        }
        _ => scene.perform(recipe::derive_out(attributes, label), &[handle]),
    };
}

/// A derived key is stored as trusted, and derived again to be given out.
fn return_derived_key(scene: &mut Scene) {
    let template = seed(scene);
    let handle = fresh_key(scene, template);
    let label = some_label(scene);
    let trusted = derived_template(scene, label);
    allow(scene, trusted);
    scene.perform(recipe::diversify(template, label, trusted), &[handle]);
    let label = some_label(scene);
    scene.perform(recipe::derive_out(template, label), &[handle]);
}

/// A key of too many roles decrypts what the attacker encrypted under it.
fn decrypt_under_any(scene: &mut Scene) {
    let both = scene.random.pick(&[25, 63, 15]);
    let key = fresh_key(scene, both);
    let value = some_constant(scene);
    let under = if scene.random.chance(50) {
        key
    } else {
        some_constant(scene)
    };
    let forged = scene.compute(ENCRYPTS, value, under);
    scene.perform(recipe::decrypt(8), &[forged, key]);
}

/// A value that the attacker has seen is stored under a template with A: a
/// handle, a ciphertext or a constant.
fn store_shown_value(scene: &mut Scene) {
    let handle = fresh_key(scene, 0);
    let value = some_constant(scene);
    let forged = scene.compute(ENCRYPTS, value, handle);
    let shown = scene.random.pick(&[handle, forged, value]);
    let template = scene.random.pick(&[2, 3, 15, 34, 51]);
    known_key(scene, template, shown);
}

/// A data key used for wrapping: what it wraps, it also decrypts.
fn wrap_under_data_key(scene: &mut Scene) {
    let (target, data) = (secret(scene), scene.random.pick(&[12, 13, 15]));
    let target = fresh_key(scene, target);
    let data = fresh_key(scene, data);
    let attributes = scene.random.pick(&[0, 1, 4]);
    let wrapped = scene.perform(recipe::wrap(attributes, 4), &[target, data]);
    scene.perform(recipe::decrypt(8), &[wrapped, data]);
}

/// Everything in one call, whatever the policy says of it.
fn take_no_notice_of_policy(scene: &mut Scene) {
    let template = scene.random.below(64) as u8;
    let steps = vec![
        recipe::make(template),
        recipe::get(1, template),
        recipe::enc(2, 0),
        recipe::dec(3, 0),
        recipe::give_back(scene.random.between(1, 4) as u8),
    ];
    let known = some_constant(scene);
    let recipe = Recipe {
        wants: vec![Want::Anything],
        steps,
        gives: Gives::Something,
    };
    scene.perform(recipe, &[known]);
}
