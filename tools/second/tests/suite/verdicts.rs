//! Each verdict refusal, the order in which a step is checked, and the rules
//! of typing.

use super::build::*;

const RETURN_FIRST: [u8; 4] = [0, 0, 0, 0];

#[test]
fn a_file_without_commands_is_accepted() {
    assert_eq!(verdict_of(&[policy(3, &[51])]), (0, 0, 0));
}

#[test]
fn templates_that_are_not_allowed_are_16() {
    let generating = command(1, &[[2, 0, 0, 13], RETURN_FIRST]);
    let storing = command(1, &[[3, 0, 0, 13], RETURN_FIRST]);
    let allowed = policy(0, &[0, 13]);
    let other = policy(0, &[0, 15]);
    assert_eq!(
        verdict_of(&[allowed.clone(), generating.clone()]),
        (0, 0, 0)
    );
    assert_eq!(verdict_of(&[allowed, storing.clone()]), (0, 0, 0));
    assert_eq!(verdict_of(&[other.clone(), generating]), (16, 1, 0));
    assert_eq!(verdict_of(&[other, storing]), (16, 1, 0));
}

#[test]
fn a_get_that_no_allowed_template_serves_is_17() {
    let getting = command(1, &[[1, 0, 0, 20], RETURN_FIRST]);
    assert_eq!(
        verdict_of(&[policy(0, &[4, 16]), getting.clone()]),
        (17, 1, 0)
    );
    assert_eq!(verdict_of(&[policy(0, &[52]), getting.clone()]), (0, 0, 0));
    assert_eq!(verdict_of(&[policy(0, &[]), getting]), (17, 1, 0));
}

/// What an encryption is judged, for a value got with one attribute and a key
/// got with another.
fn encryption(transported: u8, templates: &[u8], value: u8, key: u8) -> u8 {
    let steps = [[1, 0, 0, value], [1, 0, 0, key], [4, 1, 2, 0], RETURN_FIRST];
    verdict_of(&[policy(transported, templates), command(1, &steps)]).0
}

#[test]
fn encryption_under_each_type_of_key() {
    // Template 32 is Un; 12 Un, 13 Data, 15 TData, 19 Wrap, 3 and 63 Seed, 1 Any.
    assert_eq!(encryption(0, &[32, 12], 32, 4), 0);
    assert_eq!(encryption(0, &[32, 13], 32, 4), 0);
    assert_eq!(encryption(0, &[32, 15], 32, 4), 0);
    assert_eq!(encryption(0, &[32, 19], 32, 16), 0);
    assert_eq!(encryption(0, &[32, 7 | 16], 32, 4), 18);
    assert_eq!(encryption(0, &[32, 5 | 16], 32, 4), 18);
    assert_eq!(encryption(5, &[13], 8, 4), 18);
    assert_eq!(encryption(5, &[15], 8, 4), 18);
}

#[test]
fn a_wrapping_key_encrypts_what_is_below_r() {
    let below = |transported| encryption(transported, &[15, 19], 4, 16) == 0;
    let passing: Vec<u8> = (0..6).filter(|&r| below(r)).collect();
    assert_eq!(passing, [1, 2, 5]);
    let wrapping_itself = |transported| encryption(transported, &[19], 16, 16) == 0;
    let passing: Vec<u8> = (0..6).filter(|&r| wrapping_itself(r)).collect();
    assert_eq!(passing, [3, 5]);
}

/// What a decryption is judged, for a public value and a key got with this
/// attribute, the result being returned.
fn decryption(transported: u8, template: u8, attribute: u8) -> (u8, usize, usize) {
    let steps = [[1, 0, 0, attribute], [5, 0, 1, 0], [0, 2, 0, 0]];
    verdict_of(&[policy(transported, &[template]), command(1, &steps)])
}

#[test]
fn decryption_under_each_type_of_key() {
    assert_eq!(decryption(5, 8, 8), (0, 0, 0));
    assert_eq!(decryption(5, 9, 8), (0, 0, 0));
    assert_eq!(decryption(5, 11, 8), (0, 0, 0));
    assert_eq!(decryption(0, 35, 32), (0, 0, 0));
    assert_eq!(decryption(2, 35, 32), (21, 1, 2));
    assert_eq!(decryption(0, 43, 32), (19, 1, 1));
    assert_eq!(decryption(0, 33, 32), (19, 1, 1));
}

#[test]
fn only_public_values_are_decrypted() {
    let steps = [[1, 0, 0, 8], [5, 1, 1, 0], RETURN_FIRST];
    let frames = [policy(5, &[9]), command(1, &steps)];
    assert_eq!(verdict_of(&frames), (19, 1, 1));
}

#[test]
fn storing_goes_by_the_order() {
    let copying = |from: u8, to: u8| {
        let steps = [[1, 0, 0, from], [3, 1, 0, to], RETURN_FIRST];
        verdict_of(&[policy(0, &[from, to]), command(1, &steps)]).0
    };
    // Both contain 12, so a get with 12 has their join, Data.
    assert_eq!(copying(12, 13), 0);
    for (from, to) in [(15, 13), (51, 1), (63, 25), (51, 51)] {
        assert_eq!(copying(from, to), 0, "{from} to {to}");
    }
    for (from, to) in [(13, 12), (13, 15), (51, 13), (63, 51), (25, 13)] {
        assert_eq!(copying(from, to), 20, "{from} to {to}");
    }
    let importing = |template: u8| {
        let frame = command(1, &[[3, 0, 0, template], RETURN_FIRST]);
        verdict_of(&[policy(0, &[template]), frame])
    };
    assert_eq!(importing(0), (0, 0, 0));
    assert_eq!(importing(13), (0, 0, 0));
    assert_eq!(importing(25), (0, 0, 0));
    for refused in [3, 15, 51] {
        assert_eq!(importing(refused), (20, 1, 0));
    }
}

#[test]
fn returning_anything_but_un_is_21() {
    for (template, number) in [(0, 0), (1, 21), (3, 21), (13, 21), (15, 21), (51, 21)] {
        let frame = command(1, &[[1, 0, 0, 0], [0, 1, 0, 0]]);
        let verdict = verdict_of(&[policy(0, &[template]), frame]);
        assert_eq!(verdict.0, number, "template {template}");
    }
}

#[test]
fn a_get_through_a_secret_is_22_before_17() {
    let steps = |attributes| [[1, 0, 0, 1], [1, 1, 0, attributes], RETURN_FIRST];
    for attributes in [1, 32] {
        let frames = [policy(0, &[13]), command(1, &steps(attributes))];
        assert_eq!(verdict_of(&frames), (22, 1, 1));
    }
}

#[test]
fn a_store_is_16_before_20() {
    let steps = [[1, 0, 0, 1], [3, 1, 0, 15], RETURN_FIRST];
    let one = command(1, &steps);
    assert_eq!(verdict_of(&[policy(0, &[13]), one.clone()]), (16, 1, 1));
    assert_eq!(verdict_of(&[policy(0, &[13, 15]), one]), (20, 1, 1));
}

/// Typing a get by what it asks would miss template 25 here.
#[test]
fn a_get_has_the_join_of_all_templates_that_serve_it() {
    let encrypting = command(2, &[[1, 1, 0, 8], [4, 0, 2, 0], [0, 3, 0, 0]]);
    assert_eq!(
        verdict_of(&[policy(0, &[13]), encrypting.clone()]),
        (0, 0, 0)
    );
    assert_eq!(verdict_of(&[policy(0, &[13, 25]), encrypting]), (18, 1, 1));
}

#[test]
fn the_first_command_and_step_decide() {
    let good = command(1, &[RETURN_FIRST]);
    let later = command(
        1,
        &[[2, 0, 0, 0], [2, 0, 0, 1], [1, 0, 0, 32], RETURN_FIRST],
    );
    let worse = command(1, &[[2, 0, 0, 1], RETURN_FIRST]);
    let frames = [policy(0, &[0]), good, later, worse];
    assert_eq!(verdict_of(&frames), (16, 2, 1));
}

/// A handle that a step made is Un, as is a ciphertext.
#[test]
fn handles_and_ciphertexts_are_public() {
    let steps = [[2, 0, 0, 51], [1, 0, 0, 16], [4, 1, 1, 0], [0, 2, 0, 0]];
    assert_eq!(
        verdict_of(&[policy(3, &[51]), command(0, &steps)]),
        (0, 0, 0)
    );
    let handle = [[2, 0, 0, 51], [0, 0, 0, 0]];
    assert_eq!(
        verdict_of(&[policy(3, &[51]), command(0, &handle)]),
        (0, 0, 0)
    );
}
