//! Derived keys: how they are read, typed and made, each case worked out by
//! hand.

use super::build::*;
use second::run;
use second::token::Value::{Const, Dec, Div, Fresh};

const RETURN_FIRST: [u8; 4] = [0, 0, 0, 0];
/// Templates: 63 and 3 are Seed, 15 TData, 51 Wrap, 13 Data, 25 Any, 0 Un.
const SEEDS_AND_KEYS: [u8; 4] = [13, 15, 51, 63];
/// Of these templates only 63 has both roles.
const BOTH_ROLES: u8 = 20;

/// Derives from its argument under the label and returns that.
fn deriving(label: u8) -> Frame {
    command(1, &[[6, 0, 0, label], [0, 1, 0, 0]])
}

/// Derives from a key got with the attributes, and stores that.
fn diversifying(attributes: u8, label: u8, template: u8) -> Frame {
    let steps = [
        [1, 0, 0, attributes],
        [6, 0, 1, label],
        [3, 2, 0, template],
        [0, 3, 0, 0],
    ];
    command(1, &steps)
}

#[test]
fn a_derive_step_and_a_derive_line_are_read() {
    for label in [0, 1] {
        let own = line(3, label, &[constant(5)]);
        let whole = file(&[policy(0, &[]), deriving(label), own]);
        assert_eq!((whole.commands.len(), whole.lines.len()), (1, 1));
    }
}

#[test]
fn a_label_above_1_is_4_before_a_missing_name() {
    let step = command(0, &[[6, 0, 9, 2], RETURN_FIRST]);
    assert_eq!(refusal(&[policy(0, &[]), step]), (4, 1));
    let own = line(3, 2, &[0x7fff]);
    assert_eq!(refusal(&[policy(0, &[]), own]), (4, 1));
}

#[test]
fn a_seed_gives_a_data_key_and_a_wrapping_key() {
    let stored = |label, template| {
        let frame = diversifying(BOTH_ROLES, label, template);
        verdict_of(&[policy(2, &SEEDS_AND_KEYS), frame])
    };
    assert_eq!(stored(0, 15), (0, 0, 0));
    assert_eq!(stored(1, 51), (0, 0, 0));
    // TData is below Data, Wrap is not; neither is below the other.
    assert_eq!(stored(0, 13), (0, 0, 0));
    assert_eq!(stored(1, 13), (20, 1, 2));
    assert_eq!(stored(0, 51), (20, 1, 2));
    assert_eq!(stored(1, 15), (20, 1, 2));
    assert_eq!(stored(0, 63), (20, 1, 2));
    // The policy is asked before the order.
    assert_eq!(stored(1, 7), (16, 1, 2));
}

/// What it is judged to derive from a key of this template and to return that.
fn derived_out(template: u8, label: u8) -> (u8, usize, usize) {
    let steps = [[1, 0, 0, template], [6, 0, 1, label], [0, 2, 0, 0]];
    verdict_of(&[policy(0, &[template]), command(1, &steps)])
}

#[test]
fn deriving_from_each_type() {
    for label in [0, 1] {
        for public in [0, 12, 60] {
            assert_eq!(derived_out(public, label), (0, 0, 0), "{public}");
        }
        for seed in [3, 23, 63] {
            assert_eq!(derived_out(seed, label), (21, 1, 2), "{seed}");
        }
        // TData, Data, Wrap and Any.
        for other in [15, 13, 51, 1, 25] {
            assert_eq!(derived_out(other, label), (23, 1, 1), "{other}");
        }
    }
}

#[test]
fn a_key_that_may_be_no_seed_is_23() {
    // Templates 63 and 15 both have E: their join is Any.
    let frame = diversifying(4, 0, 15);
    assert_eq!(verdict_of(&[policy(2, &[15, 63]), frame]), (23, 1, 1));
    // So is the join of a seed and a public key.
    let frame = diversifying(0, 0, 15);
    assert_eq!(verdict_of(&[policy(2, &[0, 3, 15]), frame]), (23, 1, 1));
}

#[test]
fn a_derived_key_is_no_seed() {
    let steps = [
        [1, 0, 0, BOTH_ROLES],
        [6, 0, 1, 0],
        [6, 0, 2, 0],
        RETURN_FIRST,
    ];
    let again = |label| {
        let mut steps = steps;
        steps[1][3] = label;
        verdict_of(&[policy(2, &[63]), command(1, &steps)])
    };
    assert_eq!(again(0), (23, 1, 2));
    assert_eq!(again(1), (23, 1, 2));
}

#[test]
fn what_is_derived_from_public_values_is_public() {
    for label in [0, 1] {
        assert_eq!(verdict_of(&[policy(0, &[]), deriving(label)]), (0, 0, 0));
        let steps = [
            [6, 0, 0, label],
            [6, 0, 1, label],
            [4, 1, 2, 0],
            [0, 3, 0, 0],
        ];
        let frames = [policy(0, &[]), command(1, &steps)];
        assert_eq!(verdict_of(&frames), (0, 0, 0));
        let stored = |template| {
            let steps = [[6, 0, 0, label], [3, 1, 0, template], RETURN_FIRST];
            verdict_of(&[policy(0, &[template]), command(1, &steps)])
        };
        assert_eq!(stored(0), (0, 0, 0));
        assert_eq!(stored(15), (20, 1, 1));
        assert_eq!(stored(51), (20, 1, 1));
    }
}

/// A key of the file's only template, a seed, and this op between a public
/// value and what is derived from the seed.
fn used(transported: u8, label: u8, op: u8) -> (u8, usize, usize) {
    let steps = [[1, 1, 0, 3], [6, 0, 2, label], [op, 0, 3, 0], [0, 4, 0, 0]];
    verdict_of(&[policy(transported, &[3]), command(2, &steps)])
}

#[test]
fn derived_keys_are_used_by_their_types() {
    // Under TData public values are encrypted and decrypted, whatever r is.
    for transported in 0..6 {
        assert_eq!(used(transported, 0, 4), (0, 0, 0));
        assert_eq!(used(transported, 0, 5), (0, 0, 0));
    }
    // Under Wrap, what is below r; and r comes out.
    assert_eq!(used(0, 1, 4), (0, 0, 0));
    assert_eq!(used(1, 1, 4), (18, 1, 2));
    assert_eq!(used(2, 1, 4), (0, 0, 0));
    assert_eq!(used(0, 1, 5), (0, 0, 0));
    assert_eq!(used(2, 1, 5), (21, 1, 3));
}

#[test]
fn the_same_label_and_value_have_one_row() {
    let run = run_of(&[
        policy(0, &[]),
        deriving(1),
        line(3, 0, &[constant(5)]),
        line(3, 1, &[constant(5)]),
        line(3, 0, &[constant(5)]),
        call(0, &[constant(5)]),
        line(3, 0, &[constant(6)]),
        line(3, 0, &[0]),
    ]);
    let expected = [1, 2, 1, 2, 4, 5].map(Some);
    assert_eq!(rows_of_lines(&run), expected);
    let expected = [
        Const(5),
        Div(0, 0),
        Div(1, 0),
        Const(6),
        Div(0, 3),
        Div(0, 1),
    ];
    assert_eq!(run.rows, expected);
}

#[test]
fn nothing_undoes_a_derivation() {
    let run = run_of(&[
        policy(0, &[]),
        line(3, 1, &[constant(5)]),
        line(2, 0, &[0, constant(5)]),
        line(2, 0, &[0, 0]),
    ]);
    let expected = [Const(5), Div(1, 0), Dec(1, 0), Dec(1, 1)];
    assert_eq!(run.rows, expected);
}

#[test]
fn a_derivation_from_a_stopped_line_stops() {
    let getting = command(1, &[[1, 0, 0, 0], RETURN_FIRST]);
    let run = run_of(&[
        policy(0, &[]),
        getting,
        call(0, &[constant(1)]),
        line(3, 0, &[0]),
        line(3, 0, &[constant(2)]),
    ]);
    assert_eq!(rows_of_lines(&run), [None, None, Some(1)]);
    assert_eq!(run.rows, [Const(2), Div(0, 0)]);
}

#[test]
fn a_stop_undoes_derivations() {
    let failing = command(1, &[[6, 0, 0, 0], [1, 1, 0, 0], RETURN_FIRST]);
    let run = run_of(&[
        policy(0, &[]),
        failing,
        call(0, &[constant(1)]),
        line(3, 1, &[constant(1)]),
        line(3, 0, &[constant(1)]),
    ]);
    assert_eq!(rows_of_lines(&run), [None, Some(1), Some(2)]);
    assert_eq!(run.rows, [Const(1), Div(1, 0), Div(0, 0)]);
}

#[test]
fn a_derivation_needs_a_row() {
    let own = file(&[policy(0, &[]), line(3, 0, &[constant(1)])]);
    let called = file(&[policy(0, &[]), deriving(0), call(0, &[constant(1)])]);
    for whole in [own, called] {
        assert_eq!(run(&whole, 1, 0).ending, 32);
        assert_eq!(run(&whole, 2, 0).ending, 0);
    }
}

/// What the token derived from a public value and keeps as always sensitive is
/// breached once the attacker derives it under the same label.
#[test]
fn a_guarded_derivation_is_breached_by_deriving_it() {
    let keeping = command(1, &[[6, 0, 0, 0], [3, 1, 0, 15], [0, 2, 0, 0]]);
    let run = run_of(&[
        policy(0, &[15]),
        keeping,
        call(0, &[constant(5)]),
        line(3, 1, &[constant(5)]),
        line(3, 0, &[constant(5)]),
    ]);
    assert_eq!(marks(&run), [false, false, true]);
    assert_eq!(run.rows, [Const(5), Div(0, 0), Fresh(0), Div(1, 0)]);
}

/// A seed that comes out brings along all that was derived from it.
#[test]
fn a_seed_that_is_not_guarded_gives_its_keys_away() {
    let run = run_of(&[
        policy(0, &[]),
        command(0, &[[2, 0, 0, 60], RETURN_FIRST]),
        diversifying(60, 1, 51),
        command(1, &[[1, 0, 0, 60], [0, 1, 0, 0]]),
        call(0, &[]),
        call(1, &[0]),
        call(2, &[0]),
        line(3, 0, &[2]),
        line(3, 1, &[2]),
    ]);
    assert_eq!(marks(&run), [false, false, false, false, true]);
    assert_eq!(rows_of_lines(&run), [0, 3, 1, 4, 2].map(Some));
    let expected = [Fresh(0), Fresh(1), Div(1, 1), Fresh(2), Div(0, 1)];
    assert_eq!(run.rows, expected);
}
