//! The readings taken where the documents could be understood in two ways, and
//! the rules of runs that are easy to get wrong.

use super::build::*;
use second::run;
use second::token::StoredKey;
use second::token::Value::{Const, Enc, Fresh};

const RETURN_FIRST: [u8; 4] = [0, 0, 0, 0];

fn generating(template: u8) -> Frame {
    command(0, &[[2, 0, 0, template], RETURN_FIRST])
}

fn storing(template: u8) -> Frame {
    command(1, &[[3, 0, 0, template], [0, 1, 0, 0]])
}

fn getting(attributes: u8) -> Frame {
    command(1, &[[1, 0, 0, attributes], [0, 1, 0, 0]])
}

fn identity() -> Frame {
    command(1, &[RETURN_FIRST])
}

#[test]
fn within_a_frame_the_lowest_number_wins() {
    // A 4 in a later step beats a 6 in an earlier one.
    let both = command(0, &[[0, 0, 0, 0], [9, 0, 0, 0]]);
    assert_eq!(refusal(&[policy(0, &[]), both]), (4, 1));
    let six_then_four = command(0, &[[1, 9, 0, 0], [2, 0, 0, 64], [0, 0, 0, 0]]);
    assert_eq!(refusal(&[policy(0, &[]), six_then_four]), (4, 1));
    // r out of range and A without S.
    assert_eq!(refusal(&[policy(6, &[2])]), (4, 0));
    // The place goes before all fields.
    assert_eq!(refusal(&[policy(0, &[]), vec![1]]), (3, 1));
    // A line with a bad count and a bad name.
    let line = line(1, 0, &[0x7fff]);
    assert_eq!(refusal(&[policy(0, &[]), line]), (4, 1));
}

#[test]
fn the_33rd_command_is_judged_as_a_whole() {
    let mut frames = vec![policy(0, &[0])];
    frames.extend(vec![identity(); 32]);
    let mut with_last = |last: Frame| {
        frames.truncate(33);
        frames.push(last);
        refusal(&frames)
    };
    assert_eq!(with_last(vec![2, 0, 0]), (4, 33));
    assert_eq!(with_last(command(0, &[RETURN_FIRST])), (5, 33));
    assert_eq!(with_last(identity()), (5, 33));
    assert_eq!(with_last(vec![9]), (3, 33));
}

#[test]
fn the_1025th_line_is_judged_as_a_whole() {
    let mut frames = vec![policy(0, &[])];
    frames.extend(vec![line(1, 0, &[constant(0), constant(0)]); 1_024]);
    let mut with_last = |last: Frame| {
        frames.truncate(1_025);
        frames.push(last);
        refusal(&frames)
    };
    assert_eq!(with_last(line(3, 0, &[])), (4, 1_025));
    assert_eq!(with_last(call(0, &[])), (5, 1_025));
    assert_eq!(with_last(identity()), (3, 1_025));
}

#[test]
fn an_earlier_frame_comes_first() {
    let mut input = text(&[policy(0, &[2])]);
    input.extend(b"xx\n");
    assert_eq!(refusal_of_text(&input), (7, 0));
    let mut input = text(&[policy(0, &[]), call(0, &[])]);
    input.extend(b"\n");
    assert_eq!(refusal_of_text(&input), (6, 1));
}

#[test]
fn rows_are_numbered_by_arguments_then_steps() {
    let command = command(2, &[[2, 0, 0, 1], [4, 1, 0, 0], [0, 3, 0, 0]]);
    let run = run_of(&[
        policy(0, &[]),
        command,
        call(0, &[constant(7), constant(6)]),
    ]);
    let expected = [Const(7), Const(6), Fresh(0), Fresh(1), Enc(1, 0)];
    assert_eq!(run.rows, expected);
    let stored = StoredKey {
        handle: 2,
        key: 3,
        template: 1,
    };
    assert_eq!(run.keys, [stored]);
}

#[test]
fn a_stop_undoes_the_whole_line() {
    let failing = command(
        2,
        &[
            [2, 0, 0, 3],
            [3, 0, 0, 3],
            [4, 0, 0, 0],
            [1, 1, 0, 0],
            [0, 2, 0, 0],
        ],
    );
    let with_stop = run_of(&[
        policy(0, &[]),
        failing,
        generating(0),
        call(0, &[constant(1), constant(2)]),
        call(1, &[]),
        line(1, 0, &[constant(2), constant(1)]),
    ]);
    assert_eq!(rows_of_lines(&with_stop), [None, Some(0), Some(4)]);
    assert_eq!(key_counts(&with_stop), [0, 1, 1]);
    assert_eq!(marks(&with_stop), [false; 3]);
    let expected = [Fresh(0), Fresh(1), Const(2), Const(1), Enc(2, 3)];
    assert_eq!(with_stop.rows, expected);
}

/// The guard goes with the line that stopped: the constant is free again.
#[test]
fn a_stop_undoes_guards_on_older_values() {
    let failing = command(1, &[[3, 0, 0, 3], [1, 0, 0, 0], RETURN_FIRST]);
    let run = run_of(&[
        policy(0, &[]),
        failing,
        identity(),
        call(1, &[constant(1)]),
        call(0, &[constant(1)]),
        call(1, &[constant(1)]),
    ]);
    assert_eq!(rows_of_lines(&run), [Some(0), None, Some(0)]);
    assert_eq!(run.first_breached, None);
}

#[test]
fn a_line_that_names_a_stopped_line_stops() {
    let run = run_of(&[
        policy(0, &[]),
        getting(0),
        command(2, &[RETURN_FIRST]),
        call(0, &[constant(0)]),
        call(1, &[constant(0), 0]),
        line(1, 0, &[constant(0), 1]),
        call(1, &[constant(0), constant(3)]),
    ]);
    assert_eq!(rows_of_lines(&run), [None, None, None, Some(0)]);
    assert_eq!(run.rows, [Const(0), Const(3)]);
}

#[test]
fn get_needs_a_handle_and_all_the_attributes() {
    let run = run_of(&[
        policy(0, &[]),
        generating(12),
        getting(4),
        getting(13),
        getting(0),
        call(0, &[]),
        call(1, &[0]),
        call(2, &[0]),
        call(3, &[1]),
    ]);
    assert_eq!(rows_of_lines(&run), [Some(0), Some(1), None, None]);
}

/// A command that makes a key and never looks at its two arguments.
#[test]
fn arguments_come_before_steps() {
    let unlooking = command(2, &[[2, 0, 0, 0], [0, 2, 0, 0]]);
    let called = [
        policy(0, &[]),
        unlooking,
        call(0, &[constant(0), constant(1)]),
    ];
    let called = file(&called);
    // The second constant needs the row too many before a key is asked for.
    assert_eq!(run(&called, 1, 0).ending, 32);
    assert_eq!(run(&called, 2, 0).ending, 33);
    assert_eq!(run(&called, 3, 1).ending, 32);
    assert_eq!(run(&called, 4, 1).ending, 0);
}

#[test]
fn a_full_row_before_a_stopped_name_ends_the_run() {
    let frames = [
        policy(0, &[]),
        getting(0),
        identity(),
        call(1, &[constant(0)]),
        call(0, &[0]),
        line(1, 0, &[constant(1), 1]),
    ];
    let ended = run(&file(&frames), 1, 0);
    assert_eq!((ended.ending, ended.place), (32, 2));
    let mut swapped = frames.clone();
    swapped[5] = line(1, 0, &[1, constant(1)]);
    let whole = run(&file(&swapped), 1, 0);
    assert_eq!(rows_of_lines(&whole), [Some(0), None, None]);
}

#[test]
fn at_a_storing_step_33_comes_before_32() {
    let generated = file(&[policy(0, &[]), generating(0), call(0, &[])]);
    let ending = |rows, keys| run(&generated, rows, keys).ending;
    assert_eq!(ending(0, 0), 33);
    assert_eq!(ending(0, 1), 32);
    assert_eq!(ending(1, 1), 32);
    assert_eq!(ending(1, 0), 33);
    assert_eq!(ending(2, 1), 0);
    let stored = file(&[policy(0, &[]), storing(0), call(0, &[constant(0)])]);
    let ending = |rows, keys| run(&stored, rows, keys).ending;
    assert_eq!(ending(0, 0), 32); // The argument comes before the step.
    assert_eq!(ending(1, 0), 33);
    assert_eq!(ending(1, 1), 32);
    assert_eq!(ending(2, 1), 0);
}

/// 256 keys and 4,096 rows at once: the storing line ends with 33.
#[test]
fn full_rows_and_full_keys() {
    // Sixteen new rows a call: the argument's and fifteen encryptions.
    let mut steps: Vec<[u8; 4]> = (0..15).map(|value| [4, value, 0, 0]).collect();
    steps.push([0, 15, 0, 0]);
    let mut frames = vec![
        policy(0, &[]),
        generating(0),
        command(1, &steps),
        identity(),
    ];
    frames.extend(vec![call(0, &[]); 256]);
    frames.extend((0..224).map(|number| call(1, &[constant(number)])));
    let whole = run_of(&frames);
    assert_eq!((whole.rows.len(), whole.keys.len()), (4_096, 256));
    frames.push(call(0, &[]));
    assert_eq!(run_of(&frames).ending, 33);
    frames.pop();
    frames.push(call(2, &[constant(300)]));
    assert_eq!(run_of(&frames).ending, 32);
}

#[test]
fn an_ended_line_leaves_nothing() {
    let keeping = command(1, &[[3, 0, 0, 3], [3, 0, 0, 0], RETURN_FIRST]);
    let frames = [
        policy(0, &[]),
        identity(),
        keeping,
        call(0, &[constant(1)]),
        call(1, &[constant(1)]),
    ];
    let ended = run(&file(&frames), 9, 1);
    assert_eq!((ended.ending, ended.place), (33, 1));
    assert_eq!(ended.first_breached, None);
    assert_eq!((ended.rows.len(), ended.keys.len()), (1, 0));
}

#[test]
fn what_is_a_breach_and_what_is_not() {
    let marks_of_store = |template, value: u16| {
        let frames = [
            policy(0, &[]),
            generating(1),
            storing(template),
            call(0, &[]),
            call(1, &[value]),
        ];
        marks(&run_of(&frames))
    };
    // An imported key that the attacker knows, with S and without A.
    assert_eq!(marks_of_store(1, constant(5)), [false, false]);
    // The same with A, with or without S; and a handle that was shown.
    assert_eq!(marks_of_store(3, constant(5)), [false, true]);
    assert_eq!(marks_of_store(2, constant(5)), [false, true]);
    assert_eq!(marks_of_store(2, 0), [false, true]);
    assert_eq!(marks_of_store(0, 0), [false, false]);
}

#[test]
fn a_key_generated_without_s_and_a_is_not_guarded() {
    let reading = |template| {
        let frames = [
            policy(0, &[]),
            generating(template),
            getting(0),
            call(0, &[]),
            call(1, &[0]),
        ];
        marks(&run_of(&frames))
    };
    assert_eq!(reading(0), [false, false]);
    assert_eq!(reading(1), [false, true]);
    assert_eq!(reading(2), [false, true]);
    assert_eq!(reading(60), [false, false]);
}

#[test]
fn a_breach_stays_and_a_stopped_line_shows_it() {
    let frames = [
        policy(0, &[]),
        storing(3),
        getting(63),
        call(0, &[constant(0)]),
        call(1, &[0]),
        line(1, 0, &[constant(1), constant(1)]),
    ];
    let run = run_of(&frames);
    assert_eq!(marks(&run), [true; 3]);
    assert_eq!(rows_of_lines(&run), [Some(1), None, Some(3)]);
    assert_eq!(run.first_breached, Some(0));
}

/// Stored under A after it was in hand: a breach although it was made by the
/// token and never guarded before.
#[test]
fn a_value_guarded_after_it_was_shown_is_a_breach() {
    let frames = [
        policy(0, &[]),
        generating(0),
        getting(0),
        storing(15),
        call(0, &[]),
        call(1, &[0]),
        call(2, &[1]),
    ];
    assert_eq!(marks(&run_of(&frames)), [false, false, true]);
}
