//! The limits of files and of the token: the last that passes and the first
//! that doesn't.

use super::build::*;
use second::parse;

fn generating() -> Frame {
    command(0, &[[2, 0, 0, 0], [0, 0, 0, 0]])
}

fn identity() -> Frame {
    command(1, &[[0, 0, 0, 0]])
}

#[test]
fn thirty_two_commands_pass_and_one_more_does_not() {
    let mut frames = vec![policy(0, &[0])];
    frames.extend(vec![generating(); 32]);
    assert_eq!(file(&frames).commands.len(), 32);
    frames.push(generating());
    assert_eq!(refusal(&frames), (5, 33));
}

#[test]
fn sixteen_steps_pass_and_a_count_of_seventeen_is_4() {
    let with_steps = |count: usize| {
        let mut steps = vec![[2, 0, 0, 0]; count - 1];
        steps.push([0, 0, 0, 0]);
        [policy(0, &[0]), command(0, &steps)]
    };
    assert_eq!(file(&with_steps(16)).commands[0].steps.len(), 16);
    assert_eq!(refusal(&with_steps(17)), (4, 1));
    let mut only_counted = with_steps(16);
    only_counted[1][2] = 17;
    assert_eq!(refusal(&only_counted), (4, 1));
}

#[test]
fn a_thousand_and_twenty_four_lines_pass_and_one_more_does_not() {
    let mut frames = vec![policy(0, &[])];
    frames.extend(vec![line(1, 0, &[constant(0), constant(0)]); 1_024]);
    let run = run_of(&frames);
    assert_eq!((run.outcomes.len(), run.rows.len()), (1_024, 2));
    frames.push(line(1, 0, &[constant(0), constant(0)]));
    assert_eq!(refusal(&frames), (5, 1_025));
}

#[test]
fn the_last_line_may_name_the_line_before_it() {
    let mut frames = vec![policy(0, &[])];
    frames.extend(vec![line(1, 0, &[constant(0), constant(0)]); 1_023]);
    frames.push(line(1, 0, &[1_022, 0]));
    assert_eq!(run_of(&frames).rows.len(), 3);
    frames.pop();
    frames.push(line(1, 0, &[1_023, 0]));
    assert_eq!(refusal(&frames), (6, 1_024));
}

/// No lawful file is as long as the limit, so at the limit another refusal
/// shows, and one byte beyond it number 1.
#[test]
fn the_length_of_the_input() {
    let mut frames = vec![policy(0, &[0])];
    frames.extend(vec![generating(); 33]);
    let mut input = text(&frames);
    input.resize(32_768, b'0');
    assert_eq!(refusal_of_text(&input), (5, 33));
    input.push(b'\n');
    assert_eq!(refusal_of_text(&input), (1, 0));
    assert_eq!(refusal_of_text(&vec![b'x'; 32_768]), (2, 0));
    assert_eq!(refusal_of_text(&vec![b'x'; 32_769]), (1, 0));
}

#[test]
fn the_longest_lawful_file_passes() {
    let mut steps = vec![[2, 0, 0, 0]; 15];
    steps.push([0, 0, 0, 0]);
    let mut frames = vec![policy(0, &[0])];
    frames.extend(vec![command(4, &steps); 32]);
    frames.extend(vec![call(31, &[constant(0); 4]); 1_024]);
    let input = text(&frames);
    assert_eq!(input.len(), 29_941);
    assert!(parse(&input).is_ok());
}

#[test]
fn two_hundred_and_fifty_six_keys_pass_and_one_more_ends_the_run() {
    let mut frames = vec![policy(0, &[0]), generating()];
    frames.extend(vec![call(0, &[]); 256]);
    let whole = run_of(&frames);
    assert_eq!((whole.ending, whole.place), (0, 0));
    assert_eq!((whole.keys.len(), whole.rows.len()), (256, 512));
    frames.push(call(0, &[]));
    let ended = run_of(&frames);
    assert_eq!((ended.ending, ended.place), (33, 256));
    assert_eq!(ended.outcomes, whole.outcomes);
    assert_eq!((ended.rows, ended.keys), (whole.rows, whole.keys));
}

/// 819 calls of five new rows each and one of one: 4,096 rows.
fn full_of_rows() -> Vec<Frame> {
    let chain = command(
        1,
        &[
            [4, 0, 0, 0],
            [4, 1, 0, 0],
            [4, 2, 0, 0],
            [4, 3, 0, 0],
            [0, 4, 0, 0],
        ],
    );
    let mut frames = vec![policy(0, &[]), chain, identity()];
    frames.extend((0..819).map(|number| call(0, &[constant(number)])));
    frames.push(call(1, &[constant(819)]));
    frames
}

#[test]
fn four_thousand_and_ninety_six_rows_pass_and_one_more_ends_the_run() {
    let mut frames = full_of_rows();
    let whole = run_of(&frames);
    assert_eq!((whole.ending, whole.rows.len()), (0, 4_096));
    // A value that is there already needs no room.
    frames.push(call(1, &[constant(0)]));
    frames.push(call(1, &[constant(820)]));
    let ended = run_of(&frames);
    assert_eq!((ended.ending, ended.place), (32, 821));
    assert_eq!(ended.outcomes.len(), 821);
    assert_eq!(ended.rows, whole.rows);
}

#[test]
fn a_step_can_need_the_row_too_many() {
    let mut frames = full_of_rows();
    frames.push(line(1, 0, &[constant(1), constant(0)]));
    let ended = run_of(&frames);
    assert_eq!((ended.ending, ended.place), (32, 820));
}
