//! Each read refusal, for each reason that the documents name.

use super::build::*;

fn plain_policy() -> Frame {
    policy(0, &[0])
}

fn identity() -> Frame {
    command(1, &[[0, 0, 0, 0]])
}

/// The refusal of a file of the plain policy and this frame.
fn refusal_after_policy(frame: &[u8]) -> (u8, usize) {
    refusal(&[plain_policy(), frame.to_vec()])
}

#[test]
fn an_empty_policy_alone_is_a_file() {
    let file = file(&[policy(5, &[])]);
    assert_eq!(file.policy.allowed, 0);
    assert_eq!(file.policy.transported as u8, 5);
    assert!(file.commands.is_empty() && file.lines.is_empty());
}

#[test]
fn no_line_at_all_is_3() {
    assert_eq!(refusal_of_text(b""), (3, 0));
}

#[test]
fn broken_lines_are_2() {
    for input in ["\n", "0", "01", "0\n", "0g\n", "0A\n", "01\r\n", " 01\n"] {
        assert_eq!(refusal_of_text(input.as_bytes()), (2, 0), "{input:?}");
    }
    let good = "01000000000000000001\n";
    for end in ["\n", "02", "020\n", "03000000", "\n03000000\n", "\0\n"] {
        let input = format!("{good}{end}");
        assert_eq!(refusal_of_text(input.as_bytes()), (2, 1), "{end:?}");
    }
    assert_eq!(refusal_of_text(good.trim_end().as_bytes()), (2, 0));
}

#[test]
fn frames_out_of_place_are_3() {
    assert_eq!(refusal(&[identity()]), (3, 0));
    assert_eq!(refusal(&[call(0, &[])]), (3, 0));
    assert_eq!(refusal(&[vec![0]]), (3, 0));
    assert_eq!(refusal_after_policy(&plain_policy()), (3, 1));
    for kind in [0, 1, 4, 0x11, 0x41, 0xff] {
        assert_eq!(refusal_after_policy(&[kind]), (3, 1), "{kind}");
    }
    let computing = line(1, 0, &[constant(0), constant(0)]);
    let late_command = [plain_policy(), computing, vec![2]];
    assert_eq!(refusal(&late_command), (3, 2));
}

#[test]
fn broken_policies_are_4() {
    for length in 1..14 {
        let mut frame = plain_policy();
        frame.resize(length, 0);
        if length != 10 {
            assert_eq!(refusal(&[frame]), (4, 0), "length {length}");
        }
    }
    assert_eq!(refusal(&[policy(6, &[])]), (4, 0));
    assert_eq!(refusal(&[policy(255, &[])]), (4, 0));
}

#[test]
fn broken_counts_of_commands_are_4() {
    let broken: [&[u8]; 8] = [
        &[2],
        &[2, 0],
        &[2, 0, 0],
        &[2, 1, 1],
        &[2, 1, 1, 0, 0, 0],
        &[2, 1, 1, 0, 0, 0, 0, 0],
        &[2, 5, 1, 0, 0, 0, 0],
        &[2, 1, 2, 0, 0, 0, 0],
    ];
    for frame in broken {
        assert_eq!(refusal_after_policy(frame), (4, 1), "{frame:?}");
    }
}

#[test]
fn fields_that_an_op_does_not_use_are_0() {
    let broken = [
        [1, 0, 1, 0],
        [2, 1, 0, 0],
        [2, 0, 1, 0],
        [3, 0, 1, 0],
        [4, 0, 0, 1],
        [5, 0, 0, 1],
        [6, 1, 0, 0],
        [6, 0, 0, 2],
        [6, 0, 0, 255],
        [7, 0, 0, 0],
        [255, 0, 0, 0],
        [1, 0, 0, 64],
        [2, 0, 0, 64],
        [3, 0, 0, 255],
    ];
    for step in broken {
        let frame = command(4, &[step, [0, 0, 0, 0]]);
        assert_eq!(refusal_after_policy(&frame), (4, 1), "{step:?}");
    }
    for step in [[0, 0, 1, 0], [0, 0, 0, 1]] {
        assert_eq!(refusal_after_policy(&command(4, &[step])), (4, 1));
    }
}

#[test]
fn return_is_last_and_only_last() {
    let missing = command(1, &[[2, 0, 0, 0]]);
    let early = command(1, &[[0, 0, 0, 0], [2, 0, 0, 0]]);
    let twice = command(1, &[[0, 0, 0, 0], [0, 0, 0, 0]]);
    for frame in [missing, early, twice] {
        assert_eq!(refusal_after_policy(&frame), (4, 1), "{frame:?}");
    }
}

#[test]
fn broken_session_lines_are_4() {
    let one = constant(1);
    let mut too_long = line(1, 0, &[one, one]);
    too_long.push(0);
    let mut too_short = line(1, 0, &[one, one]);
    too_short.pop();
    let broken = [
        vec![3],
        vec![3, 0],
        vec![3, 0, 0],
        line(3, 2, &[one]),
        line(3, 255, &[one]),
        line(3, 0, &[]),
        line(3, 0, &[one, one]),
        line(4, 0, &[one]),
        line(255, 0, &[one, one]),
        line(0, 0, &[one; 5]),
        line(1, 1, &[one, one]),
        line(2, 1, &[one, one]),
        line(1, 0, &[one]),
        line(2, 0, &[one; 3]),
        too_long,
        too_short,
    ];
    for frame in broken {
        assert_eq!(refusal_after_policy(&frame), (4, 1), "{frame:?}");
    }
}

#[test]
fn steps_that_name_values_not_yet_made_are_6() {
    let unmade = [
        command(0, &[[0, 0, 0, 0]]),
        command(4, &[[0, 4, 0, 0]]),
        command(1, &[[1, 1, 0, 0], [0, 0, 0, 0]]),
        command(1, &[[3, 1, 0, 0], [0, 0, 0, 0]]),
        command(1, &[[4, 0, 1, 0], [0, 0, 0, 0]]),
        command(1, &[[4, 1, 0, 0], [0, 0, 0, 0]]),
        command(1, &[[5, 0, 1, 0], [0, 0, 0, 0]]),
        command(1, &[[5, 255, 0, 0], [0, 0, 0, 0]]),
        command(1, &[[6, 0, 1, 0], [0, 0, 0, 0]]),
        command(0, &[[6, 0, 0, 1], [0, 0, 0, 0]]),
        command(1, &[[2, 0, 0, 0], [0, 2, 0, 0]]),
    ];
    for frame in unmade {
        assert_eq!(refusal_after_policy(&frame), (6, 1), "{frame:?}");
    }
}

#[test]
fn lines_that_name_what_is_not_there_are_6() {
    let absent = [
        call(1, &[constant(0)]),
        call(32, &[constant(0)]),
        call(255, &[]),
        call(0, &[]),
        call(0, &[constant(0), constant(0)]),
        call(0, &[0]),
        line(1, 0, &[constant(0), 0]),
        line(2, 0, &[0x7fff, constant(0)]),
        line(3, 1, &[0]),
        line(3, 0, &[0x4000]),
    ];
    for frame in absent {
        let frames = [plain_policy(), identity(), frame];
        assert_eq!(refusal(&frames), (6, 2), "{:?}", frames[2]);
    }
    assert_eq!(refusal_after_policy(&call(0, &[])), (6, 1));
}

#[test]
fn each_template_with_a_and_without_s_is_7() {
    for template in 0..64 {
        let frames = [policy(0, &[template])];
        if template & 3 == 2 {
            assert_eq!(refusal(&frames), (7, 0), "template {template}");
        } else {
            assert_eq!(file(&frames).policy.allowed, 1 << template);
        }
    }
}
