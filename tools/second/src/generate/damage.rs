//! Damaged files: small scenes with something wrong in their frames or in
//! their bytes, so that every read refusal occurs, alone and against others.

use super::random::Random;
use super::recipe;
use super::scene::{command_frame, text_of};
use super::small_scene;
use crate::frames::{COMMANDS_LIMIT, INPUT_LIMIT, LINES_LIMIT};

type Frames = Vec<Vec<u8>>;
type FrameDamage = fn(&mut Random, &mut Frames);
type ByteDamage = fn(&mut Random, &mut Vec<u8>);

const POLICY: u8 = 1;
const COMMAND: u8 = 2;
const LINE: u8 = 3;

const FRAME_DAMAGES: [FrameDamage; 16] = [
    swap_frames,
    repeat_frame_elsewhere,
    change_first_byte,
    change_length,
    leave_one_byte,
    change_some_byte,
    break_policy,
    allow_untyped,
    break_counts_of_command,
    break_step,
    break_return,
    name_unmade_value,
    break_line,
    name_absent,
    fill_commands,
    fill_lines,
];

const BYTE_DAMAGES: [ByteDamage; 10] = [
    |random, bytes| edit_bytes(random, bytes),
    cut_end,
    drop_last_newline,
    |random, bytes| raise_digits(random, bytes),
    insert_empty_line,
    insert_foreign_byte,
    remove_byte,
    leave_next_to_nothing,
    pad_to_limit,
    add_loose_end,
];

pub fn file(mut random: Random) -> Vec<u8> {
    let mut frames = small_scene(random.fork()).frames();
    if random.chance(65) {
        for _ in 0..random.pick(&[1, 1, 1, 2, 3]) {
            random.pick(&FRAME_DAMAGES)(&mut random, &mut frames);
        }
    }
    let mut bytes = text_of(&frames);
    if random.chance(40) {
        random.pick(&BYTE_DAMAGES)(&mut random, &mut bytes);
    }
    bytes
}

/// Some frame of this kind, if there is one.
fn frame_of<'a>(random: &mut Random, frames: &'a mut Frames, kind: u8) -> Option<&'a mut Vec<u8>> {
    let places: Vec<usize> = (0..frames.len())
        .filter(|&place| frames[place].first() == Some(&kind))
        .collect();
    let place = random.pick_any(&places)?;
    Some(&mut frames[place])
}

fn any_frame<'a>(random: &mut Random, frames: &'a mut Frames) -> &'a mut Vec<u8> {
    let place = random.below(frames.len());
    &mut frames[place]
}

fn set(frame: &mut [u8], place: usize, byte: u8) {
    if let Some(old) = frame.get_mut(place) {
        *old = byte;
    }
}

fn swap_frames(random: &mut Random, frames: &mut Frames) {
    let (one, other) = (random.below(frames.len()), random.below(frames.len()));
    frames.swap(one, other);
}

/// A second policy, or a command among the session lines.
fn repeat_frame_elsewhere(random: &mut Random, frames: &mut Frames) {
    let frame = any_frame(random, frames).clone();
    frames.insert(random.between(0, frames.len()), frame);
}

fn change_first_byte(random: &mut Random, frames: &mut Frames) {
    let byte = random.pick(&[0, 1, 2, 3, 4, 0x11, 0x21, 0x31, 0x41, 0x80, 0xff]);
    set(any_frame(random, frames), 0, byte);
}

fn change_length(random: &mut Random, frames: &mut Frames) {
    let longer = random.chance(50);
    let frame = any_frame(random, frames);
    for _ in 0..random.between(1, 4) {
        if longer {
            frame.push(random.pick(&[0, 1, 0x80]));
        } else if frame.len() > 1 {
            frame.pop();
        }
    }
}

fn leave_one_byte(random: &mut Random, frames: &mut Frames) {
    any_frame(random, frames).truncate(1);
}

fn change_some_byte(random: &mut Random, frames: &mut Frames) {
    let byte = random.byte();
    let frame = any_frame(random, frames);
    let place = random.below(frame.len());
    set(frame, place, byte);
}

fn break_policy(random: &mut Random, frames: &mut Frames) {
    let code = random.pick(&[6, 7, 0x80, 0xff]);
    if let Some(frame) = frame_of(random, frames, POLICY) {
        set(frame, 1, code);
    }
}

fn allow_untyped(random: &mut Random, frames: &mut Frames) {
    // In each half byte the third template has A and not S.
    let bit = random.pick(&[0x04, 0x40]);
    let place = random.between(2, 9);
    if let Some(old) = frame_of(random, frames, POLICY).and_then(|frame| frame.get_mut(place)) {
        *old |= bit;
    }
}

fn break_counts_of_command(random: &mut Random, frames: &mut Frames) {
    let parameters = random.pick(&[5, 6, 0xff]);
    let choice = random.below(4);
    let Some(frame) = frame_of(random, frames, COMMAND) else {
        return;
    };
    match choice {
        0 => set(frame, 1, parameters),
        1 => *frame = vec![COMMAND, 0, 0],
        2 => {
            // One step too many, and otherwise in order.
            *frame = vec![COMMAND, 0, 17];
            frame.extend(recipe::make(0).repeat(16));
            frame.extend(recipe::give_back(0));
        }
        _ => {
            let other = random.byte() % 20;
            set(frame, 2, other);
        }
    }
}

/// Changes one field of one step: an op that isn't there, a field the op does
/// not use, a template out of range.
fn break_step(random: &mut Random, frames: &mut Frames) {
    let (field, byte) = random.pick(&[
        (0, 6),
        (0, 7),
        (0, 10),
        (0, 0xff),
        (1, 1),
        (2, 1),
        (3, 1),
        (3, 2),
        (3, 64),
        (3, 0xff),
    ]);
    let Some(frame) = frame_of(random, frames, COMMAND) else {
        return;
    };
    let steps = frame.len() / 4;
    let place = 3 + 4 * random.below(steps.max(1)) + field;
    set(frame, place, byte);
}

/// Takes the return away, or puts one before the end.
fn break_return(random: &mut Random, frames: &mut Frames) {
    let early = random.chance(50);
    let Some(frame) = frame_of(random, frames, COMMAND) else {
        return;
    };
    if early && frame.len() > 7 {
        frame[3..7].copy_from_slice(&recipe::give_back(0));
    } else if frame.len() >= 7 {
        let last = frame.len() - 4;
        frame[last..].copy_from_slice(&recipe::make(0));
    }
}

/// A step that names its own value, a later one, or one that can't be. Only
/// fields in which the op names a value are changed, else the fault would be
/// another.
fn name_unmade_value(random: &mut Random, frames: &mut Frames) {
    let Some(frame) = frame_of(random, frames, COMMAND) else {
        return;
    };
    let mut naming = Vec::new();
    for (step, fields) in frame[3.min(frame.len())..].chunks_exact(4).enumerate() {
        match fields[0] {
            0 | 1 | 3 => naming.push((step, 1)),
            4 | 5 => naming.extend([(step, 1), (step, 2)]),
            6 => naming.push((step, 2)),
            _ => {}
        }
    }
    if let Some((step, field)) = random.pick_any(&naming) {
        let own = frame[1].wrapping_add(step as u8);
        let name = random.pick(&[own, own, own.wrapping_add(1), 20, 0xff]);
        set(frame, 3 + 4 * step + field, name);
    }
}

fn break_line(random: &mut Random, frames: &mut Frames) {
    let broken: [&[u8]; 12] = [
        &[LINE, 3, 0, 0],
        &[LINE, 3, 2, 1, 0x80, 0],
        &[LINE, 3, 1, 2, 0x80, 0, 0x80, 0],
        &[LINE, 3, 0, 1, 0x80],
        &[LINE, 4, 0, 1, 0x80, 0],
        &[LINE, 0xff, 0, 2, 0x80, 0, 0x80, 0],
        &[LINE, 1, 1, 2, 0x80, 0, 0x80, 0],
        &[LINE, 2, 0, 3, 0x80, 0, 0x80, 0, 0x80, 0],
        &[LINE, 2, 0, 1, 0x80, 0],
        &[LINE, 0, 0, 5, 0x80, 0, 0x80, 0, 0x80, 0, 0x80, 0, 0x80, 0],
        &[LINE, 1, 0, 2, 0x80, 0],
        &[LINE, 0, 0],
    ];
    let bytes = random.pick(&broken).to_vec();
    match frame_of(random, frames, LINE) {
        Some(frame) => *frame = bytes,
        None => frames.push(bytes),
    }
}

/// A line that names itself or a later line, a command that isn't there, or
/// that has another count of arguments than its command.
fn name_absent(random: &mut Random, frames: &mut Frames) {
    let lines = frames.iter().filter(|frame| frame.first() == Some(&LINE));
    let own = lines.count() as u8;
    let absent: [&[u8]; 6] = [
        &[LINE, 3, 1, 1, 0, own],
        &[LINE, 1, 0, 2, 0, own, 0x80, 0],
        &[LINE, 2, 0, 2, 0x80, 0, 0x7f, 0xff],
        &[LINE, 0, 32, 0],
        &[LINE, 0, 0xff, 1, 0x80, 0],
        &[LINE, 0, 0, 4, 0x80, 0, 0x80, 0, 0x80, 0, 0x80, 0],
    ];
    frames.push(random.pick(&absent).to_vec());
}

/// 32 commands or one more; the last one sound, or with a fault of its own.
fn fill_commands(random: &mut Random, frames: &mut Frames) {
    let goal = COMMANDS_LIMIT + usize::from(random.chance(70));
    let command = |frame: &Vec<u8>| frame.first() == Some(&COMMAND);
    let there = frames.iter().filter(|frame| command(frame)).count();
    let sound = command_frame(&recipe::generate(0));
    for _ in there..goal {
        frames.insert(1, sound.clone());
    }
    if let Some(last) = frames.iter_mut().rfind(|frame| command(frame)) {
        match random.below(4) {
            0 => *last = vec![COMMAND, 0, 1, 0, 7, 0, 0],
            1 => *last = vec![COMMAND, 0, 1, 9, 0, 0, 0],
            _ => {}
        }
    }
}

/// 1,024 session lines or one more; the last one sound, or with a fault.
fn fill_lines(random: &mut Random, frames: &mut Frames) {
    let goal = LINES_LIMIT + usize::from(random.chance(70));
    let there = frames
        .iter()
        .filter(|frame| frame.first() == Some(&LINE))
        .count();
    let sound = vec![LINE, 1, 0, 2, 0x80, 0, 0x80, 1];
    frames.extend(vec![sound; goal.saturating_sub(there)]);
    if let Some(last) = frames.last_mut() {
        match random.below(4) {
            0 => set(last, 4, 0x7f),
            1 => set(last, 1, 3),
            _ => {}
        }
    }
}

fn edit_bytes(random: &mut Random, bytes: &mut [u8]) {
    for _ in 0..random.between(1, 3) {
        let place = random.below(bytes.len());
        bytes[place] = match random.below(3) {
            0 => random.byte(),
            _ => random.pick(b"0123456789abcdef\n"),
        };
    }
}

fn cut_end(random: &mut Random, bytes: &mut Vec<u8>) {
    bytes.truncate(random.below(bytes.len()));
}

fn drop_last_newline(_: &mut Random, bytes: &mut Vec<u8>) {
    bytes.pop();
}

/// Uppercase digits over a short stretch.
fn raise_digits(random: &mut Random, bytes: &mut [u8]) {
    let start = random.below(bytes.len());
    for byte in bytes[start..].iter_mut().take(30) {
        *byte = byte.to_ascii_uppercase();
    }
}

fn insert_empty_line(random: &mut Random, bytes: &mut Vec<u8>) {
    let ends = line_ends(bytes);
    bytes.insert(random.pick(&ends), b'\n');
}

/// Mostly anywhere; a carriage return also where other systems put it.
fn insert_foreign_byte(random: &mut Random, bytes: &mut Vec<u8>) {
    if random.chance(20) {
        let ends = line_ends(bytes);
        bytes.insert(random.pick(&ends), b'\r');
    } else {
        let byte = random.pick(b"\r \t\0gG:/`@");
        bytes.insert(random.between(0, bytes.len()), byte);
    }
}

/// The places of all newlines.
fn line_ends(bytes: &[u8]) -> Vec<usize> {
    (0..bytes.len()).filter(|&at| bytes[at] == b'\n').collect()
}

fn remove_byte(random: &mut Random, bytes: &mut Vec<u8>) {
    bytes.remove(random.below(bytes.len()));
}

fn leave_next_to_nothing(random: &mut Random, bytes: &mut Vec<u8>) {
    let rests: [&[u8]; 6] = [b"", b"", b"\n", b"0", b"01", b"01\n"];
    *bytes = random.pick(&rests).to_vec();
}

/// Up to the greatest length or one byte beyond. Such a file is always refused
/// in the end: no lawful file is that long.
fn pad_to_limit(random: &mut Random, bytes: &mut Vec<u8>) {
    let goal = INPUT_LIMIT + random.pick(&[0, 1, 1, 500]);
    let padding = random.pick(b"0\n");
    bytes.resize(goal, padding);
}

fn add_loose_end(random: &mut Random, bytes: &mut Vec<u8>) {
    let end: [&[u8]; 3] = [b"03000000", b"0", b"zz"];
    bytes.extend(random.pick(&end));
}
