//! What the four entries answer and leave in the tables they are lent, worked
//! out by hand from the layouts.

use super::build::*;
use super::document::{LISTING, LISTING_OUTPUT};
use second::entries;
use second::tables::{Tables, LENGTHS};

const RETURN_FIRST: [u8; 4] = [0, 0, 0, 0];
const RETURN_SECOND: [u8; 4] = [0, 1, 0, 0];

/// What the tables hold before a call: nothing that an entry would write.
const OLD: u64 = 0x0123_4567_89ab_cdef;

fn lent(lengths: [usize; 7]) -> Tables {
    let mut tables = Tables::zero(lengths);
    for table in tables.all_mut() {
        table.fill(OLD);
    }
    tables
}

fn read(input: &[u8]) -> ([u64; 6], Tables) {
    let (mut tables, mut answer) = (lent(LENGTHS), [OLD; 6]);
    assert_eq!(entries::read(input, &mut tables, &mut answer), 6);
    (answer, tables)
}

fn verdict(input: &[u8]) -> ([u64; 3], Tables) {
    let (mut tables, mut answer) = (lent(LENGTHS), [OLD; 3]);
    assert_eq!(entries::verdict(input, &mut tables, &mut answer), 3);
    (answer, tables)
}

fn run(input: &[u8]) -> ([u64; 5], Tables) {
    let (mut tables, mut answer) = (lent(LENGTHS), [OLD; 5]);
    assert_eq!(entries::run(input, &mut tables, &mut answer), 5);
    (answer, tables)
}

/// A table of this length that begins so and is 0 after it.
fn table(length: usize, front: &[u64]) -> Vec<u64> {
    let mut table = front.to_vec();
    table.resize(length, 0);
    table
}

/// The listing as it is read. Its commands have two, two, four and three
/// steps; each has sixteen places of the steps' table.
fn listing_read() -> Tables {
    let mut steps = table(512, &[0x0100_0002]);
    steps[16] = 0x1900_0002;
    steps[32..36].copy_from_slice(&[0x0100_0001, 0x1000_0101, 0x0003_0204, 0x0000_0400]);
    steps[48..51].copy_from_slice(&[0x0800_0101, 0x0002_0005, 0x0000_0300]);
    Tables {
        rows: vec![0; 4096],
        keys: vec![0; 256],
        heads: table(1024, &[0, 0x0_0100, 0x2_0200, 0x2_0300]),
        arguments: table(1024, &[0, 0, 0x0001_0000, 0x0001_0002]),
        outcomes: vec![0; 1024],
        commands: table(32, &[0x0200, 0x0200, 0x0402, 0x0302]),
        steps,
    }
}

/// The same after its session: the atoms 0 to 3 in rows 0 to 3, a handle and a
/// key for each of two stored keys, and the one key under the other in row 4.
/// Line 3 gives row 1 and is breached.
fn listing_run() -> Tables {
    Tables {
        rows: table(
            4096,
            &[
                0x2_0000_0000,
                0x2_0000_0001,
                0x2_0000_0002,
                0x2_0000_0003,
                0x3_0001_0003,
            ],
        ),
        keys: table(256, &[0x100_0000_0101, 0x100_0200_0319]),
        outcomes: table(
            1024,
            &[0x4_0001_0000, 0x4_0002_0002, 0x4_0002_0004, 0x6_0002_0001],
        ),
        ..listing_read()
    }
}

#[test]
fn the_listing_is_read_into_the_tables() {
    let expected = [0, 0, 5, 0x0200_0002, 4, 4];
    assert_eq!(read(LISTING.as_bytes()), (expected, listing_read()));
}

#[test]
fn a_verdict_leaves_what_reading_leaves() {
    let expected = [18, 3, 2];
    assert_eq!(verdict(LISTING.as_bytes()), (expected, listing_read()));
}

#[test]
fn the_run_of_the_listing_is_left_in_the_tables() {
    let expected = [0, 0, 0, 0, 3];
    assert_eq!(run(LISTING.as_bytes()), (expected, listing_run()));
}

#[test]
fn the_report_has_zeros_after_it_and_leaves_what_the_run_leaves() {
    let mut tables = lent(LENGTHS);
    let mut buffer = vec![0xee; 19_476];
    let count = entries::report(LISTING.as_bytes(), &mut tables, &mut buffer);
    assert_eq!(&buffer[..count], LISTING_OUTPUT.as_bytes());
    assert!(buffer[count..].iter().all(|&byte| byte == 0));
    assert_eq!(tables, listing_run());
}

/// Rows of all four kinds. The line in the middle makes an atom and a row for
/// constant 9 and then stops; both numbers are given out again.
#[test]
fn a_stopped_line_gives_its_numbers_back() {
    let frames = [
        policy(0, &[0]),
        command(1, &[[2, 0, 0, 0], [1, 0, 0, 0], RETURN_FIRST]),
        command(0, &[[2, 0, 0, 12], RETURN_FIRST]),
        line(1, 0, &[constant(5), constant(0x7fff)]),
        call(0, &[constant(9)]),
        line(2, 0, &[0, constant(8)]),
        call(1, &[]),
        line(2, 0, &[0, constant(0x7fff)]),
    ];
    let (answer, tables) = run(&text(&frames));
    assert_eq!(answer, [0, 0, 0, 0, 0xffff]);
    let rows = [
        0x1_0000_0005,
        0x1_0000_7fff,
        0x3_0000_0001,
        0x1_0000_0008,
        0x4_0002_0003,
        0x2_0000_0000,
        0x2_0000_0001,
    ];
    assert_eq!(tables.rows, table(4096, &rows));
    assert_eq!(tables.keys, table(256, &[0x100_0500_060c]));
    let outcomes = [
        0x4_0000_0002,
        0x5_0000_ffff,
        0x4_0000_0004,
        0x4_0001_0005,
        0x4_0001_0000,
    ];
    assert_eq!(tables.outcomes, table(1024, &outcomes));
    let heads = [0x2_0001, 0x1_0000, 0x2_0002, 0x0_0100, 0x2_0002];
    assert_eq!(tables.heads, table(1024, &heads));
    let arguments = [0xffff_8005, 0x8009, 0x8008_0000, 0, 0xffff_0000];
    assert_eq!(tables.arguments, table(1024, &arguments));
}

/// A step and a line that derive: the label is the step's last byte, stands in
/// the command's place of the line's head, and comes before the value's row.
#[test]
fn derivations_are_left_in_the_tables() {
    let frames = [
        policy(0, &[]),
        command(2, &[[6, 0, 1, 1], [6, 0, 2, 0], [0, 3, 0, 0]]),
        call(0, &[constant(9), constant(8)]),
        line(3, 1, &[constant(8)]),
        line(3, 0, &[1]),
        line(3, 1, &[0]),
    ];
    let (answer, tables) = run(&text(&frames));
    assert_eq!(answer, [0, 0, 0, 0, 0xffff]);
    let steps = [0x0101_0006, 0x0002_0006, 0x0000_0300];
    assert_eq!(tables.steps, table(512, &steps));
    let heads = [0x2_0000, 0x1_0103, 0x1_0003, 0x1_0103];
    assert_eq!(tables.heads, table(1024, &heads));
    let arguments = [0x8008_8009, 0x8008, 1, 0];
    assert_eq!(tables.arguments, table(1024, &arguments));
    let rows = [
        0x1_0000_0009,
        0x1_0000_0008,
        0x5_0001_0001,
        0x5_0000_0002,
        0x5_0001_0003,
    ];
    assert_eq!(tables.rows, table(4096, &rows));
    let outcomes = [0x4_0000_0003, 0x4_0000_0002, 0x4_0000_0003, 0x4_0000_0004];
    assert_eq!(tables.outcomes, table(1024, &outcomes));
}

/// Four arguments fill all 64 bits.
#[test]
fn the_first_argument_is_lowest() {
    let frames = [
        policy(0, &[]),
        command(4, &[RETURN_FIRST]),
        call(0, &[constant(1), constant(2), constant(3), constant(4)]),
    ];
    let (answer, tables) = read(&text(&frames));
    assert_eq!(answer, [0, 0, 0, 0, 1, 1]);
    assert_eq!(tables.arguments, table(1024, &[0x8004_8003_8002_8001]));
    assert_eq!(tables.heads, table(1024, &[0x4_0000]));
    assert_eq!(tables.commands, table(32, &[0x0104]));
}

/// A handle and a key for each of 256 calls, and a 257th that finds no room.
#[test]
fn an_ended_run_leaves_the_state_before_its_place() {
    let mut frames = vec![policy(0, &[0])];
    frames.push(command(1, &[[4, 0, 0, 0], [2, 0, 0, 3], RETURN_SECOND]));
    frames.push(command(0, &[[2, 0, 0, 0], RETURN_FIRST]));
    frames.extend(vec![call(1, &[]); 256]);
    frames.push(call(0, &[constant(1)]));
    let (answer, tables) = run(&text(&frames));
    assert_eq!(answer, [0, 0, 33, 256, 0xffff]);
    let rows: Vec<u64> = (0..512).map(|atom| 0x2_0000_0000 + atom).collect();
    assert_eq!(tables.rows, table(4096, &rows));
    let keys: Vec<u64> = (0..256)
        .map(|i| 0x100_0000_0000 + ((2 * i) << 24) + ((2 * i + 1) << 8))
        .collect();
    assert_eq!(tables.keys, keys);
    let outcomes: Vec<u64> = (0..256)
        .map(|i| 0x4_0000_0000 + ((i + 1) << 16) + 2 * i)
        .collect();
    assert_eq!(tables.outcomes, table(1024, &outcomes));
    assert_eq!(tables.heads[256], 0x1_0000);
}

#[test]
fn a_refused_file_leaves_zeros() {
    let mut input = LISTING.as_bytes().to_vec();
    input.extend(b"03000000\n0g\n");
    let zero = Tables::zero(LENGTHS);
    assert_eq!(read(&input), ([2, 10, 0, 0, 0, 0], zero.clone()));
    assert_eq!(verdict(&input), ([2, 10, 0], zero.clone()));
    assert_eq!(run(&input), ([2, 10, 0, 0, 0], zero));
}

/// For each table, one place too few and one too many; also where the input
/// would be refused for its own length.
#[test]
fn tables_of_other_lengths_are_15_and_zero() {
    let too_long = vec![b'0'; 32_769];
    for input in [LISTING.as_bytes(), &too_long] {
        for place in 0..7 {
            for length in [0, LENGTHS[place] - 1, LENGTHS[place] + 1] {
                let mut lengths = LENGTHS;
                lengths[place] = length;
                let (mut tables, mut answer) = (lent(lengths), [OLD; 5]);
                assert_eq!(entries::run(input, &mut tables, &mut answer), 5);
                assert_eq!(answer, [15, 0, 0, 0, 0]);
                assert_eq!(tables, Tables::zero(lengths));
            }
        }
    }
    let mut tables = lent([0; 7]);
    let mut buffer = vec![0xee; 19_476];
    assert_eq!(entries::report(b"", &mut tables, &mut buffer), 9);
    assert_eq!(&buffer[..10], b"800f0000\n\0");
}

#[test]
fn a_place_of_another_size_is_left_alone_with_the_tables() {
    let input = LISTING.as_bytes();
    for lengths in [LENGTHS, [0, 256, 1024, 1024, 1024, 32, 512]] {
        let mut tables = lent(lengths);
        for size in [0, 1, 2, 4, 7, 8] {
            let mut answer = vec![OLD; size];
            assert_eq!(entries::read(input, &mut tables, &mut answer), 0);
            assert_eq!(entries::verdict(input, &mut tables, &mut answer), 0);
            assert_eq!(entries::run(input, &mut tables, &mut answer), 0);
            assert_eq!(answer, vec![OLD; size]);
        }
        let mut buffer = vec![0xee; 19_475];
        assert_eq!(entries::report(input, &mut tables, &mut buffer), 0);
        assert_eq!(buffer, vec![0xee; 19_475]);
        assert_eq!(tables, lent(lengths));
    }
}
