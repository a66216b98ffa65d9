//! The library's C entries, and a safe function for each: all pointers come
//! from slices, and the tables are owned apart from the input and the answer.

use crate::tables::Tables;

/// What all four have in common: the input, the seven tables and the place for
/// the answer, each a pointer and a length.
type Entry<T> = unsafe extern "C" fn(
    *const u8,
    usize,
    *mut u64,
    usize,
    *mut u64,
    usize,
    *mut u64,
    usize,
    *mut u64,
    usize,
    *mut u64,
    usize,
    *mut u64,
    usize,
    *mut u64,
    usize,
    *mut T,
    usize,
) -> usize;

macro_rules! declare {
    ($($name:ident tells $place:ty;)*) => {
        extern "C" {
            $(fn $name(
                input: *const u8,
                input_length: usize,
                rows: *mut u64,
                rows_length: usize,
                keys: *mut u64,
                keys_length: usize,
                heads: *mut u64,
                heads_length: usize,
                arguments: *mut u64,
                arguments_length: usize,
                outcomes: *mut u64,
                outcomes_length: usize,
                commands: *mut u64,
                commands_length: usize,
                steps: *mut u64,
                steps_length: usize,
                answer: *mut $place,
                answer_length: usize,
            ) -> usize;)*
        }
    };
}

declare! {
    migladze_read tells u64;
    migladze_verdict tells u64;
    migladze_run tells u64;
    migladze_report tells u8;
}

fn call<T>(entry: Entry<T>, input: &[u8], tables: &mut Tables, answer: &mut [T]) -> usize {
    let Tables {
        rows,
        keys,
        heads,
        arguments,
        outcomes,
        commands,
        steps,
    } = tables;
    // SAFETY: each pointer is that of a slice, beside its length; the borrows
    // keep the slices apart; the entries require nothing else.
    unsafe {
        entry(
            input.as_ptr(),
            input.len(),
            rows.as_mut_ptr(),
            rows.len(),
            keys.as_mut_ptr(),
            keys.len(),
            heads.as_mut_ptr(),
            heads.len(),
            arguments.as_mut_ptr(),
            arguments.len(),
            outcomes.as_mut_ptr(),
            outcomes.len(),
            commands.as_mut_ptr(),
            commands.len(),
            steps.as_mut_ptr(),
            steps.len(),
            answer.as_mut_ptr(),
            answer.len(),
        )
    }
}

pub fn read(input: &[u8], tables: &mut Tables, answer: &mut [u64]) -> usize {
    call(migladze_read, input, tables, answer)
}

pub fn verdict(input: &[u8], tables: &mut Tables, answer: &mut [u64]) -> usize {
    call(migladze_verdict, input, tables, answer)
}

pub fn run(input: &[u8], tables: &mut Tables, answer: &mut [u64]) -> usize {
    call(migladze_run, input, tables, answer)
}

pub fn report(input: &[u8], tables: &mut Tables, buffer: &mut [u8]) -> usize {
    call(migladze_report, input, tables, buffer)
}

#[cfg(test)]
mod tests {
    use super::*;

    const WORKED: &[u8] = include_bytes!("../../examples/wrap-decrypt.hex");

    #[test]
    fn numbers_of_the_worked_listing() {
        let mut tables = Tables::new();
        let mut six = [9; 6];
        assert_eq!(read(WORKED, &mut tables, &mut six), 6);
        assert_eq!(six, [0, 0, 5, 1 << 1 | 1 << 25, 4, 4]);
        let mut three = [9; 3];
        assert_eq!(verdict(WORKED, &mut tables, &mut three), 3);
        assert_eq!(three, [18, 3, 2]);
        let mut five = [9; 5];
        assert_eq!(run(WORKED, &mut tables, &mut five), 5);
        assert_eq!(five, [0, 0, 0, 0, 3]);
    }

    #[test]
    fn numbers_of_a_refusal() {
        let mut tables = Tables::new();
        let input = b"01050000000002000002\nff\n";
        let mut six = [9; 6];
        assert_eq!(read(input, &mut tables, &mut six), 6);
        assert_eq!(six, [3, 1, 0, 0, 0, 0]);
        let mut three = [9; 3];
        assert_eq!(verdict(input, &mut tables, &mut three), 3);
        assert_eq!(three, [3, 1, 0]);
        let mut five = [9; 5];
        assert_eq!(run(input, &mut tables, &mut five), 5);
        assert_eq!(five, [3, 1, 0, 0, 0]);
    }

    #[test]
    fn no_breach_is_65535() {
        let mut tables = Tables::new();
        let mut five = [9; 5];
        run(b"01050000000002000002\n", &mut tables, &mut five);
        assert_eq!(five, [0, 0, 0, 0, 65535]);
    }

    /// An answer of another length: the count is 0, and nothing is written.
    #[test]
    fn another_length_takes_nothing() {
        let entries: [(Entry<u64>, usize); 3] =
            [(migladze_read, 6), (migladze_verdict, 3), (migladze_run, 5)];
        for (entry, size) in entries {
            for length in (0..10).filter(|length| *length != size) {
                let mut tables = Tables::new();
                tables.rows.fill(7);
                tables.steps.fill(8);
                let mut answer = vec![9; length];
                assert_eq!(call(entry, WORKED, &mut tables, &mut answer), 0);
                assert!(answer.iter().all(|number| *number == 9));
                assert!(tables.rows.iter().all(|number| *number == 7));
                assert!(tables.steps.iter().all(|number| *number == 8));
                assert!(tables.heads.iter().all(|number| *number == 0));
            }
        }
    }
}
