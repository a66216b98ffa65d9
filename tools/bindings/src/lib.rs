//! The proved library for Rust: the entries of `include/migladze.h`, called
//! like those of the second implementation, so that the two can be held
//! against each other.

use second::tables::Tables;

/// Declares an entry of the library and a safe function that calls it. An
/// entry takes each slice as a pointer and a length; its answer is written
/// into the last one.
macro_rules! entry {
    ($name:ident, $symbol:ident, $item:ty) => {
        extern "C" {
            fn $symbol(
                input: *const u8,
                input_length: usize,
                rows: *mut u64,
                rows_length: usize,
                keys: *mut u64,
                keys_length: usize,
                heads: *mut u64,
                heads_length: usize,
                arguments: *mut u64,
                arguments_length: usize,
                outcomes: *mut u64,
                outcomes_length: usize,
                commands: *mut u64,
                commands_length: usize,
                steps: *mut u64,
                steps_length: usize,
                answer: *mut $item,
                answer_length: usize,
            ) -> usize;
        }

        pub fn $name(input: &[u8], lent: &mut Tables, answer: &mut [$item]) -> usize {
            // Each pointer is that of a slice, beside its length, and no two
            // slices overlap: nothing else is asked of a caller.
            unsafe {
                $symbol(
                    input.as_ptr(),
                    input.len(),
                    lent.rows.as_mut_ptr(),
                    lent.rows.len(),
                    lent.keys.as_mut_ptr(),
                    lent.keys.len(),
                    lent.heads.as_mut_ptr(),
                    lent.heads.len(),
                    lent.arguments.as_mut_ptr(),
                    lent.arguments.len(),
                    lent.outcomes.as_mut_ptr(),
                    lent.outcomes.len(),
                    lent.commands.as_mut_ptr(),
                    lent.commands.len(),
                    lent.steps.as_mut_ptr(),
                    lent.steps.len(),
                    answer.as_mut_ptr(),
                    answer.len(),
                )
            }
        }
    };
}

entry!(read, migladze_read, u64);
entry!(verdict, migladze_verdict, u64);
entry!(run, migladze_run, u64);
entry!(report, migladze_report, u8);
