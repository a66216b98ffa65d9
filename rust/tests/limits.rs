//! Sessions that meet an ending, and inputs beyond what is read.

use migladze::{Checker, Ending, Read, Refusal, Run};

const POLICY: &str = "01050000000002000002\n";

#[test]
fn a_257th_key() {
    let generate = "0200020200000100000000\n";
    let input = format!("{POLICY}{generate}{}", "03000000\n".repeat(258));
    let mut checker = Checker::new();
    let full = Run::Ended {
        ending: Ending::KeysFull { line: 256 },
        first_breach: None,
    };
    assert_eq!(checker.run(input.as_bytes()), full);
    assert_eq!(checker.tables().keys().count(), 256);
    assert_eq!(checker.tables().finished_lines().count(), 256);
}

/// Each line shows four new constants and encrypts one: five rows.
#[test]
fn a_4097th_value() {
    let encrypt = "0204020400010000040000\n";
    let line = |i| {
        let constants: String = (0..4)
            .map(|k| format!("{:04x}", 0x8000 + 4 * i + k))
            .collect();
        format!("03000004{constants}\n")
    };
    let lines: String = (0..900).map(line).collect();
    let mut checker = Checker::new();
    let full = Run::Ended {
        ending: Ending::RowsFull { line: 819 },
        first_breach: None,
    };
    let input = format!("{POLICY}{encrypt}{lines}");
    assert_eq!(checker.run(input.as_bytes()), full);
    assert_eq!(checker.tables().rows().count(), 4095);
    assert_eq!(checker.tables().finished_lines().count(), 819);
}

#[test]
fn a_byte_too_many() {
    let refused = Read::Refused {
        refusal: Refusal::TooLong,
        frame: 0,
    };
    assert_eq!(Checker::new().read(&[b'0'; 32769]), refused);
}
