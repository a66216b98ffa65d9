//! The limits of the format and of a run, each with the answer that the
//! documents foretell, worked out by hand: what a program must write for them.

use std::env;
use std::process::ExitCode;

use second::process::output_of;

/// Templates 1 and 25 allowed; a key that makes sense for sessions.
const POLICY: &str = "01050000000002000002\n";
/// Makes a key under template 1 and returns its handle.
const GENERATE: &str = "0200020200000100000000\n";
/// Takes four values and returns the first.
const FOUR: &str = "02040100000000\n";
/// Takes four values, encrypts the first under the second, returns that.
const FIVE: &str = "0204020400010000040000\n";
/// Gets the key of a handle and returns it: a breach of the rules, a stop for
/// what is no handle.
const GET: &str = "0201020100000100010000\n";
/// Gets the seed of a handle, derives a data key from it, stores that.
const DIVERSIFY: &str = "02010401000014060001000302000f00030000\n";
/// Takes four values, derives from the first, returns that.
const DERIVE: &str = "0204020600000000040000\n";
/// Derives from its argument and stores that under template 15.
const KEEP_DERIVED: &str = "020103060000000301000f00020000\n";
/// The attacker derives from constant 5, under label 0 and under label 1.
const DERIVES: &str = "030300018005\n";
const DERIVES_OTHER: &str = "030301018005\n";
/// The attacker encrypts constant 0 under constant 1.
const ENCRYPTS: &str = "0301000280008001\n";
const ACCEPTED: &str = "8100000000\n";
const FLAT_END: &str = "8300ffff\n";

struct Case {
    name: &'static str,
    input: String,
    output: String,
}

fn case(name: &'static str, input: String, output: String) -> Case {
    Case {
        name,
        input,
        output,
    }
}

/// Line i calls a command with the constants 4i to 4i + 3.
fn four_constants(command: usize, i: usize) -> String {
    let arguments: String = (0..4)
        .map(|k| format!("{:04x}", 0x8000 + 4 * i + k))
        .collect();
    format!("0300{command:02x}04{arguments}\n")
}

/// A finished line with a value and no breach.
fn value(line: usize, row: usize, keys: usize) -> String {
    format!("82{line:04x}00{row:04x}{keys:04x}00\n")
}

fn stopped(line: usize) -> String {
    format!("82{line:04x}01ffff000000\n")
}

fn lines(count: usize, line: impl Fn(usize) -> String) -> String {
    (0..count).map(line).collect()
}

/// A command with a count of steps: keys under template 1, then the return.
fn steps(count: usize) -> String {
    let made = "02000001".repeat(count - 1);
    format!("0200{count:02x}{made}00000000\n")
}

fn reading() -> Vec<Case> {
    let refused = |answer: &str| format!("80{answer}\n");
    let accepted = format!("{ACCEPTED}{FLAT_END}");
    vec![
        case("an empty input", String::new(), refused("030000")),
        case("one newline", "\n".into(), refused("020000")),
        case(
            "no last newline",
            POLICY.trim_end().into(),
            refused("020000"),
        ),
        case(
            "an uppercase digit",
            POLICY.replace("02\n", "0A\n"),
            refused("020000"),
        ),
        case("32,768 bytes", "\n".repeat(32_768), refused("020000")),
        case("32,769 bytes", "\n".repeat(32_769), refused("010000")),
        case(
            "a command before the policy",
            GENERATE.into(),
            refused("030000"),
        ),
        case(
            "16 steps",
            format!("{POLICY}{}", steps(16)),
            accepted.clone(),
        ),
        case(
            "a count of 17 steps",
            format!("{POLICY}{}", steps(17)),
            refused("040001"),
        ),
        case(
            "32 commands",
            format!("{POLICY}{}", GENERATE.repeat(32)),
            accepted,
        ),
        case(
            "33 commands",
            format!("{POLICY}{}", GENERATE.repeat(33)),
            refused("050021"),
        ),
        case(
            "1,024 lines",
            format!("{POLICY}{}", ENCRYPTS.repeat(1024)),
            format!("{ACCEPTED}{}{FLAT_END}", lines(1024, |i| value(i, 2, 0))),
        ),
        case(
            "1,025 lines",
            format!("{POLICY}{}", ENCRYPTS.repeat(1025)),
            refused("050401"),
        ),
        case(
            "a step that names its own value",
            format!("{POLICY}0200020300000100000000\n"),
            refused("060001"),
        ),
        case(
            "a step with a label of 2",
            format!("{POLICY}{}", DERIVE.replace("06000000", "06000002")),
            refused("040001"),
        ),
        case(
            "a line with a label of 2",
            format!("{POLICY}030302018005\n"),
            refused("040001"),
        ),
        case(
            "a line that derives from two values",
            format!("{POLICY}0303000280058005\n"),
            refused("040001"),
        ),
        case(
            "an op of 7",
            format!("{POLICY}{}", DERIVE.replace("06000000", "07000000")),
            refused("040001"),
        ),
        case(
            "a line of kind 4",
            format!("{POLICY}030400018005\n"),
            refused("040001"),
        ),
        case(
            "an allowed template without a type",
            "01050000000000000004\n".into(),
            refused("070000"),
        ),
    ]
}

fn verdicts() -> Vec<Case> {
    let policy = "01020008000000002000\n";
    // Templates 15, 51 and 63: only the last, a seed, has E and W.
    let seeds = "01028008000000008000\n";
    vec![
        case(
            "a data key under a wrapping key",
            format!("{policy}02020401000004010100100402030000040000\n"),
            format!("{ACCEPTED}{FLAT_END}"),
        ),
        case(
            "a key of either template under a wrapping key",
            format!("{policy}02020401000001010100100402030000040000\n"),
            format!("8112000102\n{FLAT_END}"),
        ),
        case(
            "a data key from a seed",
            format!("{seeds}{DIVERSIFY}"),
            format!("{ACCEPTED}{FLAT_END}"),
        ),
        case(
            "a data key from what may be no seed",
            format!("{seeds}{}", DIVERSIFY.replace("01000014", "01000004")),
            format!("8117000101\n{FLAT_END}"),
        ),
    ]
}

fn runs() -> Vec<Case> {
    let calls = |count| "03000000\n".repeat(count);
    let keys = lines(256, |i| value(i, 2 * i, i + 1));
    let filling = lines(1023, |i| four_constants(0, i));
    let filled = lines(1023, |i| value(i, 4 * i, 0));
    vec![
        case(
            "256 keys",
            format!("{POLICY}{GENERATE}{}", calls(256)),
            format!("{ACCEPTED}{keys}{FLAT_END}"),
        ),
        case(
            "257 keys",
            format!("{POLICY}{GENERATE}{}", calls(257)),
            format!("{ACCEPTED}{keys}8321ffff\n"),
        ),
        case(
            "4,096 rows",
            format!("{POLICY}{FOUR}{filling}{}", four_constants(0, 1023)),
            format!("{ACCEPTED}{filled}{}{FLAT_END}", value(1023, 4092, 0)),
        ),
        case(
            "4,097 rows",
            format!("{POLICY}{FOUR}{FIVE}{filling}{}", four_constants(1, 1023)),
            format!("{ACCEPTED}{filled}8320ffff\n"),
        ),
        case(
            "a derivation that needs a 4,097th row",
            format!("{POLICY}{FOUR}{DERIVE}{filling}{}", four_constants(1, 1023)),
            format!("{ACCEPTED}{filled}8320ffff\n"),
        ),
        case(
            "derivations under both labels",
            format!("{POLICY}{DERIVES}{DERIVES_OTHER}{DERIVES}"),
            format!(
                "{ACCEPTED}{}{}{}{FLAT_END}",
                value(0, 1, 0),
                value(1, 2, 0),
                value(2, 1, 0)
            ),
        ),
        case(
            "a derived key that the attacker derives",
            format!("{POLICY}{KEEP_DERIVED}030000018005\n{DERIVES_OTHER}{DERIVES}"),
            format!(
                "8110000101\n{}{}820002000001000101\n83000002\n",
                value(0, 2, 1),
                value(1, 3, 1)
            ),
        ),
        case(
            "stops in the middle",
            format!("{POLICY}{GET}{ENCRYPTS}030000018005\n030000010001\n{ENCRYPTS}"),
            format!(
                "8115000101\n{}{}{}{}{FLAT_END}",
                value(0, 2, 0),
                stopped(1),
                stopped(2),
                value(3, 2, 0)
            ),
        ),
    ]
}

fn main() -> ExitCode {
    let Some(program) = env::args().nth(1) else {
        eprintln!("usage: edges PROGRAM");
        return ExitCode::FAILURE;
    };
    let cases: Vec<Case> = [reading(), verdicts(), runs()]
        .into_iter()
        .flatten()
        .collect();
    for case in &cases {
        match output_of(&program, case.input.as_bytes()) {
            Ok(output) if output == case.output.as_bytes() => {}
            Ok(output) => {
                eprintln!("{}: {}", case.name, String::from_utf8_lossy(&output));
                return ExitCode::FAILURE;
            }
            Err(error) => {
                eprintln!("{program}: {error}");
                return ExitCode::FAILURE;
            }
        }
    }
    println!("{} limits and edges: as foretold", cases.len());
    ExitCode::SUCCESS
}
