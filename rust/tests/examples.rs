//! Every configuration of the project's examples: the report beside it, and
//! the other answers, which say the same in types.

use std::fs;
use std::path::PathBuf;

use migladze::{Checker, Ending, Run, Verdict};

fn examples() -> Vec<PathBuf> {
    let folder = concat!(env!("CARGO_MANIFEST_DIR"), "/../examples");
    let files = fs::read_dir(folder).expect("the examples are there");
    let mut inputs: Vec<PathBuf> = files
        .map(|file| file.expect("a name").path())
        .filter(|path| path.extension().is_some_and(|e| e == "hex"))
        .collect();
    inputs.sort();
    inputs
}

/// The report's first frame for a verdict, and its last for a run.
fn frames(verdict: Verdict, run: Run) -> (String, Option<String>) {
    match (verdict, run) {
        (Verdict::Refused { refusal, frame }, again) => {
            assert_eq!(again, Run::Refused { refusal, frame });
            (format!("80{:02x}{frame:04x}", refusal.number()), None)
        }
        (
            judged,
            Run::Ended {
                ending,
                first_breach,
            },
        ) => {
            let first = match judged {
                Verdict::Broken { rule, frame, step } => {
                    format!("81{:02x}{frame:04x}{step:02x}", rule.number())
                }
                _ => "8100000000".into(),
            };
            let ending = match ending {
                Ending::RanThrough => 0,
                Ending::RowsFull { .. } => 32,
                Ending::KeysFull { .. } => 33,
            };
            let breach = first_breach.unwrap_or(65535);
            (first, Some(format!("83{ending:02x}{breach:04x}")))
        }
        (judged, refused) => panic!("{judged:?} and {refused:?}"),
    }
}

#[test]
fn reports_and_answers() {
    let mut checker = Checker::new();
    let inputs = examples();
    assert!(!inputs.is_empty());
    for path in inputs {
        let input = fs::read(&path).expect("an input");
        let expected = fs::read_to_string(path.with_extension("out")).expect("its report");
        assert_eq!(checker.report(&input), expected.as_bytes(), "{path:?}");
        let (first, last) = frames(checker.verdict(&input), checker.run(&input));
        let mut lines = expected.lines();
        assert_eq!(lines.next(), Some(first.as_str()), "{path:?}");
        assert_eq!(lines.next_back(), last.as_deref(), "{path:?}");
        for (line, finished) in lines.zip(checker.tables().finished_lines()) {
            let row = finished.row.unwrap_or(65535);
            let breached = u8::from(finished.breached);
            let ending = format!("{row:04x}{:04x}{breached:02x}", finished.keys);
            assert!(line.ends_with(&ending), "{path:?}: {line}");
        }
    }
}
