//! A count of what happens among the compared files. A comparison is worth
//! something only if all that can happen has happened in it.

use std::collections::BTreeMap;
use std::fmt;

use second::tables::Tables;

#[derive(Clone, Copy, PartialEq, Eq, PartialOrd, Ord)]
pub enum Event {
    Refusal(u64),
    /// A refusal when frames before it were in the tables already.
    LateRefusal,
    /// Number 0 is acceptance.
    Verdict(u64),
    AcceptedWithValues,
    /// Number 0 is a run through all lines.
    Ending(u64),
    BreachedRun,
    /// A run with values that were derived.
    DerivedValues,
    /// Acceptance, and a derived value that is stored under a template with A.
    AcceptedWithDerivedKeys,
    /// A line in which the attacker derives, and which gives a value.
    OwnDerivation,
    /// The first breached line gives a value that was derived.
    DerivedBreach,
    /// A line that stops, and after it one that gives a value.
    StopInTheMiddle,
    /// A call with a place for its answer of another size.
    NoAnswer,
}

impl fmt::Display for Event {
    fn fmt(&self, out: &mut fmt::Formatter) -> fmt::Result {
        match self {
            Event::Refusal(number) => write!(out, "refusal {number}"),
            Event::LateRefusal => write!(out, "refusals after a frame that was taken"),
            Event::Verdict(0) => write!(out, "accepted"),
            Event::Verdict(number) => write!(out, "verdict {number}"),
            Event::AcceptedWithValues => write!(out, "accepted, and lines gave values"),
            Event::Ending(0) => write!(out, "ran through"),
            Event::Ending(number) => write!(out, "ending {number}"),
            Event::BreachedRun => write!(out, "breached"),
            Event::DerivedValues => write!(out, "derived values"),
            Event::AcceptedWithDerivedKeys => {
                write!(out, "accepted, with derived keys that are always sensitive")
            }
            Event::OwnDerivation => write!(out, "derivations by the attacker"),
            Event::DerivedBreach => write!(out, "breached by a line that gave a derived value"),
            Event::StopInTheMiddle => write!(out, "a stop in the middle"),
            Event::NoAnswer => write!(out, "calls with a wrong size of the answer"),
        }
    }
}

/// Everything that must occur.
fn expected() -> impl Iterator<Item = Event> {
    let refusals = (1..=7).chain([15]).map(Event::Refusal);
    let verdicts = (16..=23).chain([0]).map(Event::Verdict);
    let endings = [0, 32, 33].map(Event::Ending);
    let others = [
        Event::LateRefusal,
        Event::AcceptedWithValues,
        Event::BreachedRun,
        Event::DerivedValues,
        Event::AcceptedWithDerivedKeys,
        Event::OwnDerivation,
        Event::DerivedBreach,
        Event::StopInTheMiddle,
        Event::NoAnswer,
    ];
    refusals.chain(verdicts).chain(endings).chain(others)
}

#[derive(Default)]
pub struct Census {
    counts: BTreeMap<Event, u64>,
}

impl Census {
    pub fn count(&mut self, event: Event) {
        *self.counts.entry(event).or_default() += 1;
    }

    /// Counts a file that was refused.
    pub fn count_refusal(&mut self, number: u64, frame: u64) {
        self.count(Event::Refusal(number));
        if frame > 1 {
            self.count(Event::LateRefusal);
        }
    }

    /// Counts a file that was read, by its verdict, the ending of its run, the
    /// first breached line if there is one, and the tables that it left.
    pub fn count_file(&mut self, verdict: u64, ending: u64, breach: Option<u64>, left: &Tables) {
        let lines = Lines::of(left);
        let derived = left.rows.iter().any(|&row| is_derived(row));
        self.count(Event::Verdict(verdict));
        self.count(Event::Ending(ending));
        let others = [
            (Event::AcceptedWithValues, verdict == 0 && lines.gave_value),
            (Event::BreachedRun, breach.is_some()),
            (Event::DerivedValues, derived),
            (
                Event::AcceptedWithDerivedKeys,
                verdict == 0 && keeps_derived(left),
            ),
            (Event::OwnDerivation, lines.derived),
            (
                Event::DerivedBreach,
                breach.is_some_and(|line| gave_derived(left, line)),
            ),
            (Event::StopInTheMiddle, lines.gave_value_after_stop),
        ];
        for (event, _) in others.into_iter().filter(|(_, occurred)| *occurred) {
            self.count(event);
        }
    }

    pub fn print(&self) {
        for (event, count) in &self.counts {
            println!("{count:>10}  {event}");
        }
    }

    /// What should have occurred and did not.
    pub fn missing(&self) -> Vec<String> {
        expected()
            .filter(|event| !self.counts.contains_key(event))
            .map(|event| event.to_string())
            .collect()
    }
}

/// The bit of an outcome that says that the line stopped.
const STOPPED: u64 = 1 << 32;

fn is_derived(row: u64) -> bool {
    row >> 32 == 5
}

/// Whether a derived value is stored under a template with A.
fn keeps_derived(left: &Tables) -> bool {
    const ALWAYS_SENSITIVE: u64 = 2;
    let guarding = |key: &&u64| *key & ALWAYS_SENSITIVE != 0;
    let row = |key: &u64| (key >> 8 & 0xffff) as usize;
    let mut rows = left.keys.iter().filter(guarding).map(row);
    rows.any(|row| is_derived(left.rows[row]))
}

/// Whether a finished line gave a derived value.
fn gave_derived(left: &Tables, line: u64) -> bool {
    let outcome = left.outcomes[line as usize];
    let row = (outcome & 0xffff) as usize;
    outcome & STOPPED == 0 && is_derived(left.rows[row])
}

/// What the finished lines of a run have come to.
#[derive(Default)]
struct Lines {
    stopped: bool,
    gave_value: bool,
    gave_value_after_stop: bool,
    /// In one that gave a value the attacker derived.
    derived: bool,
}

impl Lines {
    fn of(left: &Tables) -> Lines {
        let mut lines = Lines::default();
        let finished = left.outcomes.iter().take_while(|&&outcome| outcome != 0);
        for (outcome, head) in finished.zip(&left.heads) {
            let stops = outcome & STOPPED != 0;
            lines.gave_value |= !stops;
            lines.derived |= !stops && head & 0xff == 3;
            lines.gave_value_after_stop |= !stops && lines.stopped;
            lines.stopped |= stops;
        }
        lines
    }
}
