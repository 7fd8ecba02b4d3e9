//! The reference against the exported functions, on generated calls.

use crate::calls::{Call, Function, Function::*};
use crate::features::Features;
use crate::harness::Harness;
use crate::moving::Moved;
use crate::ranks::Ranked;
use crate::requests::call;
use crate::shrink::shrink;
use crate::tally::{Tally, ENOUGH_FOR_ALL};
use crate::text::hex;

/// After so many differences a run ends.
const MOST_TOLD: usize = 5;

/// How an answer differs from the reference's, if it does.
fn difference(harness: &mut Harness, call: &Call, expected: &Result<Vec<u8>, u32>) -> Result<Option<String>, String> {
    let got = harness.call(call)?;
    let mut bytes = got.before;
    if let Ok(written) = expected {
        bytes[..written.len()].copy_from_slice(written);
    }
    let code = expected.as_ref().err().copied().unwrap_or(0);
    let same = got.code == code && got.after == bytes && got.altered == 0;
    let told = |code: u32, bytes: &[u8]| format!("returns {code}, the buffer holds {}", hex(bytes));
    Ok((!same).then(|| {
        let altered = if got.altered == 0 { String::new() } else { format!(", {} other bytes altered", got.altered) };
        format!("  reference {}\n  product   {}{altered}", told(code, &bytes), told(got.code, &got.after))
    }))
}

/// The call with the smallest recording found that still differs.
fn smallest(harness: &mut Harness, call: &Call) -> Call {
    let mut best = call.clone();
    for end_at_last in [false, true] {
        let of = |data: &[u8]| {
            let last = call.edition().last_edge(data.get(6..).unwrap_or(&[]));
            let end = if end_at_last { last as u64 } else { call.numbers[0] };
            Call { data: data.to_vec(), numbers: [end, 0, 0, 0], ..call.clone() }
        };
        let mut differs = |data: &[u8]| {
            let tried = of(data);
            !matches!(difference(harness, &tried, &tried.answer()), Ok(None))
        };
        if differs(&best.data) {
            best = of(&shrink(call.edition(), best.data.clone(), &mut differs));
        }
    }
    best
}

fn tell(harness: &mut Harness, call: &Call) -> Result<(), String> {
    let short = matches!(call.function, Register | Burst);
    let small = if short { call.clone() } else { smallest(harness, call) };
    let how = difference(harness, &small, &small.answer())?.unwrap_or_else(|| "  (only once)".to_string());
    println!("DIFFERS {}\n{how}", small.text());
    Ok(())
}

const FUNCTIONS: [Function; 6] = [Judge, Register, Burst, Ranks, Widen, Narrow];

/// What the calls have shown.
#[derive(Default)]
struct Shown {
    tally: Tally,
    features: Features,
    ranked: Ranked,
    moved: Moved,
}

impl Shown {
    fn add(&mut self, call: &Call, answer: &Result<Vec<u8>, u32>) {
        self.tally.add(call, answer);
        match (call.function, answer) {
            (Judge, Ok(verdict)) => self.features.add(&call.data, call.numbers[0] as i64, verdict),
            (Ranks, Ok(verdicts)) => self.ranked.add(&call.data, verdicts),
            (Widen | Narrow, _) => self.moved.add(call, answer),
            _ => {}
        }
    }

    /// Prints what came; the list of what never came.
    fn report(&self) -> Vec<String> {
        [self.tally.report(), self.features.report(), self.ranked.report(), self.moved.report()].concat()
    }
}

/// So many calls of each function; true if every answer is the same and every answer came.
pub fn functions(seed: u64, count: u64, small: bool, words: &[&str]) -> Result<bool, String> {
    let mut harness = Harness::start(words)?;
    let mut shown = Shown::default();
    let mut differences = 0;
    for function in FUNCTIONS {
        for index in 0..count {
            let call = call(function, seed, index, small);
            let expected = call.answer();
            shown.add(&call, &expected);
            if difference(&mut harness, &call, &expected)?.is_some() {
                differences += 1;
                tell(&mut harness, &call)?;
            }
            if differences >= MOST_TOLD {
                return Ok(false);
            }
        }
    }
    let ended = harness.end()?;
    let too_few = count < ENOUGH_FOR_ALL || small;
    let missing = if too_few { vec![] } else { told(shown.report()) };
    println!("functions: {count} calls of each of five functions, of judging in either edition, seed {seed}: {differences} differ");
    Ok(differences == 0 && ended && missing.is_empty())
}

/// So many calls of each function, answered by the reference alone; true if every answer came.
pub fn came(seed: u64, count: u64) -> Result<bool, String> {
    let mut shown = Shown::default();
    for function in FUNCTIONS {
        for index in 0..count {
            let call = call(function, seed, index, false);
            shown.add(&call, &call.answer());
        }
    }
    Ok(told(shown.report()).is_empty())
}

fn told(missing: Vec<String>) -> Vec<String> {
    for answer in &missing {
        println!("MISSING {answer}");
    }
    missing
}
