//! How often each answer was given and each two refusals held at once, and what of the list never came.

use crate::calls::{Call, Function, Function::*};
use crate::registers::{all_bit_names, bit_name};
use std::collections::BTreeMap;

/// From so many calls of each function on, every answer and every two refusals must have come.
pub const ENOUGH_FOR_ALL: u64 = 20000;

/// No recording has rule 28 as its verdict: the last REF is older than the entry, so 31 is broken before it, or 25 where
/// there is no REF.
pub const NEVER_TOLD: u8 = 28;

/// Refusals in the order in which they are checked.
const CHECKS: [(Function, &[u32]); 6] = [
    (Judge, &[9, 1, 2, 3, 4, 5, 7, 6, 8]),
    (Register, &[9, 1, 2, 3, 4, 11]),
    (Burst, &[10, 9]),
    (Ranks, &[9, 1, 3, 4, 5, 7, 6, 14, 8]),
    (Widen, &[1, 2, 3, 4, 5, 7, 6, 9]),
    (Narrow, &[1, 2, 3, 4, 5, 7, 6, 14, 13, 9]),
];

/// A recording too short for a header has no records.
const NEVER_BOTH: [(u32, u32); 5] = [(1, 5), (1, 7), (1, 6), (1, 14), (1, 13)];

#[derive(Default)]
pub struct Tally {
    answers: BTreeMap<(Function, String), u64>,
    both: BTreeMap<(Function, u32, u32), u64>,
}

/// What a call's answer is called; of two ranks, what each one's is.
fn names_of(call: &Call, answer: &Result<Vec<u8>, u32>) -> Vec<String> {
    vec![match (answer, call.function) {
        (Err(refusal), Register) if refusal % 256 == 11 => {
            format!("refused 11, {}", bit_name(call.numbers[0] as u32, refusal / 256))
        }
        (Err(refusal), _) => format!("refused {refusal}"),
        (Ok(bytes), Judge) => verdict_name(bytes),
        (Ok(bytes), Ranks) => {
            return (1..).zip(bytes.chunks(20)).map(|(rank, own)| of_rank(rank, verdict_name(own))).collect()
        }
        (Ok(_), Register) => format!("MR{}", call.numbers[0]),
        (Ok(bytes), Burst) => {
            let [_, start, kind, direction] = call.numbers;
            format!("{} words from {start}, type {}, direction {}", bytes.len(), kind.min(1), direction.min(1))
        }
        (Ok(_), Widen | Narrow) => "moved".to_string(),
    }]
}

fn verdict_name(bytes: &[u8]) -> String {
    if bytes[0] == 0 {
        "clean".to_string()
    } else {
        format!("rule {}", bytes[1])
    }
}

fn of_rank(rank: usize, name: String) -> String {
    format!("rank {rank} {name}")
}

fn verdict_names() -> impl Iterator<Item = String> {
    let rules = (1..=31).filter(|rule| *rule != NEVER_TOLD);
    std::iter::once("clean".to_string()).chain(rules.map(|rule| format!("rule {rule}")))
}

/// Every answer that a function has, refusals first.
fn all_names(function: Function, checks: &[u32]) -> Vec<String> {
    let refusals = checks.iter().filter(|refusal| **refusal != 11).map(|refusal| format!("refused {refusal}"));
    let taken: Vec<String> = match function {
        Judge => verdict_names().collect(),
        Ranks => [1, 2].into_iter().flat_map(|rank| verdict_names().map(move |name| of_rank(rank, name))).collect(),
        Widen | Narrow => vec!["moved".to_string()],
        Register => {
            let bits = all_bit_names().map(|name| format!("refused 11, {name}"));
            bits.chain((0..4).map(|number| format!("MR{number}"))).collect()
        }
        Burst => (0..64)
            .map(|n| {
                let words = 4 + n / 32 * 4;
                format!("{words} words from {}, type {}, direction {}", n % 8, n / 8 % 2, n / 16 % 2)
            })
            .collect(),
    };
    refusals.chain(taken).collect()
}

fn all_pairs(function: Function, checks: &'static [u32]) -> impl Iterator<Item = (u32, u32)> {
    let pairs = checks.iter().enumerate().flat_map(|(place, a)| checks[place + 1..].iter().map(move |b| (*a, *b)));
    pairs.filter(move |pair| function == Register || !NEVER_BOTH.contains(pair))
}

impl Tally {
    pub fn add(&mut self, call: &Call, answer: &Result<Vec<u8>, u32>) {
        for name in names_of(call, answer) {
            *self.answers.entry((call.function, name)).or_default() += 1;
        }
        let held = call.conditions();
        for (place, a) in held.iter().enumerate() {
            for b in &held[place + 1..] {
                for pair in [(*a, *b), (*b, *a)] {
                    *self.both.entry((call.function, pair.0, pair.1)).or_default() += 1;
                }
            }
        }
    }

    /// Prints the counts; the list of what never came.
    pub fn report(&self) -> Vec<String> {
        let mut missing = vec![];
        for (function, checks) in CHECKS {
            let times = |name: &String| self.answers.get(&(function, name.clone())).copied().unwrap_or(0);
            let together = |(a, b): (u32, u32)| self.both.get(&(function, a, b)).copied().unwrap_or(0);
            let names = all_names(function, checks);
            let told: Vec<String> = names.iter().map(|name| format!("{name}: {}", times(name))).collect();
            let shown = if function == Burst { &told[..checks.len()] } else { &told[..] };
            println!("{function:?}: {}", shown.join(", "));
            let taken = names.iter().filter(|name| !name.starts_with("refused"));
            let least = taken.map(times).min().unwrap_or(0);
            let pairs: Vec<(u32, u32)> = all_pairs(function, checks).collect();
            let least_pair = pairs.iter().map(|pair| together(*pair)).min().unwrap_or(0);
            println!("  each answer that is no refusal at least {least} times; {} pairs of refusals at once, each at least {least_pair} times", pairs.len());
            missing.extend(names.iter().filter(|name| times(name) == 0).map(|name| format!("{function:?}: {name}")));
            let never = pairs.iter().filter(|pair| together(**pair) == 0);
            missing.extend(never.map(|(a, b)| format!("{function:?}: refusals {a} and {b} at once")));
        }
        missing
    }
}
