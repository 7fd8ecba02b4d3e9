//! Judges generated recordings and counts the answers.

use crate::generate::case;
use crate::verdict::{judge, Verdict};
use std::collections::BTreeMap;

/// How often an answer was given, and over how many records in all.
#[derive(Default)]
struct Times {
    times: usize,
    records: usize,
}

pub fn count(seed: &str, count: &str, small: bool) -> Result<bool, String> {
    let number = |text: &str| text.parse::<u64>().map_err(|_| format!("not a number: {text}"));
    let (seed, count) = (number(seed)?, number(count)?);
    let mut answers: BTreeMap<(u8, u32), Times> = BTreeMap::new();
    let mut long = 0;
    for index in 0..count {
        let case = case(seed, index, small);
        let (answer, records) = match judge(&case.recording, Some(case.end), case.lent) {
            Err(refusal) => ((2, refusal), case.recording.len() / 6),
            Ok(closings) => match closings[0].verdict {
                Verdict::Clean { records, .. } => ((0, 0), records),
                Verdict::Broken(broken) => ((1, broken.rule as u32), case.recording.len() / 6 - 1),
            },
        };
        let times = answers.entry(answer).or_default();
        times.times += 1;
        times.records += records;
        long += (answer.0 < 2 && records > 1000) as usize;
    }
    for ((outcome, which), times) in &answers {
        let name = ["clean", "broken", "refused"][*outcome as usize];
        println!("{name} {which}: {} times, {} records each", times.times, times.records / times.times);
    }
    println!("taken and over 1,000 records: {long}");
    Ok(true)
}
