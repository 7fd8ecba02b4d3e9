//! Judging a whole recording: the verdict, and the picture at its end.

use crate::banks::{bank_at, Bank};
use crate::deadlines::{broken_by_deadline, debt_at, edges_to_examine};
use crate::edition::{room, Edition};
use crate::header::Header;
use crate::recording::{
    last_edge, open, read_recording, read_records, registers_after, section_refusal, Event, GREATEST_END,
};
use crate::registers::Registers;
use crate::rules::{broken_by_record, Break};
use crate::waits::waits;

#[derive(Clone, Copy, Debug, PartialEq)]
pub enum Verdict {
    Clean { records: usize, end: i64 },
    Broken(Break),
}

/// What closing returns of a rank: verdict, bank states, registers and debt.
pub struct Closing {
    pub verdict: Verdict,
    pub banks: Vec<Bank>,
    pub registers: Registers,
    pub debt: i64,
}

/// What is broken at this edge, the lowest rule first; the past holds the records up to it.
pub fn broken_at(header: &Header, past: &[Event], edge: i64) -> Option<Break> {
    (1..=31).find_map(|rule| match rule {
        24 | 25 | 28 | 31 => broken_by_deadline(header, past, edge, rule),
        _ if last_edge(past) == edge => broken_by_record(header, past, rule),
        _ => None,
    })
}

/// The first break after the last record and up to the given edge.
fn broken_in_gap(header: &Header, past: &[Event], until: i64) -> Option<Break> {
    let edges = edges_to_examine(header, past, last_edge(past), until);
    edges.into_iter().find_map(|edge| broken_at(header, past, edge))
}

/// The first break up to the end, and the records up to it (all of them when there is none).
fn first_break(header: &Header, section: &[u8], end: i64) -> (Option<Break>, Vec<Event>) {
    let mut past = Vec::new();
    for record in read_records(section) {
        let event = Event::after(&past, &record);
        let in_gap = broken_in_gap(header, &past, event.edge - 1);
        if in_gap.is_some() {
            return (in_gap, past);
        }
        past.push(event);
        let at_record = broken_at(header, &past, event.edge);
        if at_record.is_some() {
            return (at_record, past);
        }
    }
    (broken_in_gap(header, &past, end), past)
}

/// The first break, the last edge before it (else the end), and the records up to that edge.
fn standing(header: &Header, section: &[u8], end: i64) -> (Option<Break>, i64, Vec<Event>) {
    let (broken, mut past) = first_break(header, section, end);
    let edge = broken.map_or(end, |broken| broken.edge - 1);
    past.retain(|event| event.edge <= edge);
    (broken, edge, past)
}

/// The waiting times after a section's records; once broken they stay as they were just before the broken edge.
pub fn waits_after(header: &Header, section: &[u8]) -> Vec<i64> {
    waits(header, &standing(header, section, Edition::One.last_edge(section)).2)
}

/// Once broken, banks, registers and debt stay as they were just before the broken edge.
fn close(header: &Header, section: &[u8], end: i64) -> Closing {
    let (broken, edge, past) = standing(header, section, end);
    Closing {
        verdict: broken.map_or(Verdict::Clean { records: section.len() / 6, end }, Verdict::Broken),
        banks: (0..8).map(|bank| bank_at(header, &past, bank, edge)).collect(),
        registers: registers_after(&past),
        debt: debt_at(header, &past, edge),
    }
}

/// Judging a whole recording, one closing a rank: refusals 9, 1, 2, 3, 4, 5, 7, 6, 14, 8 in this order.
/// With no end given, the end is the last record's edge.
pub fn judge(recording: &[u8], end: Option<u64>, lent: usize) -> Result<Vec<Closing>, u32> {
    if lent < room(recording) {
        return Err(9);
    }
    let (edition, header, section) = read_recording(recording)?;
    let last = edition.last_edge(section) as u64;
    let end = end.unwrap_or(last);
    if end < last || end > GREATEST_END {
        return Err(8);
    }
    Ok((0..edition.ranks()).map(|rank| close(&header, &edition.seen_by(section, rank), end as i64)).collect())
}

/// Outcome 8, rule 8, record 24, partner 24, edge 48, needed 24, found 24.
pub fn verdict_bytes(verdict: &Verdict) -> [u8; 20] {
    let (outcome, broken) = match verdict {
        Verdict::Clean { records, end } => (0, Break { record: *records, edge: *end, ..Break::default() }),
        Verdict::Broken(broken) => (1, *broken),
    };
    let mut bytes = vec![outcome, broken.rule];
    let mut put = |value: i64, size: usize| bytes.extend(&value.to_be_bytes()[8 - size..]);
    put(broken.record as i64, 3);
    put(broken.partner as i64, 3);
    put(broken.edge, 6);
    put(broken.needed, 3);
    put(broken.found, 3);
    bytes.try_into().unwrap()
}

pub fn verdict_line(verdict: &Verdict) -> String {
    match verdict {
        Verdict::Clean { records, end } => format!("clean {records} {end}"),
        Verdict::Broken(b) => {
            format!("broken {} {} {} {} {} {}", b.rule, b.record, b.partner, b.edge, b.needed, b.found)
        }
    }
}

/// The verdicts' bytes, the first rank's first.
pub fn all_bytes(closings: &[Closing]) -> Vec<u8> {
    closings.iter().flat_map(|closing| verdict_bytes(&closing.verdict)).collect()
}

/// A line a rank, the first rank's first; one line where it is refused.
pub fn lines(answer: &Result<Vec<Closing>, u32>) -> Vec<String> {
    match answer {
        Ok(closings) => closings.iter().map(|closing| verdict_line(&closing.verdict)).collect(),
        Err(refusal) => vec![format!("refused {refusal}")],
    }
}

/// The program's lines: header first, then sections of 6,000 bytes, stopping at the first refusal.
pub fn program_lines(input: &[u8]) -> Vec<String> {
    lines(&stepwise(input).and_then(|_| judge(input, None, usize::MAX)))
}

fn stepwise(input: &[u8]) -> Result<(), u32> {
    let (header, rest) = input.split_at(input.len().min(6));
    let (edition, _) = open(header)?;
    let mut records = 0;
    for section in rest.chunks(6000) {
        section_refusal(edition, section, records).map_or(Ok(()), Err)?;
        records += section.len() / edition.size();
    }
    Ok(())
}
