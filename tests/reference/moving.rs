//! The calls that move a recording between the editions, and what they must have among them.

use crate::calls::{Call, Function, Function::*};
use crate::damage::{fill_to_the_limit, make_fault, set_edition, Case};
use crate::edition::{step, Edition, Edition::*, Wide};
use crate::features::told;
use crate::random::Random;
use crate::recording::Record;
use crate::settings::{header_bytes, random_header};
use std::collections::BTreeMap;

/// One recording in this many is over the limit or just at it.
const OVER_THE_LIMIT_EVERY: u64 = 250;

/// Refusals that hold beside 7, in turn; 0 is 7 alone.
const BESIDE_THE_LIMIT: [&[u32]; 2] = [&[0, 2, 3, 4, 5, 6, 9, LIMIT_KEPT], &[0, 2, 3, 4, 5, 6, 14, 13, 9, LIMIT_KEPT]];
const LIMIT_KEPT: u32 = 100;

/// By edition, in an order in which making one leaves those before it.
const FAULTS: [&[u32]; 2] = [&[2, 3, 4, 6, 5, 9, 1], &[2, 3, 4, 6, 14, 13, 5, 9, 1]];

/// Editions that a move does not start from.
const OTHERS: [&[u8]; 2] = [&[0, 2, 2, 3, 15], &[0, 1, 1, 3, 15]];

pub fn move_call(random: &mut Random, function: Function, index: u64, small: bool) -> Call {
    let edition = if function == Widen { One } else { Two };
    let mut case = any_records(random, edition);
    if index % OVER_THE_LIMIT_EVERY == OVER_THE_LIMIT_EVERY - 1 && !small {
        around_the_limit(random, &mut case, index / OVER_THE_LIMIT_EVERY);
    } else {
        let count = random.pick(&[0, 0, 0, 1, 2, 2, 3]);
        let faults = FAULTS[edition.ranks() - 1];
        let wanted: Vec<u32> = (0..count).map(|_| random.pick(faults)).collect();
        case.lent = wanted_room(&case) + random.pick(&[0, 0, 1, 8, 40]);
        faults.iter().filter(|fault| wanted.contains(fault)).for_each(|fault| spoil(random, &mut case, *fault));
    }
    Call { function, data: case.recording, numbers: [0; 4], lent: case.lent }
}

fn wanted_room(case: &Case) -> usize {
    6 + case.count() * if case.edition == One { 8 } else { 6 }
}

fn spoil(random: &mut Random, case: &mut Case, fault: u32) {
    match fault {
        2 => set_edition(random, case, OTHERS[case.edition.ranks() - 1]),
        9 => {
            let room = wanted_room(case);
            case.lent = random.pick(&[0, 5, room - 1, room - 1, room / 2]);
        }
        _ => make_fault(random, case, fault),
    }
}

/// Records of any bits, but for the step and what a move asks for.
fn any_records(random: &mut Random, edition: Edition) -> Case {
    let mut recording = header_bytes(&random_header(random)).to_vec();
    recording[0] = edition.number() << 4 | recording[0] & 15;
    let longest = random.pick(&[0, 1, 3, 10, 40]);
    for _ in 0..random.between(0, longest) {
        let six = &random.next().to_be_bytes()[..6];
        let record = Record::read(six);
        let record = Record { step: record.step.max(1), ..record };
        match edition {
            One => recording.extend(record.write()),
            Two => recording.extend(Wide::of(&record).write()),
        }
    }
    Case { edition, recording, end: 0, lent: 0 }
}

fn around_the_limit(random: &mut Random, case: &mut Case, turn: u64) {
    let others = BESIDE_THE_LIMIT[case.edition.ranks() - 1];
    let beside = others[turn as usize % others.len()];
    if beside == LIMIT_KEPT {
        fill_to_the_limit(case);
        deselect_all(case);
        case.lent = wanted_room(case);
        return;
    }
    make_fault(random, case, 7);
    deselect_all(case);
    case.lent = wanted_room(case);
    spoil(random, case, beside);
}

/// The second CS high in each record, as a move back wants it.
fn deselect_all(case: &mut Case) {
    if case.edition == Two {
        case.recording[6..].chunks_mut(8).for_each(|eight| eight[3] |= 0x10);
    }
}

#[derive(Default)]
pub struct Moved(BTreeMap<String, u64>);

const CAUSES: [&str; 3] = ["13 by RESET 0 alone", "13 by the second CS 0 alone", "13 by ODT 1 alone"];
const ORDERS: [&str; 5] = [
    "13 by the last record alone",
    "14 by the last record alone",
    "14 behind a record that cannot go back",
    "6 behind a record with zero bits set",
    "6 behind a record that cannot go back",
];
const ROOMS: [&str; 3] = ["no record", "lent just the room", "lent more"];

fn of_room(function: Function, which: usize) -> String {
    format!("{function:?}, {}", ROOMS[which])
}

fn zero_bit(place: u32) -> String {
    format!("14 by zero bit {place} alone")
}

fn all() -> Vec<String> {
    let rooms = [Widen, Narrow].into_iter().flat_map(|function| (0..3).map(move |which| of_room(function, which)));
    let told = CAUSES.iter().chain(&ORDERS).map(|name| name.to_string());
    rooms.chain(told).chain((0..13).map(zero_bit)).collect()
}

impl Moved {
    pub fn add(&mut self, call: &Call, answer: &Result<Vec<u8>, u32>) {
        let names = match answer {
            Ok(bytes) => vec![
                Some(of_room(call.function, 1 + (call.lent > bytes.len()) as usize)),
                (bytes.len() == 6).then(|| of_room(call.function, 0)),
            ],
            Err(refusal @ (6 | 13 | 14)) if call.function == Narrow => refused(*refusal, &call.data[6..]),
            _ => vec![],
        };
        for name in names.into_iter().flatten() {
            *self.0.entry(name).or_default() += 1;
        }
    }

    /// Prints how many of the features came and the rarest; the list of those that never came.
    pub fn report(&self) -> Vec<String> {
        told("features of moves", &self.0, all())
    }
}

/// What is shown by a section that is refused by 6, 14 or 13.
fn refused(refusal: u32, section: &[u8]) -> Vec<Option<String>> {
    let records: Vec<Wide> = Two.records(section).map(Wide::read).collect();
    let staying: Vec<usize> = (0..records.len()).filter(|place| !records[*place].can_go_back()).collect();
    let marked: Vec<usize> = (0..records.len()).filter(|place| records[*place].zeros != 0).collect();
    let still = Two.records(section).position(|eight| step(eight) == 0);
    let behind = |first: Option<&usize>, later: Option<usize>| first.is_some_and(|first| later > Some(*first));
    let order = |place: usize, holds: bool| holds.then(|| ORDERS[place].to_string());
    let last = records.len().saturating_sub(1);
    match refusal {
        13 => {
            let wide = records[staying[0]];
            let causes = [!wide.reset, !wide.cs[1], wide.odt];
            let alone = staying.len() == 1 && causes.iter().filter(|cause| **cause).count() == 1;
            let cause = causes.iter().position(|cause| *cause).filter(|_| alone);
            vec![cause.map(|which| CAUSES[which].to_string()), order(0, last > 0 && staying == [last])]
        }
        14 => {
            let bits = records[marked[0]].zeros;
            let alone = marked.len() == 1 && bits.count_ones() == 1;
            let behind_staying = behind(staying.first(), marked.first().copied());
            vec![
                alone.then(|| zero_bit(bits.trailing_zeros())),
                order(1, last > 0 && marked == [last]),
                order(2, behind_staying),
            ]
        }
        _ => vec![order(3, behind(marked.first(), still)), order(4, behind(staying.first(), still))],
    }
}
