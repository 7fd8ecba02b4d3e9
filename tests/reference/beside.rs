//! Recordings of edition 2: one rank is driven as in a recording of edition 1, and the other beside it.

use crate::controller::Controller;
use crate::damage::Case;
use crate::edition::{Edition, Edition::*, Wide};
use crate::generate::{aimed_on, temper_for};
use crate::header::{read_header, Header};
use crate::random::Random;
use crate::recording::{cke_after, read_records, Record};
use crate::slips::would_break;

/// So many records of the other rank stand between two of the first, at most.
const MOST_BETWEEN: usize = 6;

const DESELECTED: u8 = 0b1000;

/// A record at its edge, and which ranks it goes to.
struct Sent {
    edge: i64,
    record: Record,
    to: [bool; 2],
}

/// The recording on one of two ranks. RESET and ODT are as in one that was moved, or anything.
pub fn on_two_ranks(random: &mut Random, narrow: &Case) -> Case {
    let sent = match random.weighted(&[60, 8, 10, 8, 14]) {
        0 => with_an_own_controller(random, narrow),
        1 => addressed(narrow, |_| [true, true]),
        2 => addressed(narrow, |_| [true, false]),
        3 => addressed(narrow, |_| random.pick(&[[true, true], [true, false], [false, true], [false, false]])),
        _ => merged_with_another(random, narrow),
    };
    let swapped = random.chance(50);
    let any_levels = random.chance(60);
    let mut recording = narrow.recording[..6].to_vec();
    recording[0] = Two.number() << 4 | recording[0] & 15;
    let mut last = 0;
    for Sent { edge, record, to } in &sent {
        let to = if swapped { [to[1], to[0]] } else { *to };
        let wide =
            Wide { cs: to.map(|own| !own || record.pins & DESELECTED != 0), step: edge - last, ..Wide::of(record) };
        let (reset, odt) = if any_levels { (random.chance(50), random.chance(50)) } else { (true, false) };
        recording.extend(Wide { reset, odt, ..wide }.write());
        last = *edge;
    }
    let before = narrow.last_edge();
    let end = if narrow.end >= before { narrow.end.max(last as u64) } else { narrow.end };
    Case { edition: Two, recording, end, lent: 40 }
}

fn addressed(narrow: &Case, mut to: impl FnMut(&Record) -> [bool; 2]) -> Vec<Sent> {
    let mut edge = 0;
    let sent = |record: Record| {
        edge += record.step;
        Sent { edge, record, to: to(&record) }
    };
    read_records(narrow.section()).map(sent).collect()
}

fn header_of(narrow: &Case) -> Header {
    read_header(narrow.recording[..6].try_into().unwrap()).unwrap()
}

/// The other rank has a controller that makes no mistake while CKE is high. It sees the first one's changes of CKE, and now
/// and then it is given the same command. Behind the last record it may go on alone.
fn with_an_own_controller(random: &mut Random, narrow: &Case) -> Vec<Sent> {
    let temper = temper_for(random, 0);
    let mut other = Controller::new(header_of(narrow), temper, Random::new(random.next()));
    let together = random.pick(&[0, 20, 60]);
    let mut sent = vec![];
    for Sent { edge, record, .. } in addressed(narrow, |_| [true, false]) {
        sent.extend(on_its_own(&mut other, MOST_BETWEEN, edge));
        let both = random.chance(together) && would_break(&other, &record, edge).is_none();
        let seen = if both { record } else { Record { pins: record.pins | DESELECTED, ..record } };
        other.issue(seen, edge);
        sent.push(Sent { edge, record, to: [true, both] });
    }
    let more = random.pick(&[0, 0, 5, 20]);
    sent.extend(on_its_own(&mut other, more, i64::MAX));
    sent
}

/// Commands of this rank alone, in good time for it, up to the edge.
fn on_its_own(other: &mut Controller, most: usize, until: i64) -> Vec<Sent> {
    let mut sent = vec![];
    while sent.len() < most && cke_after(&other.past) {
        let record = other.choose();
        let edge = other.comfortable_edge(&record);
        if !record.cke || edge >= until {
            break;
        }
        other.issue(record, edge);
        sent.push(Sent { edge, record, to: [false, true] });
    }
    sent
}

/// A second recording under the same header, its records between those of the first. CKE is low where one of the two has
/// it low; a record at the edge of another is left out, or goes to both if it is the same command.
fn merged_with_another(random: &mut Random, narrow: &Case) -> Vec<Sent> {
    let rule = random.pick(&[0, 0, 4, 5, 7, 9, 12, 15, 20, 25, 31]);
    let length = random.between(10, 60) as usize;
    let another = aimed_on(random, header_of(narrow), rule, length, length / 2);
    let mut all = addressed(narrow, |_| [true, false]);
    all.extend(addressed(&another, |_| [false, true]));
    all.sort_by_key(|sent| sent.edge);
    let mut levels = [true, true];
    let mut merged: Vec<Sent> = vec![];
    for mut sent in all {
        levels[sent.to[1] as usize] = sent.record.cke;
        sent.record.cke = levels[0] && levels[1];
        match merged.last_mut().filter(|last| last.edge == sent.edge) {
            Some(last) if last.record.pins == sent.record.pins => last.to = [true, true],
            Some(_) => {}
            None => merged.push(sent),
        }
    }
    merged
}

/// Anything, soon; zero bits are zero.
pub fn random_records(random: &mut Random, edition: Edition, count: u64) -> Vec<u8> {
    let mut bytes = vec![];
    for _ in 0..count {
        let step = 1 + random.below(100) as i64;
        let pins = random.next() as u8;
        let (ba, a) = (random.below(8) as u8, random.next() as u16);
        let record = Record { step, cke: random.chance(85), pins: pins & 15, ba, a };
        match edition {
            One => bytes.extend(record.write()),
            Two => {
                let cs = [pins >> 4 & 1 == 1, pins >> 5 & 1 == 1];
                bytes.extend(Wide { cs, reset: pins >> 6 & 1 == 1, odt: pins >> 7 == 1, ..Wide::of(&record) }.write())
            }
        }
    }
    bytes
}
