//! Damage to a good recording, and the faults that make it refused.

use crate::edition::{step, Edition, Edition::*, Wide};
use crate::header::{least_period, GREATEST_PERIOD};
use crate::random::Random;
use crate::recording::{Record, GREATEST_END, MOST_RECORDS};

/// A recording made in this edition, its end edge, and the length of the buffer lent for its verdict.
#[derive(Clone)]
pub struct Case {
    pub edition: Edition,
    pub recording: Vec<u8>,
    pub end: u64,
    pub lent: usize,
}

impl Case {
    pub fn section(&self) -> &[u8] {
        self.recording.get(6..).unwrap_or(&[])
    }

    pub fn last_edge(&self) -> u64 {
        self.edition.last_edge(self.section()) as u64
    }

    pub fn count(&self) -> usize {
        self.section().len() / self.edition.size()
    }

    /// Where the record with this number, from 0, stands.
    fn place(&self, number: usize) -> std::ops::Range<usize> {
        let start = 6 + self.edition.size() * number;
        start..start + self.edition.size()
    }

    /// Some record's place; if there is none, that of a new NOP.
    fn any_place(&mut self, random: &mut Random) -> std::ops::Range<usize> {
        if self.count() == 0 {
            self.recording.truncate(6);
            self.recording.extend(nop(self.edition));
        }
        self.place(random.below(self.count() as u64) as usize)
    }
}

/// A NOP for every rank, far behind the record before it.
pub fn nop(edition: Edition) -> Vec<u8> {
    let record = Record { step: 1 << 20, cke: true, pins: 0b0111, ba: 0, a: 0 };
    match edition {
        One => record.write().to_vec(),
        Two => Wide { cs: [false; 2], ..Wide::of(&record) }.write().to_vec(),
    }
}

/// A field flipped, a record dropped, doubled, swapped, a spacing shortened.
pub fn damage(random: &mut Random, case: &mut Case) {
    let (records, size) = (case.count(), case.edition.size());
    if records < 2 {
        return;
    }
    let place = case.place(random.between(0, records as i64 - 2) as usize);
    let record = case.recording[place.clone()].to_vec();
    match random.below(6) {
        0 => case.recording[place].copy_from_slice(&with_field_changed(random, case.edition, &record)),
        1 => drop(case.recording.drain(place)),
        2 => drop(case.recording.splice(place.start..place.start, record)),
        3 => case.recording[place.start..place.end + size].rotate_left(size),
        4 => case.recording[place].copy_from_slice(&with_step_shortened(random, &record)),
        _ => case.recording[place.start + random.below(6) as usize] ^= 1 << random.below(8),
    }
}

/// One of edition 2 has its CS changed too, and its zero bits stay.
fn with_field_changed(random: &mut Random, edition: Edition, record: &[u8]) -> Vec<u8> {
    if edition == One {
        return changed(random, Record::read(record)).write().to_vec();
    }
    let mut wide = Wide::read(record);
    let rank = random.below(2) as usize;
    if random.chance(30) {
        wide.cs[rank] = !wide.cs[rank];
        return wide.write().to_vec();
    }
    let Record { cke, pins, ba, a, .. } = changed(random, wide.seen_by(rank));
    wide.cs[rank] = pins >> 3 == 1;
    Wide { cke, command: pins & 0b111, ba, a, ..wide }.write().to_vec()
}

fn changed(random: &mut Random, mut record: Record) -> Record {
    match random.below(5) {
        0 => record.cke = !record.cke,
        1 => record.pins = random.below(16) as u8,
        2 => record.ba = random.below(8) as u8,
        3 => record.a ^= 1 << random.pick(&[8, 10, 12]),
        _ => record.a = random.next() as u16,
    }
    record
}

fn with_step_shortened(random: &mut Random, record: &[u8]) -> Vec<u8> {
    let less = random.pick(&[1, 1, 2, 5, 20]);
    let step = (step(record) - less).max(1) as u32;
    [&step.to_be_bytes()[1..], &record[3..]].concat()
}

/// Makes the refusal's condition hold, and leaves those of lower refusals. 0 does nothing.
pub fn make_fault(random: &mut Random, case: &mut Case, refusal: u32) {
    match refusal {
        1 => case.recording.truncate(random.below(6) as usize),
        2 => set_edition(random, case, &[0, 3, 5, 9, 15]),
        3 => set_zero_field(random, &mut case.recording),
        4 => set_period_outside(random, &mut case.recording),
        5 => case.recording.extend((0..random.between(1, case.edition.size() as i64 - 1)).map(|_| 0xA5)),
        6 => zero_a_step(random, case),
        7 => pass_the_limit(random, case),
        8 => move_end_outside(random, case),
        9 => case.lent = random.below(20 * case.edition.ranks() as u64) as usize,
        13 => keep_from_going_back(random, case),
        14 => set_zero_bits(random, case),
        _ => {}
    }
}

pub fn set_edition(random: &mut Random, case: &mut Case, editions: &[u8]) {
    case.recording[0] = case.recording[0] & 0x0F | random.pick(editions) << 4;
}

/// RESET, the second CS, ODT: one of them, or some.
fn keep_from_going_back(random: &mut Random, case: &mut Case) {
    let place = case.any_place(random);
    let bits = random.pick(&[0x80, 0x10, 0x08, 0x90, 0x18, 0x98]);
    case.recording[place.start + 3] ^= bits;
}

/// One of the 13 bits in some record of edition 2, or more of them.
fn set_zero_bits(random: &mut Random, case: &mut Case) {
    let place = case.any_place(random);
    let bits = 1 << random.below(13) | random.pick(&[0, 0, 0, 0x1FFF]);
    case.recording[place.start + 6] |= (bits >> 8) as u8;
    case.recording[place.start + 7] |= bits as u8;
}

fn set_zero_field(random: &mut Random, recording: &mut [u8]) {
    let bit = random.below(27);
    match bit {
        24..=26 => recording[1] |= 1 << (bit - 24 + 4),
        _ => recording[3 + bit as usize / 8] |= 1 << (bit % 8),
    }
}

fn set_period_outside(random: &mut Random, recording: &mut [u8]) {
    let bin = recording[0] as usize >> 2 & 3;
    let under = random.between(0, least_period(bin) - 1);
    let over = random.between(GREATEST_PERIOD + 1, 4095);
    let period = random.pick(&[0, least_period(bin) - 1, under, GREATEST_PERIOD + 1, 4095, over]);
    recording[1] = recording[1] & 0xF0 | (period >> 8) as u8;
    recording[2] = period as u8;
}

fn zero_a_step(random: &mut Random, case: &mut Case) {
    let place = case.any_place(random);
    case.recording[place][..3].fill(0);
}

/// NOPs in the middle of the section, far apart.
fn fill_to(case: &mut Case, records: usize) {
    let nops = nop(case.edition).repeat(records.saturating_sub(case.count()));
    case.recording.splice(6..6, nops);
}

fn pass_the_limit(random: &mut Random, case: &mut Case) {
    fill_to(case, MOST_RECORDS + random.pick(&[1, 1, 2, 1000]));
}

pub fn fill_to_the_limit(case: &mut Case) {
    fill_to(case, MOST_RECORDS);
}

fn move_end_outside(random: &mut Random, case: &mut Case) {
    let last = case.last_edge();
    let above = GREATEST_END + 1 + random.below(1000);
    case.end = random.pick(&[GREATEST_END + 1, above, u64::MAX]);
    if last > 0 && random.chance(60) {
        case.end = random.pick(&[last - 1, 0, last / 2]);
    }
}
