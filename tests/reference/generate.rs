//! The recordings: aimed at a rule or clean, damaged, malformed, noise.

use crate::beside::{on_two_ranks, random_records};
use crate::controller::{Controller, Temper};
use crate::damage::{damage, fill_to_the_limit, make_fault, Case};
use crate::edition::{Edition, Edition::*};
use crate::header::Header;
use crate::random::Random;
use crate::recording::GREATEST_END;
use crate::settings::{header_bytes, header_for_rule, random_header};
use crate::slips::slip;
use crate::tally::NEVER_TOLD;

/// ACT, RD, WR, PRE, REF, MRS, ZQ, SRE, NOP, PDE.
const MIXED: [u64; 10] = [20, 20, 15, 12, 4, 3, 1, 1, 6, 3];
const ROWS: [u64; 10] = [40, 5, 5, 30, 2, 1, 0, 0, 2, 1];
const COLUMNS: [u64; 10] = [15, 40, 35, 8, 1, 1, 0, 0, 2, 1];
const UPKEEP: [u64; 10] = [6, 4, 4, 6, 20, 15, 8, 8, 6, 4];
const READ_THEN_SET: [u64; 10] = [15, 25, 2, 10, 1, 25, 0, 15, 1, 0];
const CLOSING: [u64; 10] = [30, 22, 22, 6, 3, 4, 2, 2, 2, 2];
const SLEEPER: [u64; 10] = [5, 6, 3, 4, 12, 3, 2, 25, 5, 10];
const NAPPER: [u64; 10] = [15, 15, 15, 8, 3, 4, 1, 3, 3, 35];

/// One recording in this many is over the limit or just at it: its line has twelve million digits.
const OVER_THE_LIMIT_EVERY: u64 = 250;
const LONG_EVERY: u64 = 1000;

/// Refusals that hold beside 7, in turn; 0 is 7 alone.
const BESIDE_THE_LIMIT: [&[u32]; 2] =
    [&[0, 2, 3, 4, 5, 6, 8, 9, 0, 6, 8, LIMIT_KEPT], &[0, 14, 3, 4, 5, 6, 8, 9, 14, 6, 8, LIMIT_KEPT]];
const LIMIT_KEPT: u32 = 100;

/// Faults of a recording of any length, by edition, in an order in which making one leaves those before it.
const FAULTS: [&[u32]; 2] = [&[2, 3, 4, 6, 5, 8, 9, 1], &[3, 4, 6, 14, 5, 8, 9, 1]];

/// Lent lengths that do, the least most often.
const ENOUGH: [usize; 5] = [20, 20, 21, 24, 60];

fn enough(random: &mut Random, edition: Edition) -> usize {
    random.pick(&ENOUGH) * edition.ranks()
}

/// The case of this seed and index, of edition 1; `small` leaves out the recordings at and over the limit.
pub fn case(seed: u64, index: u64, small: bool) -> Case {
    case_of(One, seed, index, small)
}

pub fn wide_case(seed: u64, index: u64, small: bool) -> Case {
    case_of(Two, seed ^ 0x2ED1_7102, index, small)
}

fn case_of(edition: Edition, seed: u64, index: u64, small: bool) -> Case {
    let base = Random::new(seed).next();
    let mixed = Random::new(base ^ index.wrapping_mul(0xD134_2543_DE82_EF95)).next();
    let mut random = Random::new(mixed);
    if index % OVER_THE_LIMIT_EVERY == OVER_THE_LIMIT_EVERY - 1 && !small {
        return around_the_limit(&mut random, edition, index / OVER_THE_LIMIT_EVERY);
    }
    if index % LONG_EVERY == LONG_EVERY / 2 {
        let length = random.between(1010, 1300) as usize;
        let rule = random.pick(&[0, 0, 4, 10, 14, 24, 31]);
        let narrow = aimed(&mut random, rule, length, length - 5);
        return in_edition(&mut random, edition, narrow);
    }
    match random.weighted(&[70, 14, 11, 5]) {
        0 => any_aimed(&mut random, edition),
        1 => damaged(&mut random, edition),
        2 => malformed(&mut random, edition),
        _ => noise(&mut random, edition),
    }
}

/// As it is, or on one of two ranks with the other driven beside it.
fn in_edition(random: &mut Random, edition: Edition, narrow: Case) -> Case {
    match edition {
        One => narrow,
        Two => {
            let lent = enough(random, Two);
            Case { lent, ..on_two_ranks(random, &narrow) }
        }
    }
}

fn any_aimed(random: &mut Random, edition: Edition) -> Case {
    let narrow = aimed_at_some_rule(random);
    in_edition(random, edition, narrow)
}

fn aimed_at_some_rule(random: &mut Random) -> Case {
    let mut weights = [2; 32];
    weights[0] = 16;
    weights[NEVER_TOLD as usize] = 0;
    for rarely_reached in [3, 4, 8, 10, 20] {
        weights[rarely_reached] = 4;
    }
    weights[3] = 6;
    weights[19] = 8;
    weights[31] = 6;
    let rule = random.weighted(&weights) as u8;
    let (least, greatest) = random.pick(&[(20, 50), (20, 50), (20, 50), (20, 50), (30, 100), (20, 200)]);
    let length = random.between(least, greatest);
    let slip_after = if rule == 3 { random.between(0, 30) } else { random.between(3, length) };
    aimed(random, rule, length as usize, slip_after as usize)
}

pub fn temper_for(random: &mut Random, rule: u8) -> Temper {
    let weights = match rule {
        2 | 5 => random.pick(&[CLOSING, ROWS, MIXED]),
        4..=9 => random.pick(&[ROWS, ROWS, MIXED]),
        10..=14 => COLUMNS,
        15..=18 => UPKEEP,
        19 => READ_THEN_SET,
        20 => random.pick(&[COLUMNS, SLEEPER, READ_THEN_SET]),
        21..=23 => SLEEPER,
        26..=30 => NAPPER,
        _ => random.pick(&[MIXED, CLOSING, ROWS, COLUMNS, UPKEEP, READ_THEN_SET, READ_THEN_SET, SLEEPER, NAPPER]),
    };
    let postponed = random.between(1, 8);
    Temper {
        weights,
        banks: match rule {
            6 => random.pick(&[1, 1, 2]),
            8 => 8,
            _ => random.pick(&[1, 2, 4, 8, 8, 8]),
        },
        eager: if rule == 6 || rule == 8 { 97 } else { random.pick(&[30, 60, 80, 95]) },
        auto: if weights == CLOSING { 80 } else { random.pick(&[0, 10, 30, 60]) },
        debts: match rule {
            24 | 31 => (0, random.between(-8, -1)),
            _ => (postponed, random.between(-8, postponed - 1)),
        },
        dll_reset: rule != 3 || random.chance(50),
    }
}

/// A clean recording (rule 0), or one in which some record breaks the rule and a few more follow.
pub fn aimed(random: &mut Random, rule: u8, length: usize, slip_after: usize) -> Case {
    let header = header_for_rule(random, rule);
    aimed_on(random, header, rule, length, slip_after)
}

pub fn aimed_on(random: &mut Random, header: Header, rule: u8, length: usize, slip_after: usize) -> Case {
    let temper = temper_for(random, rule);
    let mut controller = Controller::new(header, temper, Random::new(random.next()));
    let mut left = length + 40 * (rule != 0) as usize;
    let mut slipped = rule == 0;
    while left > 0 {
        left -= 1;
        if !slipped && controller.past.len() >= slip_after {
            slipped = slip(&mut controller, rule);
            if slipped {
                left = random.below(8) as usize;
            }
        } else {
            let record = controller.choose();
            let edge = controller.comfortable_edge(&record);
            controller.issue(record, edge);
        }
    }
    let end = end_for(random, &controller);
    let lent = enough(random, One);
    Case { edition: One, recording: [&header_bytes(&header)[..], &controller.section].concat(), end, lent }
}

/// The last record's edge, later, at the next deadline, much later, too early, 2^44, above it.
fn end_for(random: &mut Random, controller: &Controller) -> u64 {
    let last = controller.now();
    let deadline = controller.deadline().map_or(last, |(edge, _)| edge);
    let interval = controller.header.t_refi();
    let end = match random.weighted(&[60, 6, 6, 12, 8, 4, 2, 2]) {
        0 => last,
        1 => last + random.between(1, 100),
        2 => (controller.rising(last) - random.between(0, 1)).max(last),
        3 => deadline + random.between(-1, 1),
        4 => last + random.between(1, 20 * interval),
        5 => GREATEST_END as i64 - random.pick(&[0, 0, 1, 12345]),
        6 => last - random.pick(&[1, 1, 10]),
        _ => GREATEST_END as i64 + random.pick(&[1, 2, 1 << 40]),
    };
    end.max(0) as u64
}

fn damaged(random: &mut Random, edition: Edition) -> Case {
    let mut case = any_aimed(random, edition);
    for _ in 0..random.pick(&[1, 1, 1, 2, 4]) {
        damage(random, &mut case);
    }
    if random.chance(85) {
        case.end = case.last_edge();
    }
    case
}

/// One to three refusals hold at once.
fn malformed(random: &mut Random, edition: Edition) -> Case {
    let rule = random.pick(&[0, 0, 1, 24, 25, 31]);
    let length = random.below(30) as usize;
    let narrow = aimed(random, rule, length, 4);
    let mut case = in_edition(random, edition, narrow);
    let faults = FAULTS[edition.ranks() - 1];
    let wanted: Vec<u32> = (0..random.pick(&[1, 2, 2, 2, 3])).map(|_| random.pick(faults)).collect();
    case.end = case.last_edge();
    for fault in faults.iter().filter(|fault| wanted.contains(fault)) {
        make_fault(random, &mut case, *fault);
    }
    case
}

fn around_the_limit(random: &mut Random, edition: Edition, turn: u64) -> Case {
    let narrow = aimed(random, 0, 20, 0);
    let mut case = in_edition(random, edition, narrow);
    let others = BESIDE_THE_LIMIT[edition.ranks() - 1];
    let beside = others[turn as usize % others.len()];
    if beside == LIMIT_KEPT {
        fill_to_the_limit(&mut case);
        case.end = case.last_edge();
        return case;
    }
    make_fault(random, &mut case, 7);
    case.end = case.last_edge();
    make_fault(random, &mut case, beside);
    case
}

/// Random bytes; random records after a good header; random records after a good start.
fn noise(random: &mut Random, edition: Edition) -> Case {
    let kind = random.below(3);
    let mut recording: Vec<u8> = match kind {
        0 => (0..random.below(80)).map(|_| random.next() as u8).collect(),
        1 => {
            let header: Header = random_header(random);
            header_bytes(&header).to_vec()
        }
        _ => {
            let narrow = aimed(random, 0, 12, 0);
            in_edition(random, edition, narrow).recording
        }
    };
    if let Some(first) = recording.first_mut().filter(|_| edition == Two || kind > 0) {
        *first = edition.number() << 4 | *first & 15;
    }
    if kind > 0 {
        let count = random.below(40);
        recording.extend(random_records(random, edition, count));
    }
    let mut case = Case { edition, recording, end: 0, lent: enough(random, edition) };
    case.end = case.last_edge() + random.pick(&[0, 0, 0, 1, 500]);
    case
}
