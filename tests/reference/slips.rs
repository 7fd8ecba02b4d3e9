//! The controller's mistakes: a next record that breaks a given rule.

use crate::controller::{pins_of, Controller, SPACINGS};
use crate::corners::corner;
use crate::gaps::{keep_open, run_ahead};
use crate::header::least_period;
use crate::random::Random;
use crate::recording::{cke_after, Command::*, Event, Record};
use crate::rules::latest_start;
use crate::settings::{allowed_code, random_header, with_another_latency};
use crate::verdict::broken_at;

const DEADLINES: [u8; 3] = [24, 25, 31];

/// Issues a next record; true if it breaks the rule, as far as the controller knows.
pub fn slip(controller: &mut Controller, rule: u8) -> bool {
    let often = match rule {
        3 => 80,
        24..=31 => 40,
        _ => 20,
    };
    if controller.random.chance(often) && corner(controller, rule).is_some() {
        return true;
    }
    if rule == 2 && controller.random.chance(60) {
        if let Some(bank) = controller.close_a_bank() {
            return around_start(controller, bank);
        }
    }
    let tries = if rule <= 3 { 30 } else { 1 };
    for _ in 0..tries {
        let Some((record, edge)) = proposal(controller, rule) else { break };
        if DEADLINES.contains(&rule) || would_break(controller, &record, edge) == Some(rule) {
            controller.issue(record, edge);
            return true;
        }
    }
    let record = controller.choose();
    too_soon_for(controller, record, rule)
}

pub fn would_break(controller: &Controller, record: &Record, edge: i64) -> Option<u8> {
    let mut past = controller.past.clone();
    past.push(Event::after(&past, &Record { step: edge - controller.now(), ..*record }));
    broken_at(&controller.header, &past, edge).map(|broken| broken.rule)
}

/// A record that a closing bank is in the way of, just before its precharge starts or at the start.
fn around_start(controller: &mut Controller, bank: u8) -> bool {
    let start = latest_start(&controller.header, &controller.past, &[bank]).map_or(0, |(start, _)| start);
    let first = controller.now() + 1;
    let random = &mut controller.random;
    let command = random.pick(&[Act, Rd, Wr, Pre, Pre, Ref, Mrs, Zq, Sre]);
    let ba = if command == Mrs { random.below(4) as u8 } else { bank };
    let record = Record { step: 0, cke: command != Sre, pins: pins_of(command), ba, a: random.next() as u16 };
    let before = random.between(first, first.max(start));
    let edge = random.pick(&[start - 1, start - 1, start, before]).max(first);
    let breaks = would_break(controller, &record, edge).is_some();
    controller.issue(record, edge);
    breaks
}

fn proposal(controller: &mut Controller, rule: u8) -> Option<(Record, i64)> {
    match rule {
        3 if controller.random.chance(60) => Some(nearly_allowed(controller)),
        1..=3 => Some(any_record(controller)),
        23 => Some(self_refresh(controller)),
        24 | 25 | 31 => at_deadline(controller, rule),
        _ => None,
    }
}

/// Any command in any bank, soon.
fn any_record(controller: &mut Controller) -> (Record, i64) {
    let random: &mut Random = &mut controller.random;
    let record = Record {
        step: 0,
        cke: random.chance(70),
        pins: random.below(9) as u8,
        ba: random.below(8) as u8,
        a: random.next() as u16,
    };
    let most = random.pick(&[1, 4, 20, 60]);
    let wait = random.between(1, most);
    (record, controller.now() + wait)
}

/// A code with one bit changed, one with another latency or write recovery, or one that another header allows.
fn nearly_allowed(controller: &mut Controller) -> (Record, i64) {
    let random = &mut controller.random;
    let number = random.pick(&[0, 0, 0, 1, 2, 2, 2, 3]);
    let mut elsewhere = random_header(random);
    if random.chance(50) && controller.header.period >= least_period(elsewhere.bin) {
        elsewhere.period = controller.header.period;
    }
    let good = allowed_code(random, &controller.header, number);
    let a = match random.below(3) {
        0 => good ^ 1 << random.below(16),
        1 => with_another_latency(random, good, number),
        _ => allowed_code(random, &elsewhere, number),
    };
    let record = Record { step: 0, cke: true, pins: pins_of(Mrs), ba: number, a };
    (record, controller.least_edge(&record))
}

fn self_refresh(controller: &mut Controller) -> (Record, i64) {
    let record = Record { step: 0, cke: false, pins: pins_of(Sre), ba: 0, a: controller.random.next() as u16 };
    let later = controller.random.pick(&[0, 0, 1, 40]);
    (record, controller.least_edge(&record) + later)
}

/// A record at the edge where the deadline breaks, or after it.
fn at_deadline(controller: &mut Controller, rule: u8) -> Option<(Record, i64)> {
    if controller.deadline()?.1 != rule {
        bring_about(controller, rule)?;
    }
    let (deadline, _) = controller.deadline().filter(|(_, which)| *which == rule)?;
    match controller.random.below(6) {
        0 | 1 if rule == 24 => late_column(controller, deadline),
        2 if rule == 24 => return late_precharge(controller, deadline),
        _ => {}
    }
    let record = controller.choose();
    let far = controller.random.between(1, 100_000);
    let later = controller.random.pick(&[0, 0, 0, 1, 1, far]);
    Some((record, (deadline + later).max(controller.now() + 1)))
}

/// Makes the rule's deadline the next one, if its records can come now.
fn bring_about(controller: &mut Controller, rule: u8) -> Option<()> {
    if !cke_after(&controller.past) {
        return None;
    }
    match rule {
        24 => keep_open(controller),
        31 => run_ahead(controller).map(|_| ()),
        _ => None,
    }
}

/// A column just before 24 breaks: with auto precharge its start may come too late,
/// without it a PRE at the deadline breaks a lower rule at the same edge.
fn late_column(controller: &mut Controller, deadline: i64) {
    let Some(bank) = controller.longest_open() else { return };
    let command = controller.random.pick(&[Rd, Wr]);
    let a = controller.random.next() as u16;
    let record = Record { step: 0, cke: true, pins: pins_of(command), ba: bank, a };
    let before = controller.random.between(1, 40);
    if controller.least_edge(&record) <= deadline - before {
        controller.issue(record, deadline - before);
    }
}

/// The bank is precharged in time, and once more at the edge where it would have been too late: clean.
fn late_precharge(controller: &mut Controller, deadline: i64) -> Option<(Record, i64)> {
    let bank = controller.longest_open()?;
    let record = controller.record(Pre, bank, false);
    let edge = controller.least_edge(&record);
    controller.issue(record, edge);
    Some((record, deadline.max(edge + 1)))
}

/// The record one edge too soon for the rule (or more), and late enough for all lower rules, if that can be;
/// else the record in good time.
fn too_soon_for(controller: &mut Controller, record: Record, rule: u8) -> bool {
    if SPACINGS.contains(&rule) {
        let rule = rule as usize;
        let edges = controller.least_edges(&record);
        let least = edges[..rule].iter().copied().fold(controller.now() + 1, i64::max);
        if least < edges[rule] {
            let one_less = controller.random.chance(75);
            let edge = if one_less { edges[rule] - 1 } else { controller.random.between(least, edges[rule] - 1) };
            controller.issue(record, edge);
            return true;
        }
    }
    let edge = controller.comfortable_edge(&record);
    controller.issue(record, edge);
    false
}
