//! Corners that a controller does not come to by chance: each is set up on purpose, and then the rule is broken at it.

use crate::controller::{pins_of, Controller};
use crate::gaps::{even, keep_open, too_long_a_gap};
use crate::naps::{change_too_soon, command_too_soon, entry_too_soon, ready_to_read, slow_exit, with_the_deadline};
use crate::random::Random;
use crate::recording::{cke_after, registers_after, Command::*, Record};
use crate::registers::{allowed, bad_bit, NAMED, NO_REGISTER};
use crate::rules::latest_start;
use crate::settings::{allowed_code, with_longer_period};

/// Sets up the rule's corner and issues the record that breaks it; None where there is none, or it cannot be set up now.
pub fn corner(controller: &mut Controller, rule: u8) -> Option<()> {
    if !cke_after(&controller.past) {
        return None;
    }
    match rule {
        3 if controller.random.chance(55) => named_bit(controller),
        3 => code_of_the_next_period(controller),
        5 => equal_starts(controller),
        21 => asleep_again(controller),
        24 | 25 if controller.random.chance(50) => with_the_deadline(controller, rule),
        24 if controller.random.chance(50) => start_at_the_deadline(controller),
        24 => both_deadlines(controller),
        25 => pulled_in_at_a_rising(controller),
        26 => entry_too_soon(controller),
        27 => change_too_soon(controller),
        29 => command_too_soon(controller),
        30 => slow_exit(controller),
        31 => too_long_a_gap(controller),
        _ => None,
    }
}

/// An MRS whose code the next period allows and the header's does not.
fn code_of_the_next_period(controller: &mut Controller) -> Option<()> {
    let header = controller.header;
    let number = controller.random.pick(&[0, 2]);
    let random = &mut controller.random;
    let codes = (0..40).map(|turn| allowed_code(random, &with_longer_period(&header, turn % 2 * 2 - 1), number));
    let a = codes.into_iter().find(|code| !allowed(&header, number as u32, *code))?;
    set(controller, number, a)
}

/// An MRS of whose code a given bit is named, or to a register that there is none of.
fn named_bit(controller: &mut Controller) -> Option<()> {
    let header = controller.header;
    let random = &mut controller.random;
    let none = 4 + random.below(4) as u8;
    let number = random.pick(&[0, 1, 1, 2, 2, 3, 3, 3, none]);
    let bit = NAMED.get(number as usize).map_or(NO_REGISTER, |bits| random.pick(bits));
    let spoilt = |random: &mut Random| {
        let good = if number < 4 { allowed_code(random, &header, number) } else { 0 };
        good ^ random.next() as u16 & (0xFFFFu32 << bit) as u16
    };
    let a = (0..200).map(|_| spoilt(random)).find(|code| bad_bit(&header, number as u32, *code) == Some(bit))?;
    set(controller, number, a)
}

fn set(controller: &mut Controller, number: u8, a: u16) -> Option<()> {
    all_idle(controller);
    let record = Record { a, ..controller.record(Mrs, number, false) };
    let edge = controller.least_edge(&record);
    controller.issue(record, edge);
    Some(())
}

/// A bank closes by itself and another is precharged at just that edge; then a command that needs all banks idle.
fn equal_starts(controller: &mut Controller) -> Option<()> {
    let bank = controller.close_a_bank()?;
    let (start, _) = latest_start(&controller.header, &controller.past, &[bank])?;
    let other = (bank + 1 + controller.random.below(7) as u8) % 8;
    let pre = controller.record(Pre, other, false);
    if controller.least_edge(&pre) > start || !controller.open_banks().iter().all(|open| *open == other) {
        return None;
    }
    controller.issue(pre, start);
    let command = controller.random.pick(&[Ref, Zq, Sre]);
    let record = controller.record(command, 0, false);
    let soon = controller.random.between(1, controller.header.t_rp() - 1);
    controller.issue(record, start + soon);
    Some(())
}

/// SRE, SRX, and SRE again before a REF and within tXS: 21 is lower than 23.
fn asleep_again(controller: &mut Controller) -> Option<()> {
    if !controller.open_banks().is_empty() {
        return None;
    }
    for command in [Ref, Sre, Srx] {
        let record = Record { cke: command != Sre, ..controller.record(command, 0, false) };
        let edge = controller.least_edge(&record);
        controller.issue(record, edge);
    }
    let record = controller.record(Sre, 0, false);
    let soon = controller.random.pick(&[1, controller.header.t_xs() - 1]);
    controller.issue(record, controller.now() + soon);
    Some(())
}

/// An ACT so that its bank is late at the edge at which the ninth refresh is owed: 24 is lower than 25.
fn both_deadlines(controller: &mut Controller) -> Option<()> {
    ready_to_read(controller, false)?;
    even(controller)?;
    let refresh = controller.record(Ref, 0, false);
    let rising = controller.rising(controller.least_edge(&refresh));
    let later = controller.random.between(0, 3);
    controller.issue(refresh, rising + later);
    let (deadline, rule) = controller.deadline()?;
    let record = controller.record(Act, 0, false);
    let edge = deadline - controller.header.greatest_t_ras() - 1;
    if rule != 25 || edge < controller.least_edge(&record) {
        return None;
    }
    controller.issue(record, edge);
    let nop = Record { pins: pins_of(Nop), ..record };
    let later = controller.random.pick(&[0, 1, 1000]);
    controller.issue(nop, deadline + later);
    Some(())
}

/// A WR with auto precharge whose bank starts it at the very edge at which it is late, or at the last edge in time.
fn start_at_the_deadline(controller: &mut Controller) -> Option<()> {
    keep_open(controller)?;
    let (deadline, rule) = controller.deadline()?;
    let bank = controller.longest_open().filter(|_| rule == 24)?;
    let registers = registers_after(&controller.past);
    let record = controller.record(Wr, bank, true);
    let start = deadline - controller.random.pick(&[0, 0, 1]);
    let edge = start - registers.wl() - registers.h() - registers.programmed_wr();
    if edge < controller.least_edge(&record) {
        return None;
    }
    controller.issue(record, edge);
    let nop = controller.record(Nop, 0, false);
    let later = controller.random.pick(&[0, 1, 50]);
    controller.issue(nop, deadline + later);
    Some(())
}

/// As many refreshes as can be pulled in, one more at the very edge at which the debt rises, one as late as rule 31 lets it
/// come, and then none to the deadline.
fn pulled_in_at_a_rising(controller: &mut Controller) -> Option<()> {
    pull_in(controller);
    let record = controller.record(Ref, 0, false);
    let rising = controller.rising(controller.least_edge(&record));
    controller.issue(record, rising);
    let late = controller.gap_deadline()? - 1;
    controller.issue(record, late);
    let (deadline, _) = controller.deadline()?;
    let nop = controller.record(Nop, 0, false);
    let around = controller.random.between(-1, 1);
    controller.issue(nop, deadline + around);
    Some(())
}

pub fn all_idle(controller: &mut Controller) {
    if !controller.open_banks().is_empty() {
        let all = controller.record(Pre, 0, true);
        let edge = controller.least_edge(&all);
        controller.issue(all, edge);
    }
}

/// With all banks idle, REFs down to a debt of -8.
fn pull_in(controller: &mut Controller) {
    all_idle(controller);
    for _ in 0..20 {
        if controller.debt() > -8 {
            let record = controller.record(Ref, 0, false);
            let edge = controller.least_edge(&record);
            controller.issue(record, edge);
        }
    }
}
