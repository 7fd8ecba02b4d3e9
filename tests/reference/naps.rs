//! Corners of power-down: each is set up on purpose, and then the rule is broken at it.

use crate::controller::Controller;
use crate::corners::all_idle;
use crate::gaps::{keep_open, lower_at, run_ahead};
use crate::recording::{registers_after, Command, Command::*, Event, Record};
use crate::registers::Registers;
use crate::rules::{latest_start, resets_dll};
use crate::settings::{allowed_code, mr0_code};

const A12: u16 = 1 << 12;
const DLL_LOCK: i64 = 512;

/// So many edges before a deadline there is time to set something up.
const TIME_ENOUGH: i64 = 1500;

impl Controller {
    pub fn at_least_edge(&mut self, record: Record) -> i64 {
        let edge = self.least_edge(&record);
        self.issue(record, edge);
        edge
    }

    fn set_mode(&mut self, number: u8, a: u16) {
        let record = Record { a, ..self.record(Mrs, number, false) };
        self.at_least_edge(record);
    }

    fn exit(&mut self) -> i64 {
        let record = self.record(Pdx, 0, false);
        self.at_least_edge(record)
    }

    fn nap(&mut self) -> i64 {
        let record = self.power_down();
        self.at_least_edge(record);
        self.exit()
    }

    pub fn open(&mut self, bank: u8) -> i64 {
        let record = self.record(Act, bank, false);
        self.at_least_edge(record)
    }

    /// The record so soon that the rule breaks, and no rule below it, if that can be.
    fn too_soon(&mut self, record: Record, rule: usize) -> Option<()> {
        let edges = self.least_edges(&record);
        let least = edges[..rule].iter().copied().fold(self.now() + 1, i64::max);
        if least >= edges[rule] {
            return None;
        }
        let edge = if self.random.chance(70) { edges[rule] - 1 } else { self.random.between(least, edges[rule] - 1) };
        self.issue(record, edge);
        Some(())
    }

    fn has_time(&self) -> bool {
        self.deadline().map_or(true, |(deadline, _)| deadline - self.now() > TIME_ENOUGH)
    }

    fn registers(&self) -> Registers {
        registers_after(&self.past)
    }
}

/// All banks idle, every register written, MR0 with this A12, a DLL reset long enough ago.
pub fn ready_to_read(c: &mut Controller, a12: bool) -> Option<()> {
    all_idle(c);
    for number in 1..4 {
        if c.registers().0[number as usize].is_none() {
            let code = allowed_code(&mut c.random, &c.header, number);
            c.set_mode(number, code);
        }
    }
    let was_reset = c.past.iter().any(resets_dll);
    let as_wanted = c.registers().0[0].is_some_and(|code| (code & A12 != 0) == a12);
    if !was_reset || !as_wanted {
        let code = mr0_code(&mut c.random, &c.header, !was_reset) & !A12 | A12 * a12 as u16;
        c.set_mode(0, code);
    }
    let locks = |event: &&Event| event.command == Srx || resets_dll(event);
    let locked = c.past.iter().rev().find(locks).map_or(0, |event| event.edge + DLL_LOCK);
    if c.now() < locked {
        let nop = c.record(Nop, 0, false);
        c.issue(nop, locked);
    }
    c.has_time().then_some(())
}

/// An entry too soon after a RD, a WR, one with auto precharge or an MRS.
pub fn entry_too_soon(c: &mut Controller) -> Option<()> {
    if c.random.chance(35) {
        return older_auto_write(c);
    }
    ready_to_read(c, true)?;
    let bank = c.random.below(8) as u8;
    match c.random.below(4) {
        0 => {
            let code = allowed_code(&mut c.random, &c.header, 2);
            c.set_mode(2, code);
        }
        row => {
            c.open(bank);
            let column = c.record(if row == 1 { Rd } else { Wr }, bank, row == 3);
            c.at_least_edge(column);
        }
    }
    let entry = c.power_down();
    c.too_soon(entry, 26)
}

/// A change of CKE too soon after another.
pub fn change_too_soon(c: &mut Controller) -> Option<()> {
    match c.random.below(4) {
        0 => {
            let entry = c.power_down();
            c.at_least_edge(entry);
            let exit = c.record(Pdx, 0, false);
            c.too_soon(exit, 27)
        }
        1 => {
            c.nap();
            let entry = c.power_down();
            c.too_soon(entry, 27)
        }
        2 => behind_a_nap(c, Sre, 27),
        _ => {
            all_idle(c);
            for command in [Ref, Sre, Srx] {
                let record = c.record(command, 0, false);
                c.at_least_edge(record);
            }
            let entry = c.power_down();
            c.too_soon(entry, 27)
        }
    }
}

/// A command too soon after an exit.
pub fn command_too_soon(c: &mut Controller) -> Option<()> {
    let command = c.random.pick(&[Act, Rd, Wr, Pre, Ref, Mrs, Zq, Zq, Sre, Sre]);
    behind_a_nap(c, command, 29)
}

/// The command after an exit, so long after all else that only the exit is in its way.
fn behind_a_nap(c: &mut Controller, command: Command, rule: usize) -> Option<()> {
    ready_to_read(c, true)?;
    if matches!(command, Rd | Wr) {
        c.open(4);
    }
    if command == Sre {
        let refresh = c.record(Ref, 0, false);
        c.at_least_edge(refresh);
    }
    let record = match command {
        Mrs => Record { a: 0, ..c.record(Mrs, 3, false) },
        _ => c.record(command, 4, false),
    };
    let entry = c.power_down();
    let edge = c.least_edge(&entry).max(c.least_edge(&record));
    c.issue(entry, edge);
    c.exit();
    c.too_soon(record, rule)
}

/// WR with auto precharge and programmed WR of some clocks more than tWR, a WR, and an entry that only the older one forbids.
fn older_auto_write(c: &mut Controller) -> Option<()> {
    ready_to_read(c, true)?;
    let header = c.header;
    let longer = |code: &u16| Registers([Some(*code), None, None, None]).programmed_wr() >= header.t_wr() + 4;
    let code = (0..100).map(|_| mr0_code(&mut c.random, &header, false)).find(longer)?;
    c.set_mode(0, code);
    let first = c.random.below(8) as u8;
    let second = (first + 1 + c.random.below(7) as u8) % 8;
    c.open(first);
    c.open(second);
    let (auto, plain) = (c.record(Wr, first, true), c.record(Wr, second, false));
    c.at_least_edge(auto);
    c.at_least_edge(plain);
    let entry = c.power_down();
    c.too_soon(entry, 26)
}

/// A RD too soon after an exit from precharge power-down.
pub fn slow_exit(c: &mut Controller) -> Option<()> {
    match c.random.below(6) {
        0 => behind_active_power_down(c),
        1 => closing_at_the_entry(c),
        2 => a12_changed(c, false),
        3 => a12_changed(c, true),
        _ => {
            ready_to_read(c, false)?;
            c.nap();
            read_too_soon(c, 0)
        }
    }
}

fn read_too_soon(c: &mut Controller, bank: u8) -> Option<()> {
    c.open(bank);
    let read = c.record(Rd, bank, false);
    c.too_soon(read, 30)
}

/// Between the slow exit and the RD an active power-down, whose exit asks for less.
fn behind_active_power_down(c: &mut Controller) -> Option<()> {
    ready_to_read(c, false)?;
    c.nap();
    let bank = c.random.below(8) as u8;
    c.open(bank);
    c.nap();
    let read = c.record(Rd, bank, false);
    c.too_soon(read, 30)
}

/// A RD with auto precharge so soon after its ACT that the bank is still closing at the entry.
fn closing_at_the_entry(c: &mut Controller) -> Option<()> {
    ready_to_read(c, false)?;
    c.open(3);
    let read = c.record(Rd, 3, true);
    c.at_least_edge(read);
    let entry = c.power_down();
    let entered = c.at_least_edge(entry);
    let closing = latest_start(&c.header, &c.past, &[3]).is_some_and(|(start, _)| start > entered);
    c.exit();
    closing.then_some(())?;
    read_too_soon(c, 6)
}

/// An MRS turns A12 of MR0 between the exit and the RD: the exit's counts. After 1 at the exit the RD passes.
fn a12_changed(c: &mut Controller, at_exit: bool) -> Option<()> {
    ready_to_read(c, at_exit)?;
    let most_al = allowed_code(&mut c.random, &c.header, 1) & !0x0018 | 0x0008;
    c.set_mode(1, most_al);
    c.nap();
    let code = c.registers().0[0]?;
    c.set_mode(0, (code ^ A12) & !(1 << 8));
    if !at_exit {
        return read_too_soon(c, 2);
    }
    c.open(2);
    let read = c.record(Rd, 2, false);
    c.at_least_edge(read);
    None
}

/// At the edge at which this deadline breaks a record breaks another rule: the lower is told.
pub fn with_the_deadline(c: &mut Controller, rule: u8) -> Option<()> {
    match rule {
        24 => keep_open(c)?,
        25 if c.random.chance(30) => {}
        _ => ready_to_read(c, false)?,
    }
    if rule == 31 {
        run_ahead(c)?;
    }
    let (deadline, which) = c.deadline()?;
    if which != rule || deadline - c.now() < TIME_ENOUGH {
        return None;
    }
    let others: &[u8] = match rule {
        24 => &[26, 27, 29],
        25 => &[26, 26, 27, 29, 30],
        _ => &[1, 1, 1, 1, 26, 26, 27, 29, 29, 30, 30],
    };
    match c.random.pick(others) {
        1 => lower_at(c, deadline),
        26 => entry_at(c, deadline),
        27 => change_at(c, deadline),
        29 => command_at(c, deadline),
        _ => read_at(c, deadline),
    }
}

/// A WR, RD or MRS, and too soon after it an entry at the deadline.
fn entry_at(c: &mut Controller, deadline: i64) -> Option<()> {
    let soon = deadline - c.random.between(1, 8);
    let bank = match c.longest_open() {
        Some(bank) => bank,
        None => {
            let act = c.record(Act, 5, false);
            c.issue(act, deadline - 60);
            5
        }
    };
    let command = c.random.pick(&[Rd, Wr]);
    let column = c.record(command, bank, false);
    if c.least_edge(&column) > soon {
        return None;
    }
    c.issue(column, soon);
    let entry = c.power_down();
    c.issue(entry, deadline);
    Some(())
}

/// An entry or an exit at the deadline, too soon after the exit or entry before it.
fn change_at(c: &mut Controller, deadline: i64) -> Option<()> {
    let soon = deadline - c.random.between(1, c.header.t_cke() - 1);
    let entry = c.power_down();
    if c.random.chance(50) {
        c.issue(entry, soon);
        let exit = c.record(Pdx, 0, false);
        c.issue(exit, deadline);
        return Some(());
    }
    c.issue(entry, deadline - 40);
    let exit = c.record(Pdx, 0, false);
    c.issue(exit, soon);
    c.issue(entry, deadline);
    Some(())
}

/// A PRE at the deadline, too soon after an exit.
fn command_at(c: &mut Controller, deadline: i64) -> Option<()> {
    let entry = c.power_down();
    c.issue(entry, deadline - 40);
    let exit = c.record(Pdx, 0, false);
    let soon = deadline - c.random.between(1, c.header.t_xp() - 1);
    c.issue(exit, soon);
    let all = c.random.chance(50);
    let pre = c.record(Pre, 7, all);
    c.issue(pre, deadline);
    Some(())
}

/// A RD at the deadline, too soon after a slow exit.
fn read_at(c: &mut Controller, deadline: i64) -> Option<()> {
    ready_to_read(c, false)?;
    let soon = deadline - (c.header.t_xpdll() - 1);
    let entry = c.power_down();
    c.issue(entry, soon - 30);
    let exit = c.record(Pdx, 0, false);
    c.issue(exit, soon);
    c.open(1);
    let read = c.record(Rd, 1, false);
    let edges = c.least_edges(&read);
    if edges[..30].iter().any(|edge| *edge > deadline) {
        return None;
    }
    c.issue(read, deadline);
    Some(())
}
