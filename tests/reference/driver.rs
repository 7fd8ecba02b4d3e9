//! A controller that makes no mistake and keeps only the edges at which each command may come next, so that it makes a
//! million records at once.

use crate::controller::pins_of;
use crate::header::{Header, T_MRD};
use crate::random::Random;
use crate::recording::{Command, Command::*, Record};
use crate::registers::{is_dll_reset, Registers};
use crate::settings::header_bytes;

/// P1's header: bin 1, 1 Gb, x8, 1500 ps.
pub const HEADER: Header = Header { bin: 1, density: 0, width: 0, hot: false, period: 1500 };

const DLL_LOCK: i64 = 512;
const A10: u16 = 1 << 10;
const LONG_AGO: i64 = -1000;

#[derive(Clone, Copy)]
struct Bank {
    open: bool,
    act: i64,
    /// The first edge at which a PRE may come.
    ready: i64,
    start: i64,
}

pub struct Driver {
    pub random: Random,
    pub bytes: Vec<u8>,
    now: i64,
    registers: Registers,
    banks: [Bank; 8],
    acts: Vec<i64>,
    /// The first edges at which an MRS, any other command, a RD and a WR may come.
    set: i64,
    free: i64,
    read: i64,
    write: i64,
    /// The latest read's last word is out.
    read_out: i64,
    /// The first edge at which a power-down entry may come.
    entry: i64,
    /// The first edge at which the debt rises that no REF was given for. Asleep it rises later than this says.
    rising: i64,
}

impl Driver {
    pub fn new(seed: u64) -> Driver {
        Driver {
            random: Random::new(seed),
            bytes: header_bytes(&HEADER).to_vec(),
            now: 0,
            registers: Registers::default(),
            banks: [Bank { open: false, act: LONG_AGO, ready: 0, start: LONG_AGO }; 8],
            acts: vec![],
            set: T_MRD,
            free: 0,
            read: 0,
            write: 0,
            read_out: 0,
            entry: 0,
            rising: HEADER.t_refi(),
        }
    }

    fn issue(&mut self, command: Command, ba: u8, a: u16, least: i64) {
        let slack = self.random.pick(&[0, 0, 0, 0, 1, 2, 5]);
        let by_others = match command {
            Mrs => self.set,
            Nop | Des | Srx | Pdx => 0,
            Pde => self.entry,
            _ => self.free,
        };
        let edge = least.max(self.now + 1).max(by_others) + slack;
        let record =
            Record { step: edge - self.now, cke: !matches!(command, Sre | Pde), pins: pins_of(command), ba, a };
        self.bytes.extend(record.write());
        self.now = edge;
    }

    fn wait(&mut self, clocks: i64) {
        self.free = self.now + clocks;
        self.set = self.free;
    }

    pub fn banks(&self, open: bool) -> Vec<u8> {
        (0..8).filter(|bank| self.banks[*bank as usize].open == open).collect()
    }

    fn latest_start(&self) -> i64 {
        self.banks.iter().map(|bank| bank.start).max().unwrap_or(0)
    }

    fn all_idle(&self) -> i64 {
        self.latest_start() + HEADER.t_rp()
    }

    pub fn activate(&mut self, bank: u8) {
        let Bank { act, start, .. } = self.banks[bank as usize];
        let last = self.acts.last().copied().unwrap_or(LONG_AGO);
        let fourth = self.acts.iter().rev().nth(3).copied().unwrap_or(LONG_AGO);
        let by_bank = (act + HEADER.t_rc()).max(start + HEADER.t_rp());
        let row = self.random.next() as u16;
        self.issue(Act, bank, row, by_bank.max(last + HEADER.t_rrd()).max(fourth + HEADER.t_faw()));
        self.acts.push(self.now);
        let place = &mut self.banks[bank as usize];
        *place = Bank { open: true, act: self.now, ready: self.now + HEADER.t_ras(), start };
    }

    pub fn column(&mut self, bank: u8, reads: bool, auto: bool) {
        let registers = self.registers;
        let a = self.random.next() as u16 & !A10 | A10 * auto as u16;
        let opened = self.banks[bank as usize].act + (HEADER.t_rcd() - registers.al()).max(1);
        let (h, b) = (registers.h(), registers.b(a >> 12 & 1 == 1));
        if reads {
            self.issue(Rd, bank, a, opened.max(self.read));
            self.read = self.now + 4;
            self.write = self.write.max(self.now + registers.cl() - registers.cwl() + 2 + b);
            self.read_out = self.now + registers.rl() + b;
            self.entry = self.entry.max(self.now + registers.rl() + 5);
        } else {
            self.issue(Wr, bank, a, opened.max(self.write));
            self.write = self.now + 4;
            self.read = self.read.max(self.now + registers.cwl() + h + HEADER.t_wtr());
            let recovery = if auto { registers.programmed_wr() + 1 } else { HEADER.t_wr() };
            self.entry = self.entry.max(self.now + registers.wl() + h + recovery);
        }
        let now = self.now;
        let place = &mut self.banks[bank as usize];
        let ready =
            if reads { now + registers.al() + HEADER.t_rtp() } else { now + registers.wl() + h + HEADER.t_wr() };
        place.ready = place.ready.max(ready);
        if auto {
            place.open = false;
            let by_act = place.act + HEADER.t_ras();
            place.start = if reads { by_act.max(ready) } else { now + registers.wl() + h + registers.programmed_wr() };
        }
    }

    pub fn precharge(&mut self, bank: u8, all: bool) {
        let covered = if all { 0..8 } else { bank as usize..bank as usize + 1 };
        let least = self.banks[covered.clone()].iter().map(|bank| bank.ready.max(bank.start)).max().unwrap_or(0);
        self.issue(Pre, bank, A10 * all as u16, least);
        for place in &mut self.banks[covered] {
            (place.open, place.start) = (false, self.now);
        }
    }

    pub fn refresh(&mut self) {
        self.issue(Ref, 0, 0, self.all_idle());
        self.wait(HEADER.t_rfc());
        self.rising += HEADER.t_refi();
    }

    /// A REF for each interval that has passed.
    pub fn refresh_in_time(&mut self) {
        while self.rising <= self.now {
            self.refresh();
        }
    }

    pub fn set_register(&mut self, number: u8, code: u16) {
        self.issue(Mrs, number, code, self.all_idle().max(self.read_out));
        self.registers.0[number as usize] = Some(code);
        if number == 0 && is_dll_reset(code) {
            self.read = self.now + DLL_LOCK;
        }
        (self.set, self.free) = (self.now + T_MRD, self.now + HEADER.t_mod());
        self.entry = self.free;
    }

    pub fn calibrate(&mut self, long: bool) {
        self.issue(Zq, 0, A10 * long as u16, self.all_idle());
        self.wait(if long { HEADER.zq_long() } else { HEADER.zq_short() });
    }

    /// The REF first, so that there is one between two self-refreshes.
    pub fn self_refresh(&mut self) {
        self.refresh();
        self.issue(Sre, 0, 0, self.all_idle().max(self.read_out));
        self.issue(Srx, 0, 0, self.now + HEADER.t_cke() + 1);
        self.wait(HEADER.t_xs());
        self.read = self.now + DLL_LOCK;
        self.entry = self.now + HEADER.t_cke();
    }

    /// Power-down with all banks closed, so many clocks later, for so many or a little more.
    pub fn nap(&mut self, later: i64, clocks: i64) {
        self.issue(Pde, 0, 0, self.now + later);
        self.issue(Pdx, 0, 0, self.now + clocks.max(HEADER.t_cke()));
        let awake = self.now + HEADER.t_xp();
        (self.set, self.free) = (self.set.max(awake), self.free.max(awake));
        self.read = self.read.max(self.now + HEADER.t_xpdll());
        self.entry = self.entry.max(self.now + HEADER.t_cke());
    }

    /// NOP or DES, so many clocks later or a little more.
    pub fn nothing(&mut self, clocks: i64) {
        let (command, ba, a) = (self.random.pick(&[Nop, Des]), self.random.below(8) as u8, self.random.next() as u16);
        self.issue(command, ba, a, self.now + clocks);
    }
}
