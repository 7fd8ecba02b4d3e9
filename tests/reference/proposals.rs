//! What the controller does next, by its temper: records that the banks' states allow after some wait.

use crate::banks::Bank;
use crate::controller::{Controller, MARGIN};
use crate::recording::{cke_after, registers_after, Command, Command::*, Record};
use crate::settings::{allowed_code, mr0_code};

/// In the order of a temper's weights.
const KINDS: [Command; 10] = [Act, Rd, Wr, Pre, Ref, Mrs, Zq, Sre, Nop, Pde];

impl Controller {
    /// A record that can be issued after some wait, by the temper.
    pub fn choose(&mut self) -> Record {
        if !cke_after(&self.past) {
            return self.while_low();
        }
        if self.must_refresh() {
            return self.with_all_idle(Ref);
        }
        let missing = self.missing_register();
        let after_mrs = self.past.last().is_some_and(|event| event.command == Mrs);
        if (missing.is_some() && self.random.chance(80)) || (after_mrs && self.random.chance(30)) {
            return self.with_all_idle(Mrs);
        }
        match KINDS[self.random.weighted(&self.temper.weights)] {
            Act => self.activate(),
            Rd => self.column(Rd),
            Wr => self.column(Wr),
            Pre => self.precharge(),
            Nop => self.nothing(),
            Pde => self.power_down(),
            command => self.with_all_idle(command),
        }
    }

    fn must_refresh(&mut self) -> bool {
        let urgent = self.deadline().is_some_and(|(deadline, _)| deadline - self.now() < MARGIN + 100);
        let (postponed, pulled_in) = self.temper.debts;
        let debt = self.debt();
        self.catching_up = debt >= postponed || (self.catching_up && debt > pulled_in);
        urgent || self.catching_up
    }

    /// NOP or DES.
    fn idle_pins(&mut self) -> u8 {
        if self.random.chance(50) {
            0b0111
        } else {
            8 + self.random.below(8) as u8
        }
    }

    /// In self-refresh or in power-down.
    fn while_low(&mut self) -> Record {
        let pins = self.idle_pins();
        let wakes = self.random.chance(75);
        let pins = if wakes { pins } else { self.random.below(16) as u8 };
        Record { cke: wakes, pins, ..self.record(Nop, 0, false) }
    }

    fn missing_register(&mut self) -> Option<u8> {
        let written = registers_after(&self.past).0;
        let missing: Vec<u8> = (0..4).filter(|number| written[*number as usize].is_none()).collect();
        if missing.is_empty() {
            None
        } else {
            Some(self.random.pick(&missing))
        }
    }

    fn dll_was_reset(&self) -> bool {
        self.past.iter().any(|event| event.command == Mrs && event.bank == 0 && event.a >> 8 & 1 == 1)
    }

    fn mode_register_set(&mut self) -> Record {
        let number = match self.missing_register() {
            Some(number) => number,
            None => self.random.pick(&[0, 1, 1, 2, 3]),
        };
        let reset = self.temper.dll_reset && (!self.dll_was_reset() || self.random.chance(30));
        let a = match number {
            0 => mr0_code(&mut self.random, &self.header, reset),
            _ => allowed_code(&mut self.random, &self.header, number),
        };
        Record { a, ..self.record(Mrs, number, false) }
    }

    fn activate(&mut self) -> Record {
        if self.missing_register().is_some() {
            return self.with_all_idle(Mrs);
        }
        let banks = self.banks_where(|bank| !matches!(bank, Bank::Open(_)));
        if banks.is_empty() {
            return self.precharge();
        }
        let bank = self.random.pick(&banks);
        let a10 = self.random.chance(50);
        self.record(Act, bank, a10)
    }

    fn column(&mut self, wanted: Command) -> Record {
        let open = self.open_banks();
        if open.is_empty() {
            return self.activate();
        }
        let command = if self.dll_was_reset() { wanted } else { Wr };
        let bank = self.random.pick(&open);
        let auto = self.random.chance(self.temper.auto);
        self.record(command, bank, auto)
    }

    /// Issues a column with auto precharge in an open bank, if there is one.
    pub fn close_a_bank(&mut self) -> Option<u8> {
        let bank = self.longest_open()?;
        let reading = self.dll_was_reset() && self.random.chance(50);
        let record = self.record(if reading { Rd } else { Wr }, bank, true);
        let edge = self.comfortable_edge(&record);
        self.issue(record, edge);
        Some(bank)
    }

    fn precharge(&mut self) -> Record {
        let open = self.open_banks();
        let any = self.random.below(8) as u8;
        let bank = if open.is_empty() || self.random.chance(10) { any } else { self.random.pick(&open) };
        let all = self.random.chance(20);
        self.record(Pre, bank, all)
    }

    fn nothing(&mut self) -> Record {
        let command = if self.random.chance(50) { Nop } else { Des };
        let bank = self.random.below(8) as u8;
        self.record(command, bank, false)
    }

    /// A power-down entry, whatever the banks do.
    pub fn power_down(&mut self) -> Record {
        let (pins, bank) = (self.idle_pins(), self.random.below(8) as u8);
        Record { pins, ..self.record(Pde, bank, false) }
    }

    /// REF, MRS, ZQ or SRE, or a PRE of all banks when one is open.
    fn with_all_idle(&mut self, command: Command) -> Record {
        if !self.open_banks().is_empty() {
            return self.record(Pre, 0, true);
        }
        if command == Mrs {
            return self.mode_register_set();
        }
        let since_srx = self.past.iter().rev().find(|event| matches!(event.command, Srx | Ref));
        let needs_ref = since_srx.is_some_and(|event| event.command == Srx);
        let command = if command == Sre && needs_ref { Ref } else { command };
        let long = self.random.chance(50);
        let bank = self.random.below(8) as u8;
        self.record(command, bank, long)
    }
}
