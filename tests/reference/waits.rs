//! The waiting times: the earliest edge that rules 4 to 21, 29 and 30 allow a command, by looking back over all records.

use crate::header::Header;
use crate::recording::{Command, Command::*, Event};
use crate::registers::Registers;
use crate::rules::{banks_of_rule_5, fourth_act_back, latest_start, needed};

/// Eight of an ACT, of a RD, of a WR and of a PRE, then those of a REF, an MRS, a ZQ and an SRE.
pub fn waits(header: &Header, past: &[Event]) -> Vec<i64> {
    let of_banks = [Act, Rd, Wr, Pre].into_iter().flat_map(|command| (0..8).map(move |bank| (command, bank)));
    let of_device = [Ref, Mrs, Zq, Sre].into_iter().map(|command| (command, 0));
    of_banks.chain(of_device).map(|(command, bank)| wait(header, past, &next(command, bank))).collect()
}

/// The command, with no A10, as the next record; the rules do not look at the rest of it.
fn next(command: Command, bank: u8) -> Event {
    Event { number: 0, edge: 0, command, cke: true, bank, a: 0, registers: Registers([None; 4]), slow_exit: false }
}

/// The latest edge that a record asks for; 0 if none does.
fn wait(header: &Header, past: &[Event], later: &Event) -> i64 {
    let spaced = past.iter().flat_map(|event| {
        (4..=21)
            .chain([29, 30])
            .filter_map(move |rule| needed(header, rule, event, later).map(|clocks| event.edge + clocks))
    });
    let precharged = latest_start(header, past, &banks_of_rule_5(later)).map(|(start, _)| start + header.t_rp());
    let fourth = fourth_act_back(past).filter(|_| later.command == Act).map(|act| act.edge + header.t_faw());
    spaced.chain(precharged).chain(fourth).max().unwrap_or(0)
}
