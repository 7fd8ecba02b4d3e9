//! Precharge starts and the status of a bank, found by looking back.

use crate::header::Header;
use crate::recording::{Command, Event};

#[derive(Clone, Copy, Debug, PartialEq)]
pub enum Bank {
    Idle,
    Open(Activation),
    Closing(Activation),
}

/// The ACT of a bank that is not idle.
#[derive(Clone, Copy, Debug, PartialEq, Default)]
pub struct Activation {
    pub number: usize,
    pub edge: i64,
    pub row: u16,
}

impl Bank {
    pub fn activation(&self) -> Option<Activation> {
        match self {
            Bank::Idle => None,
            Bank::Open(activation) | Bank::Closing(activation) => Some(*activation),
        }
    }
}

pub fn is_act_of(event: &Event, bank: u8) -> bool {
    event.command == Command::Act && event.bank == bank
}

/// PRE (A10: all banks).
pub fn covers(pre: &Event, bank: u8) -> bool {
    pre.command == Command::Pre && (pre.a10() || pre.bank == bank)
}

fn has_auto_precharge(event: &Event, bank: u8) -> bool {
    matches!(event.command, Command::Rd | Command::Wr) && event.bank == bank && event.a10()
}

fn latest_act(past: &[Event], bank: u8) -> Activation {
    let act = past.iter().rev().find(|event| is_act_of(event, bank));
    act.map_or(Activation::default(), |act| Activation { number: act.number, edge: act.edge, row: act.a })
}

/// The edge at which the event in this place starts the bank's precharge, if it starts one.
pub fn precharge_start(header: &Header, past: &[Event], place: usize, bank: u8) -> Option<i64> {
    let event = &past[place];
    let registers = &event.registers;
    if covers(event, bank) {
        return Some(event.edge);
    }
    if !has_auto_precharge(event, bank) {
        return None;
    }
    if event.command == Command::Rd {
        let act = latest_act(&past[..place], bank);
        Some((act.edge + header.t_ras()).max(event.edge + registers.al() + header.t_rtp()))
    } else {
        Some(event.edge + registers.wl() + registers.h() + registers.programmed_wr())
    }
}

/// No bank was opened last: each is idle or closing behind these records.
pub fn none_open(past: &[Event]) -> bool {
    let turns =
        |event: &&Event, bank: u8| is_act_of(event, bank) || covers(event, bank) || has_auto_precharge(event, bank);
    let is_open =
        |bank: u8| past.iter().rev().find(|event| turns(event, bank)).is_some_and(|event| is_act_of(event, bank));
    !(0..8).any(is_open)
}

/// A bank is idle at and after its start; from the RD or WR with auto precharge until then it is closing.
pub fn bank_at(header: &Header, past: &[Event], bank: u8, edge: i64) -> Bank {
    for place in (0..past.len()).rev() {
        if past[place].edge > edge {
            continue;
        }
        if is_act_of(&past[place], bank) {
            return Bank::Open(latest_act(&past[..=place], bank));
        }
        match precharge_start(header, past, place, bank) {
            Some(start) if start <= edge => return Bank::Idle,
            Some(_) => return Bank::Closing(latest_act(&past[..place], bank)),
            None => {}
        }
    }
    Bank::Idle
}
