//! A recording's bytes as records, and a record with its past as an event.

use crate::banks::none_open;
use crate::edition::{named_by, step, Edition, BOTH};
use crate::header::{read_header_of, Header};
use crate::registers::Registers;

pub const MOST_RECORDS: usize = 1_048_576;
pub const GREATEST_END: u64 = 1 << 44;

/// Six bytes: step 24, CKE, CS, RAS, CAS, WE 1 each, BA 3, A15..A0 16.
#[derive(Clone, Copy, Debug)]
pub struct Record {
    pub step: i64,
    pub cke: bool,
    pub pins: u8,
    pub ba: u8,
    pub a: u16,
}

impl Record {
    pub fn read(six: &[u8]) -> Record {
        let all = six.iter().fold(0u64, |number, byte| number << 8 | *byte as u64);
        Record {
            step: (all >> 24) as i64,
            cke: all >> 23 & 1 == 1,
            pins: (all >> 19 & 0b1111) as u8,
            ba: (all >> 16 & 0b111) as u8,
            a: all as u16,
        }
    }

    pub fn write(&self) -> [u8; 6] {
        let all = (self.step as u64) << 24
            | (self.cke as u64) << 23
            | (self.pins as u64) << 19
            | (self.ba as u64) << 16
            | self.a as u64;
        all.to_be_bytes()[2..].try_into().unwrap()
    }
}

#[derive(Clone, Copy, Debug, PartialEq)]
pub enum Command {
    Mrs,
    Ref,
    Pre,
    Act,
    Wr,
    Rd,
    Zq,
    Nop,
    Des,
    Sre,
    Srx,
    /// Power-down entry and exit.
    Pde,
    Pdx,
    /// CKE staying low: pins ignored.
    Low,
    /// Any other CKE change: rule 1.
    Forbidden,
}

/// CS RAS CAS WE with CKE high before and now.
pub fn command_of_pins(pins: u8) -> Command {
    match pins {
        0b0000 => Command::Mrs,
        0b0001 => Command::Ref,
        0b0010 => Command::Pre,
        0b0011 => Command::Act,
        0b0100 => Command::Wr,
        0b0101 => Command::Rd,
        0b0110 => Command::Zq,
        0b0111 => Command::Nop,
        _ => Command::Des,
    }
}

fn command_of(past: &[Event], record: &Record) -> Command {
    let high = command_of_pins(record.pins);
    match (cke_after(past), record.cke, high) {
        (true, true, _) => high,
        (false, false, _) => Command::Low,
        (true, false, Command::Ref) => Command::Sre,
        (true, false, Command::Nop | Command::Des) => Command::Pde,
        (false, true, Command::Nop | Command::Des) if fell_asleep(past) => Command::Srx,
        (false, true, Command::Nop | Command::Des) => Command::Pdx,
        _ => Command::Forbidden,
    }
}

/// Which exit a rise of CKE is goes by the latest fall: true if that was an SRE.
fn fell_asleep(past: &[Event]) -> bool {
    let falls = |event: &&Event| match event.command {
        Command::Sre | Command::Pde => true,
        Command::Forbidden => !event.cke,
        _ => false,
    };
    past.iter().rev().find(falls).is_some_and(|fall| fall.command == Command::Sre)
}

/// In self-refresh behind these records.
pub fn asleep_after(past: &[Event]) -> bool {
    !cke_after(past) && fell_asleep(past)
}

/// The entry of the power-down that the part is in behind these records.
pub fn entry_of_stay(past: &[Event]) -> Option<&Event> {
    past.iter().rev().find(|event| event.changes_cke()).filter(|change| change.command == Command::Pde)
}

/// A PDX from precharge power-down (no bank open at the entry; a closing one counts as closed) with A12 = 0 in MR0.
fn is_slow_exit(past: &[Event], registers: &Registers, command: Command) -> bool {
    let a12_low = registers.0[0].is_some_and(|code| code >> 12 & 1 == 0);
    let entry = || past.iter().rposition(|event| event.command == Command::Pde);
    command == Command::Pdx && a12_low && entry().is_some_and(|place| none_open(&past[..place]))
}

/// A record with what its past says of it: its number and edge, its command,
/// the registers in force at it, and whether it is an exit that rule 30 counts from.
#[derive(Clone, Copy, Debug)]
pub struct Event {
    pub number: usize,
    pub edge: i64,
    pub command: Command,
    pub cke: bool,
    pub bank: u8,
    pub a: u16,
    pub registers: Registers,
    pub slow_exit: bool,
}

impl Event {
    pub fn after(past: &[Event], record: &Record) -> Event {
        let (command, registers) = (command_of(past, record), registers_after(past));
        Event {
            number: past.len() + 1,
            edge: last_edge(past) + record.step,
            command,
            cke: record.cke,
            bank: record.ba,
            a: record.a,
            registers,
            slow_exit: is_slow_exit(past, &registers, command),
        }
    }

    pub fn a10(&self) -> bool {
        self.a >> 10 & 1 == 1
    }

    pub fn a12(&self) -> bool {
        self.a >> 12 & 1 == 1
    }

    /// "Command" excludes NOP, DES, SRX and power-down's entry and exit; with CKE staying low none is given.
    pub fn is_command(&self) -> bool {
        !matches!(self.command, Command::Nop | Command::Des | Command::Low)
            && (!self.changes_cke() || self.command == Command::Sre)
    }

    /// A change of CKE that rule 1 allows.
    pub fn changes_cke(&self) -> bool {
        matches!(self.command, Command::Sre | Command::Srx | Command::Pde | Command::Pdx)
    }
}

pub fn last_edge(past: &[Event]) -> i64 {
    past.last().map_or(0, |event| event.edge)
}

/// CKE is high before the first record.
pub fn cke_after(past: &[Event]) -> bool {
    past.last().map_or(true, |event| event.cke)
}

/// A kept register is unwritten or its last code.
pub fn registers_after(past: &[Event]) -> Registers {
    let last_code = |number: u8| {
        let written = |event: &&Event| event.command == Command::Mrs && event.bank == number;
        past.iter().rev().find(written).map(|event| event.a)
    };
    Registers([last_code(0), last_code(1), last_code(2), last_code(3)])
}

pub fn read_records(section: &[u8]) -> impl Iterator<Item = Record> + '_ {
    section.chunks_exact(6).map(Record::read)
}

/// What a section is refused for, given the number of records before it: 5, 7, 6, 14 in this order.
pub fn section_refusal(edition: Edition, section: &[u8], before: usize) -> Option<u32> {
    if section.len() % edition.size() != 0 {
        return Some(5);
    }
    if before + section.len() / edition.size() > MOST_RECORDS {
        return Some(7);
    }
    if edition.records(section).any(|record| step(record) == 0) {
        return Some(6);
    }
    edition.has_zero_bits_set(section).then_some(14)
}

/// The edition and the header that opening takes, or the first of refusals 1, 2, 3, 4 that holds.
pub fn open(header: &[u8]) -> Result<(Edition, Header), u32> {
    let six: &[u8; 6] = header.try_into().map_err(|_| 1u32)?;
    let header = read_header_of(&BOTH, six)?;
    named_by(six).map(|edition| (edition, header)).ok_or(2)
}

/// A whole recording, taken: refusals 1, 2, 3, 4, 5, 7, 6, 14 in this order do not hold.
pub fn read_recording(recording: &[u8]) -> Result<(Edition, Header, &[u8]), u32> {
    if recording.len() < 6 {
        return Err(1);
    }
    let (first_six, section) = recording.split_at(6);
    let (edition, header) = open(first_six)?;
    match section_refusal(edition, section, 0) {
        Some(refusal) => Err(refusal),
        None => Ok((edition, header, section)),
    }
}
