//! Rules 1 to 31 but for the deadlines: whether the last record of a past breaks a rule.
//! Each rule looks back over all earlier records; the paper's sentence stands beside it.

use crate::banks::{bank_at, covers, precharge_start, Bank};
use crate::header::{Header, T_MRD};
use crate::recording::{Command, Command::*, Event};
use crate::registers::{bad_bit, is_dll_reset};

#[derive(Clone, Copy, Debug, PartialEq, Default)]
pub struct Break {
    pub rule: u8,
    pub record: usize,
    pub partner: usize,
    pub edge: i64,
    pub needed: i64,
    pub found: i64,
}

/// How the last record breaks the rule, if it does.
pub fn broken_by_record(header: &Header, past: &[Event], rule: u8) -> Option<Break> {
    let (last, earlier) = past.split_last()?;
    let at_last = Break { rule, record: last.number, edge: last.edge, ..Break::default() };
    let without_clocks = |partner: usize| Break { partner, ..at_last };
    let with_clocks = |(partner, needed, found): (usize, i64, i64)| Break { partner, needed, found, ..at_last };
    match rule {
        1 => (last.command == Forbidden).then_some(at_last),
        2 => bank_in_the_way(header, past).map(without_clocks),
        3 => lacks_registers(header, past).map(|found| Break { found, ..at_last }),
        5 => too_soon_after_precharge(header, past).map(with_clocks),
        8 => too_soon_after_fourth_act(header, last, earlier).map(with_clocks),
        23 => self_refresh_without_ref(last, earlier).map(without_clocks),
        _ => too_soon(header, last, earlier, rule).map(with_clocks),
    }
}

/// 2 ACT needs an idle bank; RD, WR an open, not closing one; REF, MRS, ZQ, SRE all idle;
/// PRE no covered closing bank. Partner: the ACT of the lowest bank in the way, none (0) on an idle bank.
fn bank_in_the_way(header: &Header, past: &[Event]) -> Option<usize> {
    let (last, earlier) = past.split_last()?;
    let status = |bank: u8| bank_at(header, earlier, bank, last.edge);
    let act_of = |bank: Bank| bank.activation().map(|act| act.number);
    match last.command {
        Act => act_of(status(last.bank)),
        Rd | Wr => match status(last.bank) {
            Bank::Open(_) => None,
            Bank::Closing(act) => Some(act.number),
            Bank::Idle => Some(0),
        },
        Ref | Mrs | Zq | Sre => (0..8).find_map(|bank| act_of(status(bank))),
        Pre => (0..8).filter(|bank| covers(last, *bank)).find_map(|bank| match status(bank) {
            Bank::Closing(act) => Some(act.number),
            _ => None,
        }),
        _ => None,
    }
}

/// 3 MRS needs an allowed code and BA below 4; ACT all four registers written in this recording;
/// RD a DLL reset in it. What is found: of an MRS the bit that register reading names, else 0.
fn lacks_registers(header: &Header, past: &[Event]) -> Option<i64> {
    let (last, earlier) = past.split_last()?;
    match last.command {
        Mrs => bad_bit(header, last.bank as u32, last.a).map(|bit| bit as i64),
        Act => last.registers.0.iter().any(|code| code.is_none()).then_some(0),
        Rd => (!earlier.iter().any(resets_dll)).then_some(0),
        _ => None,
    }
}

pub fn resets_dll(event: &Event) -> bool {
    event.command == Mrs && event.bank == 0 && is_dll_reset(event.a)
}

/// The clocks that a least-spacing rule needs between two records, if it speaks of the two.
/// Registers in force are those at the earlier record. Rules 5 and 8 stand apart.
#[inline]
pub fn needed(header: &Header, rule: u8, earlier: &Event, later: &Event) -> Option<i64> {
    let registers = &earlier.registers;
    let same_bank = earlier.bank == later.bank;
    let covered = covers(later, earlier.bank);
    match (rule, earlier.command, later.command) {
        (4, Act, Rd | Wr) if same_bank => Some((header.t_rcd() - registers.al()).max(1)),
        (6, Act, Act) if same_bank => Some(header.t_rc()),
        (7, Act, Act) => Some(header.t_rrd()),
        (9, Act, Pre) if covered => Some(header.t_ras()),
        (10, Rd, Pre) if covered => Some(registers.al() + header.t_rtp()),
        (11, Wr, Pre) if covered => Some(registers.wl() + registers.h() + header.t_wr()),
        (12, Rd, Rd) | (12, Wr, Wr) => Some(4),
        (13, Rd, Wr) => Some(registers.cl() - registers.cwl() + 2 + registers.b(earlier.a12())),
        (14, Wr, Rd) => Some(registers.cwl() + registers.h() + header.t_wtr()),
        (15, Ref, _) if later.is_command() => Some(header.t_rfc()),
        (16, Mrs, Mrs) => Some(T_MRD),
        (17, Mrs, _) if later.is_command() && later.command != Mrs => Some(header.t_mod()),
        (18, Zq, _) if later.is_command() => Some(if earlier.a10() { header.zq_long() } else { header.zq_short() }),
        (19, Rd, Mrs | Sre) => Some(registers.rl() + registers.b(earlier.a12())),
        (20, Mrs, Rd) if resets_dll(earlier) => Some(512),
        (20, Srx, Rd) => Some(512),
        (21, Srx, _) if later.is_command() => Some(header.t_xs()),
        (22, Sre, Srx) => Some(header.t_cke() + 1),
        (26, Rd, Pde) => Some(registers.rl() + 5),
        (26, Wr, Pde) if earlier.a10() => Some(registers.wl() + registers.h() + registers.programmed_wr() + 1),
        (26, Wr, Pde) => Some(registers.wl() + registers.h() + header.t_wr()),
        (26, Mrs, Pde) => Some(header.t_mod()),
        (26, Act | Pre | Ref, Pde) => Some(1),
        (27, ..) if earlier.changes_cke() && later.changes_cke() => Some(header.t_cke()),
        (29, Pdx, _) if later.is_command() => Some(header.t_xp()),
        (30, Pdx, Rd) if earlier.slow_exit => Some(header.t_xpdll()),
        _ => None,
    }
}

/// The latest earlier record breaking the rule, with the clocks needed and found.
fn too_soon(header: &Header, last: &Event, earlier: &[Event], rule: u8) -> Option<(usize, i64, i64)> {
    earlier.iter().rev().find_map(|event| {
        let needed = needed(header, rule, event, last)?;
        let found = last.edge - event.edge;
        (found < needed).then_some((event.number, needed, found))
    })
}

/// The banks whose precharge starts rule 5 looks at.
pub fn banks_of_rule_5(later: &Event) -> Vec<u8> {
    match later.command {
        Act => vec![later.bank],
        Ref | Mrs | Zq | Sre => (0..8).collect(),
        _ => vec![],
    }
}

/// The latest start of a precharge of these banks and the record of it (equal starts: later record).
pub fn latest_start(header: &Header, past: &[Event], banks: &[u8]) -> Option<(i64, usize)> {
    let starts = (0..past.len()).flat_map(|place| {
        let start = move |bank: &u8| Some((precharge_start(header, past, place, *bank)?, past[place].number));
        banks.iter().filter_map(start)
    });
    starts.max()
}

/// 5 precharge start to ACT same bank, to REF, MRS, ZQ, SRE any bank: tRP. Found counted from the start.
fn too_soon_after_precharge(header: &Header, past: &[Event]) -> Option<(usize, i64, i64)> {
    let (last, earlier) = past.split_last()?;
    let (start, number) = latest_start(header, earlier, &banks_of_rule_5(last))?;
    let found = last.edge - start;
    (found < header.t_rp()).then_some((number, header.t_rp(), found))
}

pub fn fourth_act_back(earlier: &[Event]) -> Option<&Event> {
    earlier.iter().rev().filter(|event| event.command == Act).nth(3)
}

/// 8 fourth ACT back to ACT: tFAW.
fn too_soon_after_fourth_act(header: &Header, last: &Event, earlier: &[Event]) -> Option<(usize, i64, i64)> {
    if last.command != Act {
        return None;
    }
    let fourth = fourth_act_back(earlier)?;
    let found = last.edge - fourth.edge;
    (found < header.t_faw()).then_some((fourth.number, header.t_faw(), found))
}

/// 23 SRE after an SRX needs a REF in between. Partner: the SRX.
fn self_refresh_without_ref(last: &Event, earlier: &[Event]) -> Option<usize> {
    let is = |command: Command| move |event: &Event| event.command == command;
    let srx = earlier.iter().rposition(is(Srx))?;
    let refreshed = earlier[srx..].iter().any(is(Ref));
    (last.command == Sre && !refreshed).then_some(earlier[srx].number)
}
