//! What the generated recordings must have among them of power-down.

use crate::banks::{bank_at, none_open, Bank};
use crate::header::Header;
use crate::recording::{entry_of_stay, Command::*, Event};
use crate::rules::{broken_by_record, needed, Break};

/// What a record shows in a recording that is clean up to it.
const RECORDS: [&str; 10] = [
    "PDE, a bank open",
    "PDE, a bank closing and none open",
    "PDE, all banks idle",
    "PDE within the time of rule 15",
    "PDE within the time of rule 18",
    "PDE within the time of rule 21",
    "PDX from an open bank's power-down",
    "PDX from precharge power-down, MR0 A12 = 0",
    "PDX from precharge power-down, MR0 A12 = 1",
    "RD soon after an exit with MR0 A12 = 1 that is 0 since",
];

/// What else holds where a break is told.
const BREAKS: [&str; 6] = [
    "rule 25 in power-down",
    "rule 26 by an older WR with auto precharge behind a later WR",
    "rule 30 behind a later exit",
    "rule 30 after an entry with a bank closing",
    "rule 30 after an exit with MR0 A12 = 0 that is 1 since",
    "rule 30 with the exit the latest",
];

/// Rules broken at one edge: the lower is told. Not 24 and 30: at the entry no bank is open, and one that is closing starts
/// in time, for rule 26 held the entry back. Not 28: before it 25 or 31 is broken.
const AT_ONE_EDGE: [(u8, u8); 7] = [(24, 26), (24, 27), (24, 29), (25, 26), (25, 27), (25, 29), (25, 30)];

pub fn at_one_edge(told: u8, above: u8) -> String {
    format!("rule {told} at an edge that breaks {above} too")
}

/// How the spacing between two records is told: by row, where the rule has several.
pub fn spacing_name(rule: u8, earlier: &Event, later: &Event) -> String {
    match rule {
        26 if earlier.command == Wr && earlier.a10() => "rule 26 from Wr with auto precharge".to_string(),
        26 => format!("rule 26 from {:?}", earlier.command),
        27 => format!("rule 27 from {:?} to {:?}", earlier.command, later.command),
        29 => format!("rule 29 to {:?}", later.command),
        _ => format!("rule {rule}"),
    }
}

/// The rows that must be met to the edge and missed by one.
pub fn all_rows() -> impl Iterator<Item = String> {
    let entries = ["Rd", "Wr", "Wr with auto precharge", "Mrs"].map(|from| format!("rule 26 from {from}"));
    let changes = ["Pde to Pdx", "Pdx to Pde", "Pdx to Sre", "Srx to Pde"].map(|row| format!("rule 27 from {row}"));
    let exits = [Act, Rd, Wr, Pre, Ref, Mrs, Zq, Sre].map(|to| format!("rule 29 to {to:?}"));
    entries.into_iter().chain(changes).chain(exits).chain(["rule 30".to_string()])
}

pub fn all() -> impl Iterator<Item = String> {
    let told = RECORDS.iter().chain(&BREAKS).map(|name| name.to_string());
    told.chain(AT_ONE_EDGE.map(|(told, above)| at_one_edge(told, above)))
}

fn a12(code: Option<u16>) -> Option<bool> {
    code.map(|code| code >> 12 & 1 == 1)
}

fn any_closing(header: &Header, past: &[Event], edge: i64) -> bool {
    (0..8).any(|bank| matches!(bank_at(header, past, bank, edge), Bank::Closing(_)))
}

/// The records before the latest entry, and that entry.
fn before_entry(past: &[Event]) -> Option<(&[Event], &Event)> {
    let place = past.iter().rposition(|event| event.command == Pde)?;
    Some((&past[..place], &past[place]))
}

/// What the last record adds.
pub fn record_features(header: &Header, past: &[Event]) -> Vec<String> {
    let Some((last, earlier)) = past.split_last() else { return vec![] };
    let mut places = vec![];
    match last.command {
        Pde => {
            let closing = any_closing(header, earlier, last.edge);
            places.push(if !none_open(earlier) { 0 } else { 2 - closing as usize });
            let latest = |command| earlier.iter().rfind(|event| event.command == command);
            for (place, command, rule) in [(3, Ref, 15), (4, Zq, 18), (5, Srx, 21)] {
                let any_command = Event { command: Pre, ..*last };
                let asked = |event: &Event| needed(header, rule, event, &any_command).map(|clocks| event.edge + clocks);
                let runs = latest(command).and_then(asked).is_some_and(|until| last.edge < until);
                places.extend(runs.then_some(place));
            }
        }
        Pdx => {
            let Some((before, _)) = before_entry(earlier) else { return vec![] };
            let high = a12(last.registers.0[0]);
            places.push(if !none_open(before) { 6 } else { 7 + (high == Some(true)) as usize });
        }
        Rd => {
            let exit = earlier.iter().rfind(|event| event.command == Pdx);
            let turned =
                |exit: &Event| a12(exit.registers.0[0]) == Some(true) && a12(last.registers.0[0]) == Some(false);
            let soon = exit.is_some_and(|exit| turned(exit) && last.edge < exit.edge + header.t_xpdll());
            places.extend(soon.then_some(9));
        }
        _ => {}
    }
    places.into_iter().map(|place| RECORDS[place].to_string()).collect()
}

/// The past holds the records up to the broken edge.
pub fn break_features(header: &Header, past: &[Event], broken: &Break) -> Vec<String> {
    let edge = broken.edge;
    let before = &past[..past.iter().take_while(|event| event.edge < edge).count()];
    let partner = broken.partner.checked_sub(1).and_then(|place| past.get(place));
    let since = partner.map_or(&[][..], |partner| &before[partner.number.min(before.len())..]);
    let since_is = |command| since.iter().any(|event| event.command == command);
    let mut places = vec![];
    match broken.rule {
        25 => places.extend(entry_of_stay(before).map(|_| 0)),
        26 => {
            let auto = partner.is_some_and(|partner| partner.command == Wr && partner.a10());
            places.extend((auto && since_is(Wr)).then_some(1));
        }
        30 => {
            places.push(if since_is(Pdx) { 2 } else { 5 });
            let entry = partner.and_then(|exit| before_entry(&past[..exit.number]));
            places.extend(entry.filter(|(before, entry)| any_closing(header, before, entry.edge)).map(|_| 3));
            let now = past.last().and_then(|last| a12(last.registers.0[0]));
            places.extend((now == Some(true)).then_some(4));
        }
        _ => {}
    }
    let at_record = before.len() < past.len();
    let also = |rule: u8| at_record && broken_by_record(header, past, rule).is_some();
    let above = AT_ONE_EDGE.iter().filter(|(told, above)| *told == broken.rule && also(*above));
    let above: Vec<String> = above.map(|(told, above)| at_one_edge(*told, *above)).collect();
    places.into_iter().map(|place: usize| BREAKS[place].to_string()).chain(above).collect()
}
