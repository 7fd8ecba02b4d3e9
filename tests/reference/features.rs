//! What the generated recordings must have among them, and how often each comes in those that are judged.

use crate::banks::precharge_start;
use crate::controller::SPACINGS;
use crate::deadlines::{awake_at, debt_at};
use crate::edition::Edition;
use crate::header::Header;
use crate::intervals;
use crate::powerdown::{self, spacing_name};
use crate::recording::{read_recording, read_records, Command::*, Event};
use crate::registers::{all_bit_names, allowed, bit_name};
use crate::rules::{banks_of_rule_5, fourth_act_back, latest_start, needed, Break};
use crate::settings::CODE_BORDERS;
use std::collections::BTreeMap;

/// Longer ones are about the limit of records and show nothing else.
const MOST_RECORDS: usize = 400;

/// No least spacing is longer.
const LONGEST_SPACING: i64 = 512;

/// Where a table of the paper changes.
const BORDERS: [i64; 8] = [1070, 1250, 1500, 1641, 1875, 2500, 3000, 3300];

#[derive(Default)]
pub struct Features(BTreeMap<String, u64>);

const SINGLE: [&str; 14] = [
    "RD, auto precharge",
    "WR, auto precharge",
    "PRE of one bank",
    "PRE of all banks",
    "PRE after a PRE of the bank",
    "long ZQ",
    "short ZQ",
    "SRE",
    "SRX",
    "CKE staying low",
    "NOP or DES",
    "MR0 changed after a column",
    "MR1 changed after a column",
    "DLL reset after a column",
];

/// Corners of a break: what else holds where it is told.
const CORNERS: [&str; 3] =
    ["rule 5 after two equal starts", "rule 21 by an SRE that breaks 23 too", "rule 24 at an edge that breaks 25 too"];
const START_TOO_LATE: &str = "rule 24 at the edge at which the precharge starts";
const RISING_TO_FLOOR: &str = "REF to debt -8 at a rising edge";

fn code_of_next_period(number: u8, period: i64) -> String {
    format!("rule 3 at period {period} by a code of MR{number} that the next period allows")
}

/// Every feature that a run must have.
fn all() -> Vec<String> {
    let single = SINGLE.iter().chain(&CORNERS).chain([&RISING_TO_FLOOR, &START_TOO_LATE]);
    let mut names: Vec<String> = single.map(|name| name.to_string()).collect();
    for n in 0..32 {
        names.push(format!("bin {}, density {}, width {}, hot {}", n / 8, n / 4 % 2, n / 2 % 2, n % 2));
    }
    names.extend(CODE_BORDERS.iter().map(|period| code_of_next_period(0, *period)));
    names.extend(CODE_BORDERS[..8].iter().map(|period| code_of_next_period(2, *period)));
    names.extend(all_bit_names().map(|name| format!("rule 3 by {name}")));
    names.extend(["Act", "Rd"].map(|command| format!("rule 3 by {command}, found 0")));
    names.extend(BORDERS.iter().map(|border| format!("period {border}")));
    names.extend(BORDERS[1..].iter().map(|border| format!("period {}", border - 1)));
    for n in 0..18 {
        let command = ["Rd", "Wr"][n / 9];
        names.push(format!("{command}, AL code {}, burst mode {}", n / 3 % 3, n % 3));
    }
    names.extend((-8..=8).map(|debt| format!("REF to debt {debt}")));
    for row in (4..=22).map(|rule| format!("rule {rule}")).chain(powerdown::all_rows()) {
        names.push(format!("{row} met to the edge"));
        names.push(format!("{row} broken by one edge"));
    }
    names.extend(powerdown::all());
    names.extend(intervals::all());
    names
}

fn header_features(header: &Header) -> Vec<String> {
    let Header { bin, density, width, hot, period } = header;
    vec![format!("bin {bin}, density {density}, width {width}, hot {}", *hot as u8), format!("period {period}")]
}

/// What the last record adds.
fn record_features(header: &Header, past: &[Event]) -> Vec<String> {
    let Some((last, earlier)) = past.split_last() else { return vec![] };
    let after_column = || earlier.iter().any(|event| matches!(event.command, Rd | Wr));
    let single = |place: usize| SINGLE[place].to_string();
    match last.command {
        Rd | Wr => {
            let code = |number: usize| last.registers.0[number].unwrap_or(0);
            let setting = format!("{:?}, AL code {}, burst mode {}", last.command, code(1) >> 3 & 3, code(0) & 3);
            let auto = last.a10().then(|| single((last.command == Wr) as usize));
            std::iter::once(setting).chain(auto).collect()
        }
        Pre => {
            let again =
                earlier.iter().rev().find(|event| event.bank == last.bank && matches!(event.command, Act | Pre));
            let again = again.filter(|event| event.command == Pre).map(|_| single(4));
            std::iter::once(single(2 + last.a10() as usize)).chain(again).collect()
        }
        Zq => vec![single(if last.a10() { 5 } else { 6 })],
        Sre => vec![single(7)],
        Srx => vec![single(8)],
        Low => vec![single(9)],
        Nop | Des => vec![single(10)],
        Ref => {
            let debt = debt_at(header, past, last.edge);
            let falls = debt_at(header, earlier, last.edge) == debt + 1;
            let rising = debt == -8 && falls && awake_at(past, last.edge) % header.t_refi() == 0;
            std::iter::once(format!("REF to debt {debt}")).chain(rising.then(|| RISING_TO_FLOOR.to_string())).collect()
        }
        Mrs if last.bank < 2 && after_column() => {
            let before = last.registers.0[last.bank as usize];
            let changed = before.is_some_and(|code| code != last.a).then(|| single(11 + last.bank as usize));
            let reset = (last.bank == 0 && last.a >> 8 & 1 == 1).then(|| single(13));
            changed.into_iter().chain(reset).collect()
        }
        _ => vec![],
    }
}

/// The rules of which the last record meets the least spacing to the edge, by row where a rule has several.
fn met_to_the_edge(header: &Header, past: &[Event]) -> Vec<String> {
    let Some((last, earlier)) = past.split_last() else { return vec![] };
    let recent = || earlier.iter().rev().take_while(|event| last.edge - event.edge <= LONGEST_SPACING);
    let start = latest_start(header, earlier, &banks_of_rule_5(last)).map(|(start, _)| start + header.t_rp());
    let fourth = fourth_act_back(earlier).filter(|_| last.command == Act).map(|act| act.edge + header.t_faw());
    let by_record = |rule: u8| {
        let exact = move |event: &&Event| needed(header, rule, event, last) == Some(last.edge - event.edge);
        recent().find(exact).map(|event| spacing_name(rule, event, last))
    };
    let row = |rule: u8| match rule {
        5 => (start == Some(last.edge)).then(|| "rule 5".to_string()),
        8 => (fourth == Some(last.edge)).then(|| "rule 8".to_string()),
        _ => by_record(rule),
    };
    SPACINGS.iter().filter_map(|rule| row(*rule)).map(|row| format!("{row} met to the edge")).collect()
}

/// The rule of which a record misses the least spacing by one edge.
fn missed_by_one(past: &[Event], broken: &Break) -> Option<String> {
    let (earlier, later) = (past.get(broken.partner.checked_sub(1)?)?, past.last()?);
    let row = spacing_name(broken.rule, earlier, later);
    (broken.needed == broken.found + 1).then(|| format!("{row} broken by one edge"))
}

/// The past holds the records up to the broken edge.
fn corner_features(header: &Header, past: &[Event], broken: &Break) -> Vec<String> {
    let Some((last, earlier)) = past.split_last() else { return vec![] };
    let Break { rule, edge, found, .. } = *broken;
    if rule == 3 && last.command != Mrs {
        return vec![format!("rule 3 by {:?}, found {found}", last.command)];
    }
    if rule == 3 {
        let next = |off: i64| Header { period: header.period + off, ..*header };
        let allows = |off: i64| allowed(&next(off), last.bank as u32, last.a);
        let near = (allows(1) || allows(-1)).then(|| code_of_next_period(last.bank, header.period));
        let bit = format!("rule 3 by {}", bit_name(last.bank as u32, found as u32));
        return near.into_iter().chain([bit]).collect();
    }
    let starts_now = |place: usize| (0..8).any(|bank| precharge_start(header, past, place, bank) == Some(edge));
    if rule == 24 && (0..past.len()).any(|place| past[place].command == Wr && starts_now(place)) {
        return vec![START_TOO_LATE.to_string()];
    }
    let holds = match rule {
        5 => {
            let banks = banks_of_rule_5(last);
            let latest = latest_start(header, earlier, &banks).map(|(start, _)| start);
            let starts = |place: usize| {
                banks.iter().any(|bank| latest.is_some() && precharge_start(header, earlier, place, *bank) == latest)
            };
            (0..earlier.len()).filter(|place| starts(*place)).count() > 1
        }
        21 => last.command == Sre,
        24 => awake_at(past, edge) % header.t_refi() == 0 && debt_at(header, past, edge) > 8,
        _ => false,
    };
    let place = [5, 21, 24].iter().position(|corner| *corner == rule && holds);
    place.map(|place| CORNERS[place].to_string()).into_iter().collect()
}

fn number(bytes: &[u8]) -> i64 {
    bytes.iter().fold(0, |number, byte| number << 8 | *byte as i64)
}

fn break_of(verdict: &[u8]) -> Break {
    Break {
        rule: verdict[1],
        record: number(&verdict[2..5]) as usize,
        partner: number(&verdict[5..8]) as usize,
        edge: number(&verdict[8..14]),
        needed: number(&verdict[14..17]),
        found: number(&verdict[17..20]),
    }
}

impl Features {
    /// A recording that is judged, its end edge, and its verdict's 20 bytes.
    pub fn add(&mut self, recording: &[u8], end: i64, verdict: &[u8]) {
        let Ok((Edition::One, header, section)) = read_recording(recording) else { return };
        if section.len() / 6 > MOST_RECORDS {
            return;
        }
        let mut names = header_features(&header);
        let broken = (verdict[0] == 1).then(|| break_of(verdict));
        let mut past = vec![];
        for record in read_records(section) {
            let event = Event::after(&past, &record);
            if let Some(broken) = broken.filter(|broken| event.edge >= broken.edge) {
                past.extend((event.edge == broken.edge).then_some(event));
                break;
            }
            past.push(event);
            names.extend(record_features(&header, &past));
            names.extend(powerdown::record_features(&header, &past));
            names.extend(intervals::record_features(&header, &past));
            names.extend(met_to_the_edge(&header, &past));
        }
        let closed = (past.len() == section.len() / 6).then_some(end);
        names.extend(intervals::end_features(&header, &past, closed, broken.as_ref()));
        if let Some(broken) = &broken {
            names.extend(corner_features(&header, &past, broken));
            names.extend(powerdown::break_features(&header, &past, broken));
            names.extend(missed_by_one(&past, broken));
        }
        for name in names {
            *self.0.entry(name).or_default() += 1;
        }
    }

    /// Prints how many of the features came and the rarest; the list of those that never came.
    pub fn report(&self) -> Vec<String> {
        told("features", &self.0, all())
    }
}

/// Prints how many of these names came and the rarest; the list of those that never came.
pub fn told(what: &str, counts: &BTreeMap<String, u64>, names: Vec<String>) -> Vec<String> {
    let times = |name: &String| counts.get(name).copied().unwrap_or(0);
    let (missing, came): (Vec<String>, Vec<String>) = names.into_iter().partition(|name| times(name) == 0);
    let rarest = came.iter().min_by_key(|name| times(name));
    let rarest = rarest.map_or(String::new(), |name| format!("; the rarest, {name}: {} times", times(name)));
    println!("{what}: {} of {} came{rarest}", came.len(), came.len() + missing.len());
    missing
}
