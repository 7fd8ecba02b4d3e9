//! What the generated recordings of edition 2 must have among them.

use crate::banks::{bank_at, Bank};
use crate::edition::{Edition::*, Wide};
use crate::features::told;
use crate::header::Header;
use crate::recording::{read_recording, read_records, registers_after, Command, Command::*, Event};
use std::collections::BTreeMap;

/// Longer ones are about the limit of records and show nothing else.
const MOST_RECORDS: usize = 400;

#[derive(Default)]
pub struct Ranked(BTreeMap<String, u64>);

/// What a record shows where neither rank is broken yet.
const RECORDS: [&str; 11] = [
    "a command to the first rank alone",
    "a command to the second rank alone",
    "a command to both ranks",
    "a command's pins to no rank",
    "SRE of the first rank alone",
    "SRE of the second rank alone",
    "SRE of both ranks",
    "SRX of one rank, PDX of the other",
    "RESET low",
    "ODT high",
    "an MRS to one rank that leaves the ranks' registers different",
];

/// What would break a rule if the ranks were one.
const APART: [&str; 9] = [
    "ACT within tRRD of the other rank's",
    "ACT of a bank that is open in the other rank",
    "RD within 4 of the other rank's",
    "WR within 4 of the other rank's",
    "RD soon behind the other rank's WR",
    "a command within tRFC of the other rank's REF",
    "MRS within 4 of the other rank's",
    "REF with a bank of the other rank open",
    "a command soon behind the other rank's MRS",
];

const VERDICTS: [&str; 9] = [
    "both ranks clean",
    "the first rank broken, the second clean",
    "the second rank broken, the first clean",
    "both ranks broken by one rule at one edge",
    "both ranks broken at one edge by two rules",
    "the first rank broken before the second",
    "the second rank broken before the first",
    "25 broken by a rank, the other refreshed behind its last REF",
    "31 broken by a rank, the other refreshed behind its last REF",
];

struct Verdict {
    broken: bool,
    rule: u8,
    partner: usize,
    edge: i64,
}

fn number(bytes: &[u8]) -> i64 {
    bytes.iter().fold(0, |number, byte| number << 8 | *byte as i64)
}

fn verdict_of(bytes: &[u8]) -> Verdict {
    let partner = number(&bytes[5..8]) as usize;
    Verdict { broken: bytes[0] == 1, rule: bytes[1], partner, edge: number(&bytes[8..14]) }
}

fn chosen(names: &[&'static str], holds: &[bool]) -> Vec<&'static str> {
    names.iter().zip(holds).filter(|(_, holds)| **holds).map(|(name, _)| *name).collect()
}

/// Both ranks' records up to one edge.
type Pasts = [Vec<Event>; 2];

fn record_features(wide: &Wide, pasts: &Pasts) -> Vec<&'static str> {
    let [first, second] = [0, 1].map(|rank: usize| pasts[rank].last().map(|event| (event.command, event.is_command())));
    let (Some((one, is_one)), Some((two, is_two))) = (first, second) else { return vec![] };
    let awake = one == Des && two == Des;
    let exits = [(Srx, Pdx), (Pdx, Srx)];
    let registers = |rank: usize| registers_after(&pasts[rank]).0;
    let mrs = (one == Mrs) != (two == Mrs);
    chosen(
        &RECORDS,
        &[
            is_one && two == Des,
            is_two && one == Des,
            is_one && is_two,
            awake && wide.command != 0b111,
            one == Sre && two == Pde,
            two == Sre && one == Pde,
            one == Sre && two == Sre,
            exits.contains(&(one, two)),
            !wide.reset,
            wide.odt,
            mrs && registers(0) != registers(1),
        ],
    )
}

/// The last record of one rank beside the other rank's past.
fn apart_features(header: &Header, own: &[Event], others: &[Event]) -> Vec<&'static str> {
    let Some(last) = own.last().filter(|last| last.is_command()) else { return vec![] };
    let before = &others[..others.len() - 1];
    let latest = |command: Command| before.iter().rfind(|event| event.command == command);
    let within = |command: Command, clocks: i64| latest(command).is_some_and(|event| last.edge < event.edge + clocks);
    let is_open = |bank: u8| matches!(bank_at(header, before, bank, last.edge), Bank::Open(_));
    let is = |command: Command| last.command == command;
    chosen(
        &APART,
        &[
            is(Act) && within(Act, header.t_rrd()),
            is(Act) && is_open(last.bank),
            is(Rd) && within(Rd, 4),
            is(Wr) && within(Wr, 4),
            is(Rd) && within(Wr, 8),
            within(Ref, header.t_rfc()),
            is(Mrs) && within(Mrs, 4),
            is(Ref) && (0..8).any(is_open),
            !is(Mrs) && within(Mrs, 12),
        ],
    )
}

fn verdict_features(verdicts: &[Verdict; 2], pasts: &Pasts) -> Vec<&'static str> {
    let [one, two] = verdicts;
    let both = one.broken && two.broken;
    let refreshed = |rank: usize, rule: u8| {
        let Verdict { broken, rule: told, partner, edge } = verdicts[rank];
        let later = |event: &Event| event.command == Ref && event.number > partner && event.edge < edge;
        broken && told == rule && pasts[1 - rank].iter().any(later)
    };
    chosen(
        &VERDICTS,
        &[
            !one.broken && !two.broken,
            one.broken && !two.broken,
            two.broken && !one.broken,
            both && one.edge == two.edge && one.rule == two.rule,
            both && one.edge == two.edge && one.rule != two.rule,
            both && one.edge < two.edge,
            both && two.edge < one.edge,
            refreshed(0, 25) || refreshed(1, 25),
            refreshed(0, 31) || refreshed(1, 31),
        ],
    )
}

impl Ranked {
    /// A recording that is judged, and its verdicts' 40 bytes.
    pub fn add(&mut self, recording: &[u8], verdicts: &[u8]) {
        let Ok((Two, header, section)) = read_recording(recording) else { return };
        if section.len() / 8 > MOST_RECORDS {
            return;
        }
        let told = [verdict_of(&verdicts[..20]), verdict_of(&verdicts[20..])];
        let first_break = told.iter().filter(|verdict| verdict.broken).map(|verdict| verdict.edge).min();
        let mut pasts: Pasts = [vec![], vec![]];
        let mut names = vec![];
        let seen = [0, 1].map(|rank| Two.seen_by(section, rank));
        let records = read_records(&seen[0]).zip(read_records(&seen[1]));
        for ((first, second), eight) in records.zip(Two.records(section)) {
            for (rank, record) in [(0, first), (1, second)] {
                let event = Event::after(&pasts[rank], &record);
                pasts[rank].push(event);
            }
            let now = pasts[0].last().map_or(0, |event| event.edge);
            if first_break.map_or(true, |edge| now < edge) {
                names.extend(record_features(&Wide::read(eight), &pasts));
                names.extend(apart_features(&header, &pasts[0], &pasts[1]));
                names.extend(apart_features(&header, &pasts[1], &pasts[0]));
            }
        }
        names.extend(verdict_features(&told, &pasts));
        for name in names {
            *self.0.entry(name.to_string()).or_default() += 1;
        }
    }

    /// Prints how many of the features came and the rarest; the list of those that never came.
    pub fn report(&self) -> Vec<String> {
        let names = RECORDS.iter().chain(&APART).chain(&VERDICTS).map(|name| name.to_string());
        told("features of two ranks", &self.0, names.collect())
    }
}
