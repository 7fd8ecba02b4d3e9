//! What the generated recordings must have among them of the gap between neighbouring REFs, rule 31.

use crate::banks::none_open;
use crate::deadlines::{broken_by_deadline, debt_at, gap_deadline, since_ref};
use crate::header::Header;
use crate::powerdown::at_one_edge;
use crate::recording::{asleep_after, entry_of_stay, last_edge, Command, Command::*, Event};
use crate::rules::Break;

/// What a record shows in a recording that is clean up to it.
const RECORDS: [&str; 4] = [
    "REF at the last edge that rule 31 allows",
    "REF at the last edge that rule 31 allows, a sleep since the last",
    "REF at the last edge that rule 31 allows, a power-down since the last",
    "SRE at the last edge that rule 31 allows",
];

const KEPT_AT_THE_END: &str = "clean, the end edge the last that rule 31 allows";

/// What else holds where rule 31 is told.
const BREAKS: [&str; 14] = [
    "rule 31 between two records",
    "rule 31 behind the last record",
    "rule 31 at the end edge, behind the last record",
    "rule 31 at the edge of a REF",
    "rule 31 at the edge of a REF that keeps rule 25",
    "rule 31 at the edge of an SRE",
    "rule 31 at the edge of an exit from power-down",
    "rule 31 with a sleep since the REF",
    "rule 31 one edge behind the SRX",
    "rule 31 with a power-down since the REF",
    "rule 31 in power-down",
    "rule 31 with a bank open",
    "rule 31 of a hot part",
    "rule 31 of a part that is not hot",
];

/// Rules that are told at an edge that breaks 31 too. 28 is never told.
const LOWER: [u8; 9] = [1, 2, 3, 24, 25, 26, 27, 29, 30];

/// From a debt of 0 and above 25 is broken first.
fn after_debt(debt: i64) -> String {
    format!("rule 31, the last REF to debt {debt}")
}

pub fn all() -> impl Iterator<Item = String> {
    let told = RECORDS.iter().chain(&BREAKS).chain([&KEPT_AT_THE_END]).map(|name| name.to_string());
    told.chain((-8..=-1).map(after_debt)).chain(LOWER.map(|rule| at_one_edge(rule, 31)))
}

/// The records behind the last REF among these.
fn since_last_ref(past: &[Event]) -> &[Event] {
    &past[past.iter().rposition(|event| event.command == Ref).map_or(0, |place| place + 1)..]
}

fn has(events: &[Event], command: Command) -> bool {
    events.iter().any(|event| event.command == command)
}

/// What the last record adds.
pub fn record_features(header: &Header, past: &[Event]) -> Vec<String> {
    let Some((last, earlier)) = past.split_last() else { return vec![] };
    let (counted, last_ref) = since_ref(past, last.edge);
    if last_ref.is_none() || counted != header.greatest_gap() {
        return vec![];
    }
    let since = since_last_ref(earlier);
    let holds = match last.command {
        Ref => [true, has(since, Sre), has(since, Pde), false],
        Sre => [false, false, false, true],
        _ => [false; 4],
    };
    chosen(&RECORDS, &holds)
}

fn chosen(names: &[&str], holds: &[bool]) -> Vec<String> {
    names.iter().zip(holds).filter(|(_, holds)| **holds).map(|(name, _)| name.to_string()).collect()
}

/// What the end shows. The past holds the records up to the broken edge, or all; where it holds all, there is the end edge.
pub fn end_features(header: &Header, past: &[Event], closed: Option<i64>, broken: Option<&Break>) -> Vec<String> {
    match (broken, closed) {
        (Some(broken), _) if broken.rule == 31 => gap_features(header, past, closed, broken),
        (Some(broken), _) => {
            let both = LOWER.contains(&broken.rule) && broken_by_deadline(header, past, broken.edge, 31).is_some();
            both.then(|| at_one_edge(broken.rule, 31)).into_iter().collect()
        }
        (None, Some(end)) => {
            let kept = !asleep_after(past) && gap_deadline(header, past, last_edge(past)) == end + 1;
            kept.then(|| KEPT_AT_THE_END.to_string()).into_iter().collect()
        }
        (None, None) => vec![],
    }
}

fn gap_features(header: &Header, past: &[Event], closed: Option<i64>, broken: &Break) -> Vec<String> {
    let edge = broken.edge;
    let before = &past[..past.iter().take_while(|event| event.edge < edge).count()];
    let at_edge = past.get(before.len()).map(|event| event.command);
    let since = since_last_ref(before);
    let in_gap = at_edge.is_none();
    let owed = debt_at(header, before, edge) == 9;
    let holds = [
        in_gap && closed.is_none(),
        in_gap && closed.is_some(),
        in_gap && closed == Some(edge),
        at_edge == Some(Ref),
        at_edge == Some(Ref) && owed,
        at_edge == Some(Sre),
        at_edge == Some(Pdx),
        has(since, Sre),
        before.last().is_some_and(|last| last.command == Srx && last.edge + 1 == edge),
        has(since, Pde),
        entry_of_stay(before).is_some(),
        !none_open(before),
        header.hot,
        !header.hot,
    ];
    let debt = past.get(broken.partner.wrapping_sub(1)).map(|last_ref| debt_at(header, before, last_ref.edge));
    chosen(&BREAKS, &holds).into_iter().chain(debt.map(after_debt)).collect()
}
