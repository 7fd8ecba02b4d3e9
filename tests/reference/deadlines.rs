//! The deadlines, rules 24, 25, 28 and 31, the awake clock and the refresh debt.

use crate::banks::precharge_start;
use crate::header::Header;
use crate::recording::{asleep_after, entry_of_stay, Command, Event};
use crate::rules::Break;

const LOWEST_DEBT: i64 = -8;
const BROKEN_DEBT: i64 = 9;

/// The edges from each SRE to its SRX; a sleep that has not ended has no SRX.
fn sleeps(past: &[Event]) -> Vec<(i64, Option<i64>)> {
    let srx_after = |place: usize| past[place..].iter().find(|later| later.command == Command::Srx);
    let sres = (0..past.len()).filter(|place| past[*place].command == Command::Sre);
    sres.map(|place| (past[place].edge, srx_after(place).map(|srx| srx.edge))).collect()
}

/// The awake clock counts edges from 1, but not those after SRE up to and including SRX.
fn awake(sleeps: &[(i64, Option<i64>)], edge: i64) -> i64 {
    let asleep = |(sre, srx): &(i64, Option<i64>)| (srx.unwrap_or(edge).min(edge) - sre).max(0);
    edge - sleeps.iter().map(asleep).sum::<i64>()
}

pub fn awake_at(past: &[Event], edge: i64) -> i64 {
    awake(&sleeps(past), edge)
}

/// Debt starts at 0, rises by 1 at each positive multiple of tREFI's clocks on the awake clock,
/// then falls by 1 at a REF, never below -8.
pub fn debt_at(header: &Header, past: &[Event], edge: i64) -> i64 {
    let sleeps = sleeps(past);
    let multiples_to = |edge: i64| awake(&sleeps, edge) / header.t_refi();
    let (mut debt, mut counted) = (0, 0);
    for event in past.iter().filter(|event| event.command == Command::Ref && event.edge <= edge) {
        let multiples = multiples_to(event.edge);
        debt = (debt + multiples - counted - 1).max(LOWEST_DEBT);
        counted = multiples;
    }
    debt + multiples_to(edge) - counted
}

/// 24 A bank's precharge must start no later than ACT + greatest tRAS; broken one edge after.
fn broken_by_open_bank(header: &Header, past: &[Event], edge: i64) -> Option<Break> {
    let limit = header.greatest_t_ras();
    let overdue = |place: &usize| {
        let act = &past[*place];
        let due = act.command == Command::Act && act.edge + limit + 1 == edge;
        let started = |later: usize| precharge_start(header, past, later, act.bank).is_some_and(|start| start < edge);
        due && !(place + 1..past.len()).any(started)
    };
    let place = (0..past.len()).find(overdue)?;
    Some(Break { rule: 24, record: 0, partner: past[place].number, edge, needed: limit, found: limit + 1 })
}

/// 25 broken at 9 after the edge's command. Partner: the last REF or none.
/// Debt rises only at a multiple, so it cannot become 9 at another edge.
fn broken_by_debt(header: &Header, past: &[Event], edge: i64) -> Option<Break> {
    let rises = awake_at(past, edge) % header.t_refi() == 0;
    if !rises || debt_at(header, past, edge) < BROKEN_DEBT {
        return None;
    }
    let last_ref = past.iter().rfind(|event| event.command == Command::Ref);
    let partner = last_ref.map_or(0, |event| event.number);
    Some(Break { rule: 25, record: 0, partner, edge, needed: BROKEN_DEBT - 1, found: BROKEN_DEBT })
}

/// 28 greatest stay in power-down nine times tREFI's clocks; broken one edge after, by a part that was still in it one
/// edge before. Partner: the entry.
fn broken_by_stay(header: &Header, past: &[Event], edge: i64) -> Option<Break> {
    let limit = header.greatest_stay();
    let before = past.iter().take_while(|event| event.edge < edge).count();
    let entry = entry_of_stay(&past[..before]).filter(|entry| entry.edge + limit + 1 == edge)?;
    Some(Break { rule: 28, record: 0, partner: entry.number, edge, needed: limit, found: limit + 1 })
}

/// The edges that the awake clock has counted up to this edge since the last REF before it, or since edge 0; and that REF.
/// A REF at the edge itself is not before it.
pub fn since_ref(past: &[Event], edge: i64) -> (i64, Option<&Event>) {
    let last_ref = past.iter().rfind(|event| event.command == Command::Ref && event.edge < edge);
    let from = last_ref.map_or(0, |event| event.edge);
    (awake_at(past, edge) - awake_at(past, from), last_ref)
}

/// 31 the distance between neighbouring REFs at most nine times tREFI's clocks, counted on the awake clock from edge 0 or
/// the last REF; broken one edge past it. Partner: the last REF or none.
fn broken_by_gap(header: &Header, past: &[Event], edge: i64) -> Option<Break> {
    let limit = header.greatest_gap();
    let (counted, last_ref) = since_ref(past, edge);
    let partner = last_ref.map_or(0, |event| event.number);
    (counted == limit + 1).then_some(Break { rule: 31, record: 0, partner, edge, needed: limit, found: limit + 1 })
}

/// How this deadline is broken at this edge, if it is; the past holds the records up to it.
pub fn broken_by_deadline(header: &Header, past: &[Event], edge: i64, rule: u8) -> Option<Break> {
    match rule {
        24 => broken_by_open_bank(header, past, edge),
        25 => broken_by_debt(header, past, edge),
        28 => broken_by_stay(header, past, edge),
        31 => broken_by_gap(header, past, edge),
        _ => None,
    }
}

/// The edge at which 31 breaks when behind the last record, at this edge, no REF comes and the clock is awake.
pub fn gap_deadline(header: &Header, past: &[Event], last: i64) -> i64 {
    let next = last + 1;
    let (counted, _) = since_ref(past, next);
    next + header.greatest_gap() + 1 - counted
}

/// The edges after the last record and up to the given one at which a deadline can become due.
/// From -8 the debt is 9 after seventeen risings, so no more of a gap's risings need a look.
pub fn edges_to_examine(header: &Header, past: &[Event], from: i64, until: i64) -> Vec<i64> {
    let open_too_long =
        past.iter().filter(|event| event.command == Command::Act).map(|act| act.edge + header.greatest_t_ras() + 1);
    let mut edges: Vec<i64> = open_too_long.collect();
    edges.extend(entry_of_stay(past).map(|entry| entry.edge + header.greatest_stay() + 1));
    if !asleep_after(past) {
        let into_interval = awake_at(past, from) % header.t_refi();
        let most_risings = BROKEN_DEBT - LOWEST_DEBT;
        edges.extend((1..=most_risings).map(|rising| from - into_interval + rising * header.t_refi()));
        edges.push(gap_deadline(header, past, from));
    }
    edges.retain(|edge| (from + 1..=until).contains(edge));
    edges.sort();
    edges
}
