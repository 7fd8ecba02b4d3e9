//! Corners of the gap between neighbouring REFs: each is set up on purpose, and then rule 31 is broken at it, or just kept.

use crate::controller::Controller;
use crate::corners::all_idle;
use crate::naps::{ready_to_read, with_the_deadline};
use crate::recording::{Command::*, Record};

/// Edges behind a deadline at which a record comes.
const LATER: [i64; 4] = [0, 1, 2, 1000];

/// Sets up one of the corners.
pub fn too_long_a_gap(c: &mut Controller) -> Option<()> {
    match c.random.below(14) {
        0 | 1 => at_a_refresh(c),
        2 | 3 => tie(c),
        4 | 5 => behind_a_sleep(c),
        6 => at_an_entry_to_sleep(c),
        7 => with_a_nap(c),
        8 => with_an_open_bank(c),
        _ => with_the_deadline(c, 31),
    }
}

fn refresh(c: &mut Controller) {
    let record = c.record(Ref, 0, false);
    c.at_least_edge(record);
}

fn nothing(c: &mut Controller, edge: i64) {
    let nop = c.record(Nop, 0, false);
    c.issue(nop, edge);
}

/// With all banks idle, REFs until some are in advance, one at least. The edge at which 31 is then broken, if it is the next
/// deadline.
pub fn run_ahead(c: &mut Controller) -> Option<i64> {
    all_idle(c);
    let wanted = c.random.between(-8, -1);
    for _ in 0..20 {
        refresh(c);
        if c.debt() <= wanted {
            break;
        }
    }
    let (deadline, rule) = c.deadline()?;
    (rule == 31).then_some(deadline)
}

/// A bank opened so soon after a REF that it is late before the next REF is. A hot part has no such edge.
pub fn keep_open(c: &mut Controller) -> Option<()> {
    ready_to_read(c, false)?;
    run_ahead(c)?;
    let bank = c.random.below(8) as u8;
    c.open(bank);
    (c.deadline()?.1 == 24).then_some(())
}

/// A debt of 0, by REFs or by waiting for it to rise, if that comes before the next deadline.
pub fn even(c: &mut Controller) -> Option<()> {
    all_idle(c);
    for _ in 0..20 {
        if c.debt() > 0 {
            refresh(c);
        }
    }
    let owed = -c.debt();
    let edge = c.rising(c.now() + 1) + (owed - 1) * c.header.t_refi();
    if owed > 0 && c.deadline()?.0 > edge {
        nothing(c, edge);
    }
    (c.debt() == 0).then_some(())
}

/// A REF at the very edge at which 31 is broken, or at the last edge that it allows.
fn at_a_refresh(c: &mut Controller) -> Option<()> {
    let deadline = run_ahead(c)?;
    let early = c.random.pick(&[0, 0, 1]);
    let record = c.record(Ref, 0, false);
    c.issue(record, deadline - early);
    (early == 0).then_some(())
}

/// A REF to a debt of -1 one edge before it rises: nine intervals and one edge later the debt is 9, and 31 is broken too.
/// With a REF at that edge 31 alone is broken, with one an edge before it none.
fn tie(c: &mut Controller) -> Option<()> {
    even(c)?;
    let record = c.record(Ref, 0, false);
    let before_rising = c.rising(c.least_edge(&record) + 1) - 1;
    c.issue(record, before_rising);
    let (deadline, rule) = c.deadline()?;
    if rule != 25 || c.gap_deadline()? != deadline {
        return None;
    }
    match c.random.below(4) {
        0 | 1 => c.issue(record, deadline),
        2 => c.issue(record, deadline - 1),
        _ => {
            let later = c.random.pick(&LATER);
            nothing(c, deadline + later);
        }
    }
    Some(())
}

/// SRE and SRX behind the REFs, the SRE at the last edge that 31 allows too: while the part sleeps the clock stands.
fn behind_a_sleep(c: &mut Controller) -> Option<()> {
    let deadline = run_ahead(c)?;
    let entry = c.record(Sre, 0, false);
    let least = c.least_edge(&entry);
    let any = c.random.between(least, deadline - 1);
    let edge = c.random.pick(&[least, any, deadline - 2, deadline - 1]);
    c.issue(entry, edge);
    let exit = c.record(Srx, 0, false);
    let asleep = c.random.pick(&[0, 1, 5000, 1_000_000]);
    c.issue(exit, c.least_edge(&exit) + asleep);
    let (deadline, rule) = c.deadline()?;
    let (first, around) = (c.now() + 1, c.random.between(-1, 2));
    nothing(c, first.max(deadline + around));
    (rule == 31 && c.now() >= deadline).then_some(())
}

/// An SRE at the very edge at which 31 is broken: that edge counts.
fn at_an_entry_to_sleep(c: &mut Controller) -> Option<()> {
    let deadline = run_ahead(c)?;
    let entry = c.record(Sre, 0, false);
    c.issue(entry, deadline);
    Some(())
}

/// A power-down behind the REFs, in which the clock runs on; the exit before the deadline, at it or behind it, or a REF at
/// the last edge that 31 allows.
fn with_a_nap(c: &mut Controller) -> Option<()> {
    let deadline = run_ahead(c)?;
    let entry = c.power_down();
    let least = c.least_edge(&entry);
    let edge = c.random.between(least, deadline - 100);
    c.issue(entry, edge);
    let exit = c.record(Pdx, 0, false);
    let soon = c.least_edge(&exit);
    let edge = c.random.pick(&[soon, soon, deadline - 1, deadline, deadline + 1]);
    c.issue(exit, edge);
    if c.now() >= deadline {
        return Some(());
    }
    if edge == soon && c.random.chance(50) {
        let record = c.record(Ref, 0, false);
        c.issue(record, deadline - 1);
        return None;
    }
    let later = c.random.pick(&LATER);
    nothing(c, deadline + later);
    Some(())
}

/// A bank that is late at the edge at which 31 is broken: 24 is lower. Of a hot part 31 is broken first.
fn with_an_open_bank(c: &mut Controller) -> Option<()> {
    ready_to_read(c, false)?;
    let deadline = run_ahead(c)?;
    let bank = c.random.below(8) as u8;
    let act = c.record(Act, bank, false);
    let edge = c.least_edge(&act).max(deadline - c.header.greatest_t_ras() - 1);
    c.issue(act, edge);
    let later = c.random.pick(&LATER);
    nothing(c, deadline + later);
    Some(())
}

/// A record at the deadline that breaks one of rules 1 to 3.
pub fn lower_at(c: &mut Controller, deadline: i64) -> Option<()> {
    let record = match c.random.below(3) {
        0 => Record { cke: false, ..c.record(Act, 0, false) },
        1 => c.record(Wr, 3, false),
        _ => Record { a: 1, ..c.record(Mrs, 3, false) },
    };
    c.issue(record, deadline);
    Some(())
}
