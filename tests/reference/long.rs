//! Long recordings, for measuring speed. Five are clean and begin with the registers set:
//!
//! rounds   ACT, RD and WR, PRE, and REF in time, with some auto precharge and some slack
//! mix      of 100 records 38 ACT, 21 RD and WR, 14 of these with auto precharge, 14 PRE, 7 PRE of all banks, 2 REF,
//!          1.4 MRS, 1 SRE or SRX, 0.3 ZQ, the rest NOP and DES
//! modes    seven MRS and a REF
//! idle     fifteen NOP or DES and a REF
//! naps     the rounds, and behind each a power-down
//!
//! and one, `broken`, is broken at its first record and goes on with anything. What its name says of a recording is looked
//! up for its first records.

use crate::driver::{Driver, HEADER};
use crate::edition::{Edition, Wide};
use crate::moves::shifted;
use crate::random::Random;
use crate::settings::{allowed_code, header_bytes};
use crate::verdict::program_lines;

/// MR0 to MR3: burst by A12, CL 9, WR 10, DLL reset; AL CL-2; CWL 7; nothing.
const CODES: [u16; 4] = [0x0B51, 0x0010, 0x0010, 0x0000];

/// So many records are held to the reference.
const LOOKED_UP: usize = 1500;

/// ACTs of some banks, columns in them, PREs, a REF for each interval that has passed.
fn round(driver: &mut Driver) {
    let first = driver.random.below(8) as u8;
    for turn in 0..driver.random.between(2, 8) as u8 {
        driver.activate((first + 3 * turn) % 8);
    }
    for _ in 0..driver.random.between(4, 20) {
        let open = driver.banks(true);
        if !open.is_empty() {
            let random = &mut driver.random;
            let (bank, reads, auto) = (random.pick(&open), random.chance(60), random.chance(12));
            driver.column(bank, reads, auto);
        }
    }
    let open = driver.banks(true);
    if !open.is_empty() && driver.random.chance(30) {
        driver.precharge(open[0], true);
    } else {
        open.iter().for_each(|bank| driver.precharge(*bank, false));
    }
    driver.refresh_in_time();
}

/// A round; a power-down some clocks after its last PRE, or after the REFs behind that.
fn round_and_nap(driver: &mut Driver) {
    round(driver);
    let (later, clocks) = (driver.random.between(1, 10), driver.random.between(1, 100));
    driver.nap(later, clocks);
}

/// Banks are opened one after the other, and between this some are used, some closed; then all are closed, and what needs
/// them idle may come.
fn mixed(driver: &mut Driver) {
    for _ in 0..driver.random.between(3, 8) {
        let bank = driver.random.pick(&driver.banks(false));
        driver.activate(bank);
        if driver.random.chance(55) {
            let (bank, reads, auto) =
                (driver.random.pick(&driver.banks(true)), driver.random.chance(60), driver.random.chance(67));
            driver.column(bank, reads, auto);
        }
        let open = driver.banks(true);
        if !open.is_empty() && driver.random.chance(45) {
            let bank = driver.random.pick(&open);
            driver.precharge(bank, false);
        }
        if driver.random.chance(40) {
            driver.nothing(1);
        }
    }
    let bank = driver.random.below(8) as u8;
    driver.precharge(bank, true);
    driver.refresh_in_time();
    if driver.random.chance(22) {
        driver.refresh();
    }
    if driver.random.chance(20) {
        set_some_register(driver);
    }
    if driver.random.chance(7) {
        driver.self_refresh();
    }
    if driver.random.chance(4) {
        let long = driver.random.chance(50);
        driver.calibrate(long);
    }
}

fn set_some_register(driver: &mut Driver) {
    let number = driver.random.below(4) as u8;
    let code = allowed_code(&mut driver.random, &HEADER, number);
    driver.set_register(number, code);
}

fn seven_modes(driver: &mut Driver) {
    for _ in 0..7 {
        set_some_register(driver);
    }
    driver.refresh();
}

/// Shorter than an interval, so that the debt does not grow.
fn idle(driver: &mut Driver) {
    for _ in 0..15 {
        let clocks = driver.random.between(1, 330);
        driver.nothing(clocks);
    }
    driver.refresh();
}

fn clean(seed: u64, records: usize, go_on: fn(&mut Driver)) -> Vec<u8> {
    let mut driver = Driver::new(seed);
    for number in [2, 3, 1, 0] {
        driver.set_register(number, CODES[number as usize]);
    }
    while driver.bytes.len() < 6 + 6 * records {
        go_on(&mut driver);
    }
    driver.bytes
}

/// An ACT before any register is written, and then random records with short steps.
fn broken(seed: u64, records: usize) -> Vec<u8> {
    let mut random = Random::new(seed);
    let mut bytes = header_bytes(&HEADER).to_vec();
    bytes.extend([0, 0, 1, 0x98, 0, 0]);
    for _ in 1..records {
        let [pins, high, low, ..] = random.next().to_be_bytes();
        bytes.extend([0, 0, random.between(1, 100) as u8, pins, high, low]);
    }
    bytes
}

/// The recording of this kind and seed, of so many records.
pub fn long(kind: &str, seed: u64, records: usize) -> Result<Vec<u8>, String> {
    let (mut bytes, expected) = match kind {
        "rounds" => (clean(seed, records, round), "clean "),
        "mix" => (clean(seed, records, mixed), "clean "),
        "modes" => (clean(seed, records, seven_modes), "clean "),
        "idle" => (clean(seed, records, idle), "clean "),
        "naps" => (clean(seed, records, round_and_nap), "clean "),
        "broken" => (broken(seed, records), "broken 3 1 "),
        _ => return Err(format!("not a kind of long recording: {kind}")),
    };
    bytes.truncate(6 + 6 * records);
    let lines = program_lines(&bytes[..bytes.len().min(6 + 6 * LOOKED_UP)]);
    if records > 0 && !lines[0].starts_with(expected) {
        return Err(format!("{kind} begins otherwise: {}", lines[0]));
    }
    Ok(bytes)
}

/// The same in edition 2: `both` drives the two ranks together, `turns` the first alone.
pub fn long_and_wide(kind: &str, how: &str, seed: u64, records: usize) -> Result<Vec<u8>, String> {
    let to_both = match how {
        "both" => true,
        "turns" => false,
        _ => return Err(format!("not a way to drive two ranks: {how}")),
    };
    let mut bytes =
        shifted(Edition::One, &long(kind, seed, records)?, usize::MAX).map_err(|n| format!("refused {n}"))?;
    for eight in bytes[6..].chunks_mut(8).filter(|_| to_both) {
        let wide = Wide::read(eight);
        eight.copy_from_slice(&Wide { cs: [wide.cs[0]; 2], ..wide }.write());
    }
    Ok(bytes)
}
