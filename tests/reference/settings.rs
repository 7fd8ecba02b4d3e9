//! Random headers, with every border of the period, and random register codes.

use crate::header::{least_period, read_header, Header, GREATEST_PERIOD};
use crate::random::Random;
use crate::registers::allowed;

/// Where a table of the paper changes.
const PERIOD_BORDERS: [i64; 8] = [1070, 1250, 1500, 1641, 1875, 2500, 3000, 3300];

/// Periods at which a code of MR0 is not allowed that the next period allows; but for the last the same holds of MR2.
pub const CODE_BORDERS: [i64; 9] = [1250, 1249, 1500, 1499, 1875, 1874, 2500, 2499, 2999];

/// Times whose clock counts change where the period divides them.
const TIMES: [i64; 31] = [
    13125, 12840, 50625, 49500, 48750, 47080, 37500, 36000, 35000, 34240, 7500, 10000, 6000, 5000, 50000, 45000, 40000,
    30000, 27000, 15000, 5625, 110_000, 160_000, 120_000, 170_000, 320_000, 80_000, 70_000_000, 7_800_000, 3_900_000,
    24_000,
];

/// A period at which the clock count of some time changes, or one more.
fn period_at_a_change(random: &mut Random, bin: usize) -> i64 {
    let time = random.pick(&TIMES);
    let (fewest, most) = (time / GREATEST_PERIOD + 1, time / least_period(bin));
    time / random.between(fewest, most.max(fewest)) + random.between(0, 1)
}

fn random_period(random: &mut Random, bin: usize) -> i64 {
    let wanted = match random.below(4) {
        0 => random.pick(&PERIOD_BORDERS) - random.between(0, 1),
        1 => least_period(bin) + random.between(0, 1),
        2 => period_at_a_change(random, bin),
        _ => random.between(least_period(bin), GREATEST_PERIOD),
    };
    if (least_period(bin)..=GREATEST_PERIOD).contains(&wanted) {
        wanted
    } else {
        random.between(least_period(bin), GREATEST_PERIOD)
    }
}

pub fn header_bytes(header: &Header) -> [u8; 6] {
    let first = 1 << 4 | (header.bin as u8) << 2 | header.density << 1 | header.width;
    let second = (header.hot as u8) << 7 | (header.period >> 8) as u8;
    [first, second, header.period as u8, 0, 0, 0]
}

pub fn random_header(random: &mut Random) -> Header {
    let bin = random.below(4) as usize;
    let header = Header {
        bin,
        density: random.below(2) as u8,
        width: random.below(2) as u8,
        hot: random.chance(40),
        period: random_period(random, bin),
    };
    debug_assert!(read_header(&header_bytes(&header)).is_ok());
    header
}

/// The picoseconds that the rule counts by; of a greatest time, which is rounded down, one more too.
fn times_of_rule(header: &Header, rule: u8) -> Vec<i64> {
    let bin = header.times();
    let refresh = header.refresh_time();
    match rule {
        4 | 5 => vec![bin.t_rcd_rp],
        6 => vec![bin.t_rc],
        7 => bin.t_rrd.to_vec(),
        8 => bin.t_faw.to_vec(),
        9 => vec![bin.t_ras],
        10 | 14 => vec![7500],
        11 | 17 => vec![15000],
        15 => vec![refresh],
        18 => vec![320_000, 80_000],
        21 => vec![refresh + 10_000],
        22 | 27 => vec![bin.t_cke],
        26 => vec![15000],
        24 => vec![70_000_000, 70_000_001],
        25 | 31 => vec![7_800_000, 3_900_000, 7_800_001],
        29 => vec![7500, 6000],
        30 => vec![24_000],
        _ => vec![],
    }
}

/// The header, now and then with a period that divides a time of the rule: one picosecond more would be one clock more.
fn with_telling_period(random: &mut Random, header: Header, rule: u8) -> Header {
    let mut periods: Vec<i64> = (least_period(header.bin)..=GREATEST_PERIOD).collect();
    let times = times_of_rule(&header, rule);
    if times.is_empty() || random.chance(70) {
        return header;
    }
    let time = random.pick(&times);
    periods.retain(|period| time % period == 0);
    if periods.is_empty() {
        return header;
    }
    Header { period: random.pick(&periods), ..header }
}

/// A header at which the rule can be the verdict.
pub fn header_for_rule(random: &mut Random, rule: u8) -> Header {
    if rule == 3 && random.chance(70) {
        return if random.chance(20) { header_of_forbidden_cl_5(random) } else { header_at_code_border(random) };
    }
    if rule == 30 && random.chance(50) {
        return header_of_slow_exits(random);
    }
    loop {
        let header = random_header(random);
        let header = with_telling_period(random, header, rule);
        let possible = match rule {
            6 => header.t_rc() > header.t_ras() + header.t_rp(),
            8 => header.t_faw() > 4 * header.t_rrd(),
            19 => greatest_cl(&header) + 4 > header.t_rtp() + header.t_rp(),
            24 => !header.hot,
            _ => true,
        };
        if possible {
            return header;
        }
    }
}

/// CL 5 is the one latency that a bin alone forbids.
fn header_of_forbidden_cl_5(random: &mut Random) -> Header {
    let header = random_header(random);
    Header { bin: 3, period: random.between(3000, GREATEST_PERIOD), ..header }
}

/// Short periods: after an exit there is time for an MRS, and a bank can still be closing at an entry.
fn header_of_slow_exits(random: &mut Random) -> Header {
    let header = random_header(random);
    Header { bin: 3, period: random.between(least_period(3), 1333), ..header }
}

/// A bin that has the next period too: bin 3 has them all.
fn header_at_code_border(random: &mut Random) -> Header {
    let period = random.pick(&CODE_BORDERS);
    let header = random_header(random);
    let bin = if least_period(header.bin) < period { header.bin } else { 3 };
    Header { bin, period, ..header }
}

fn greatest_cl(header: &Header) -> i64 {
    match header.period {
        2500.. => 6,
        1875.. => 8,
        1500.. => 10,
        1250.. => 11,
        _ => 12,
    }
}

/// The bits that some allowed code of the register sets.
const FREE_BITS: [u16; 4] = [0x1F7F, 0x1A5E, 0x06FF, 0x0000];
const DLL_RESET: u16 = 1 << 8;

pub fn allowed_code(random: &mut Random, header: &Header, number: u8) -> u16 {
    loop {
        let code = random.next() as u16 & FREE_BITS[number as usize];
        if allowed(header, number as u32, code) {
            return code;
        }
    }
}

pub fn mr0_code(random: &mut Random, header: &Header, dll_reset: bool) -> u16 {
    let code = allowed_code(random, header, 0);
    if dll_reset {
        code | DLL_RESET
    } else {
        code & !DLL_RESET
    }
}

/// The header with a period by so much longer, if the bin has it.
pub fn with_longer_period(header: &Header, picoseconds: i64) -> Header {
    let period = header.period + picoseconds;
    Header { period: period.clamp(least_period(header.bin), GREATEST_PERIOD), ..*header }
}

/// MR0's codes for the eight values of CL, at A6A5A4A2.
const CL_CODES: [u16; 8] = [0x10, 0x20, 0x30, 0x40, 0x50, 0x60, 0x70, 0x04];

/// The code with another CL or WR (MR0), or another CWL (MR2).
pub fn with_another_latency(random: &mut Random, code: u16, number: u8) -> u16 {
    match number {
        0 if random.chance(70) => code & !0x0074 | random.pick(&CL_CODES),
        0 => code & !0x0E00 | (random.below(8) as u16) << 9,
        2 => code & !0x0038 | (random.below(8) as u16) << 3,
        _ => code ^ 1 << random.below(16),
    }
}
