//! One call of an exported function, and the reference's answer to it.

use crate::bursts::burst_order;
use crate::edition::{named_by, room, step, Edition, BOTH};
use crate::header::{least_period, read_header, GREATEST_PERIOD};
use crate::moves::{shifted, stays};
use crate::recording::{GREATEST_END, MOST_RECORDS};
use crate::registers::{allowed, register_reading};
use crate::text::hex;
use crate::verdict::{all_bytes, judge};

#[derive(Clone, Copy, Debug, PartialEq, Eq, PartialOrd, Ord)]
pub enum Function {
    Judge,
    Register,
    Burst,
    /// Judging a recording of edition 2.
    Ranks,
    Widen,
    Narrow,
}

use Function::*;

impl Function {
    /// As harness.c counts them.
    pub fn number(self) -> u64 {
        match self {
            Judge | Ranks => 1,
            Register => 2,
            Burst => 3,
            Widen => 4,
            Narrow => 5,
        }
    }

    /// The editions that it takes.
    fn editions(self) -> &'static [Edition] {
        match self {
            Judge | Ranks => &BOTH,
            Register | Burst | Widen => &BOTH[..1],
            Narrow => &BOTH[1..],
        }
    }
}

/// The data is a recording, a header, or nothing. The numbers are the end edge; number and code;
/// length, start, type and direction.
#[derive(Clone)]
pub struct Call {
    pub function: Function,
    pub data: Vec<u8>,
    pub numbers: [u64; 4],
    pub lent: usize,
}

impl Call {
    /// The bytes that are written, or the refusal.
    pub fn answer(&self) -> Result<Vec<u8>, u32> {
        let [a, b, c, d] = self.numbers;
        match self.function {
            Judge | Ranks => judge(&self.data, Some(a), self.lent).map(|closings| all_bytes(&closings)),
            Register => register_reading(&self.data, a as u32, b as u16, self.lent).map(|six| six.to_vec()),
            Burst => burst_order(a as u32, b as u32, c as u32, d as u32, self.lent),
            Widen => shifted(Edition::One, &self.data, self.lent),
            Narrow => shifted(Edition::Two, &self.data, self.lent),
        }
    }

    /// The edition in which its records are read.
    pub fn edition(&self) -> Edition {
        match self.function {
            Widen => Edition::One,
            Narrow => Edition::Two,
            _ => named_by(&self.data).unwrap_or(Edition::One),
        }
    }

    fn section(&self) -> &[u8] {
        self.data.get(6..).unwrap_or(&[])
    }

    /// The bytes that are written when nothing is refused.
    fn wanted_room(&self) -> usize {
        let records = self.section().len() / self.edition().size();
        match self.function {
            Judge | Ranks => room(&self.data),
            Register => 6,
            Burst => [4, 8].into_iter().find(|length| *length == self.numbers[0]).unwrap_or(4) as usize,
            Widen => 6 + 8 * records,
            Narrow => 6 + 6 * records,
        }
    }

    /// Every refusal whose condition holds, whatever else holds.
    pub fn conditions(&self) -> Vec<u32> {
        let [a, b, ..] = self.numbers;
        let (edition, section) = (self.edition(), self.section());
        let mut held = match self.function {
            Burst => vec![],
            Register => header_conditions(&self.data, self.data.len() != 6, self.function.editions()),
            _ => header_conditions(&self.data, self.data.len() < 6, self.function.editions()),
        };
        if !matches!(self.function, Register | Burst) {
            held.extend(section_conditions(edition, section));
        }
        let last = match self.function {
            Judge | Ranks => ((a as i64) < edition.last_edge(section) || a > GREATEST_END).then_some(8),
            Register => not_allowed(&self.data, a as u32, b as u16).then_some(11),
            Burst => ((a != 4 && a != 8) || b > 7).then_some(10),
            Widen => None,
            Narrow => stays(section).then_some(13),
        };
        held.extend((self.lent < self.wanted_room()).then_some(9));
        held.extend(last);
        held
    }

    /// As the reference's own commands read it.
    pub fn text(&self) -> String {
        let [a, b, c, d] = self.numbers;
        match self.function {
            Judge | Ranks => format!("judge: {} {a} {}", hex(&self.data), self.lent),
            Register => format!("register: {} {a} {b:04x} {}", hex(&self.data), self.lent),
            Burst => format!("burst: {a} {b} {c} {d} {}", self.lent),
            Widen => format!("widen: {} {}", hex(&self.data), self.lent),
            Narrow => format!("narrow: {} {}", hex(&self.data), self.lent),
        }
    }
}

/// 1 as told; 2, 3 and 4 where the bytes that decide them are there.
fn header_conditions(bytes: &[u8], wrong_length: bool, editions: &[Edition]) -> Vec<u32> {
    let byte = |place: usize| bytes.get(place).copied();
    let edition = byte(0).is_some() && !named_by(bytes).is_some_and(|named| editions.contains(&named));
    let zeros = [(1, 0x70), (3, 0xFF), (4, 0xFF), (5, 0xFF)];
    let not_zero = zeros.iter().any(|(place, mask)| byte(*place).is_some_and(|there| there & mask != 0));
    let period = match (byte(0), byte(1), byte(2)) {
        (Some(first), Some(high), Some(low)) => {
            let period = (high as i64 & 15) << 8 | low as i64;
            period < least_period(first as usize >> 2 & 3) || period > GREATEST_PERIOD
        }
        _ => false,
    };
    let held = [(1, wrong_length), (2, edition), (3, not_zero), (4, period)];
    held.iter().filter(|(_, holds)| *holds).map(|(refusal, _)| *refusal).collect()
}

/// 5, 7, 6 and 14.
fn section_conditions(edition: Edition, section: &[u8]) -> Vec<u32> {
    let held = [
        (5, section.len() % edition.size() != 0),
        (7, section.len() / edition.size() > MOST_RECORDS),
        (6, edition.records(section).any(|record| step(record) == 0)),
        (14, edition.has_zero_bits_set(section)),
    ];
    held.iter().filter(|(_, holds)| *holds).map(|(refusal, _)| *refusal).collect()
}

/// A register above 3 is none under any header; a code needs a header to be judged by.
fn not_allowed(header: &[u8], number: u32, code: u16) -> bool {
    let known: Option<&[u8; 6]> = header.try_into().ok();
    number > 3 || known.and_then(|six| read_header(six).ok()).is_some_and(|header| !allowed(&header, number, code))
}
