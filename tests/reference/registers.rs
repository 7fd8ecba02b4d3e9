//! Mode registers: which codes are allowed, what they mean, and register reading.

use crate::header::{read_header, Header};

/// The fields A_high..A_low of a code.
fn field(code: u16, high: u32, low: u32) -> u16 {
    code >> low & ((1u32 << (high - low + 1)) - 1) as u16
}

fn bit(code: u16, place: u32) -> u16 {
    field(code, place, place)
}

/// CL at A6A5A4A2, by the table alone.
fn cl_of_code(code: u16) -> Option<i64> {
    match field(code, 6, 4) << 1 | bit(code, 2) {
        0b0010 => Some(5),
        0b0100 => Some(6),
        0b0110 => Some(7),
        0b1000 => Some(8),
        0b1010 => Some(9),
        0b1100 => Some(10),
        0b1110 => Some(11),
        0b0001 => Some(12),
        _ => None,
    }
}

fn cl_allowed(header: &Header, cl: i64) -> bool {
    let (period, bin) = (header.period, header.bin);
    match cl {
        5 => (3000..=3300).contains(&period) && bin != 3,
        6 => (2500..=3300).contains(&period),
        7 | 8 => (1875..2500).contains(&period),
        9 | 10 => (1500..1875).contains(&period) && bin != 0,
        11 => (1250..1500).contains(&period) && (bin == 2 || bin == 3),
        12 => (1070..1250).contains(&period) && bin == 3,
        _ => false,
    }
}

/// WR at A11A10A9.
fn wr_of_code(code: u16) -> i64 {
    [16, 5, 6, 7, 8, 10, 12, 14][field(code, 11, 9) as usize]
}

fn cwl_of_code(code: u16) -> i64 {
    field(code, 5, 3) as i64 + 5
}

fn cwl_of_period(period: i64) -> i64 {
    match period {
        2500.. => 5,
        1875.. => 6,
        1500.. => 7,
        1250.. => 8,
        _ => 9,
    }
}

/// A field that not every code fits: its address bits, and whether this code fits it.
type Field = (Vec<u32>, bool);

/// "Each bit that must be 0 is its own field."
fn zeros(code: u16, places: &[u32]) -> Vec<Field> {
    places.iter().map(|place| (vec![*place], bit(code, *place) == 0)).collect()
}

fn mr0_fields(header: &Header, code: u16) -> Vec<Field> {
    let fields = vec![
        (vec![0, 1], field(code, 1, 0) != 0b11),
        (vec![2, 4, 5, 6], cl_of_code(code).is_some_and(|cl| cl_allowed(header, cl))),
        (vec![9, 10, 11], wr_of_code(code) >= header.t_wr()),
    ];
    [fields, zeros(code, &[7, 13, 14, 15])].concat()
}

fn mr1_fields(header: &Header, code: u16) -> Vec<Field> {
    let a9a6a2 = bit(code, 9) << 2 | bit(code, 6) << 1 | bit(code, 2);
    let fields = vec![
        (vec![3, 4], field(code, 4, 3) != 0b11),
        (vec![2, 6, 9], a9a6a2 < 0b110),
        (vec![11], bit(code, 11) == 0 || header.width == 0),
    ];
    [fields, zeros(code, &[0, 5, 7, 8, 10, 13, 14, 15])].concat()
}

fn mr2_fields(header: &Header, code: u16) -> Vec<Field> {
    let fields = vec![
        (vec![3, 4, 5], cwl_of_code(code) == cwl_of_period(header.period)),
        (vec![6, 7], field(code, 7, 6) != 0b11),
        (vec![9, 10], field(code, 10, 9) != 0b11),
    ];
    [fields, zeros(code, &[8, 11, 12, 13, 14, 15])].concat()
}

/// What is named where the register's number is above 3.
pub const NO_REGISTER: u32 = 16;

/// The lowest-numbered address bit belonging to a field that isn't allowed.
pub fn bad_bit(header: &Header, number: u32, code: u16) -> Option<u32> {
    let fields = match number {
        0 => mr0_fields(header, code),
        1 => mr1_fields(header, code),
        2 => mr2_fields(header, code),
        3 => zeros(code, &Vec::from_iter(0..16)),
        _ => return Some(NO_REGISTER),
    };
    fields.into_iter().filter(|(_, fits)| !fits).flat_map(|(bits, _)| bits).min()
}

/// By register: the bits that can be named.
pub const NAMED: [&[u32]; 4] = [
    &[0, 2, 7, 9, 13, 14, 15],
    &[0, 2, 3, 5, 7, 8, 10, 11, 13, 14, 15],
    &[3, 6, 8, 9, 11, 12, 13, 14, 15],
    &[0, 1, 2, 3, 4, 5, 6, 7, 8, 9, 10, 11, 12, 13, 14, 15],
];

/// How a register's bit, or a register that there is none of, is told.
pub fn bit_name(number: u32, bit: u32) -> String {
    if number > 3 {
        format!("no register, {bit}")
    } else {
        format!("MR{number}, bit {bit}")
    }
}

pub fn all_bit_names() -> impl Iterator<Item = String> {
    let bits = (0..4).flat_map(|number| NAMED[number].iter().map(move |bit| bit_name(number as u32, *bit)));
    bits.chain([bit_name(4, NO_REGISTER)])
}

/// "A register number above 3, or a code not allowed" is the opposite.
pub fn allowed(header: &Header, number: u32, code: u16) -> bool {
    bad_bit(header, number, code).is_none()
}

/// The registers in force: each unwritten or its last code.
/// Latencies of an unwritten register are 0; a clean recording never asks for one.
#[derive(Clone, Copy, Debug, PartialEq, Default)]
pub struct Registers(pub [Option<u16>; 4]);

impl Registers {
    fn code(&self, number: usize) -> u16 {
        self.0[number].unwrap_or(0)
    }

    pub fn cl(&self) -> i64 {
        self.0[0].and_then(cl_of_code).unwrap_or(0)
    }

    pub fn al(&self) -> i64 {
        match field(self.code(1), 4, 3) {
            0b01 => self.cl() - 1,
            0b10 => self.cl() - 2,
            _ => 0,
        }
    }

    pub fn cwl(&self) -> i64 {
        self.0[2].map_or(0, cwl_of_code)
    }

    pub fn programmed_wr(&self) -> i64 {
        self.0[0].map_or(0, wr_of_code)
    }

    pub fn rl(&self) -> i64 {
        self.al() + self.cl()
    }

    pub fn wl(&self) -> i64 {
        self.al() + self.cwl()
    }

    /// h is 4, but 2 when MR0 fixes four.
    pub fn h(&self) -> i64 {
        if field(self.code(0), 1, 0) == 0b10 {
            2
        } else {
            4
        }
    }

    /// A read's b is 4 for eight words, 2 for four; in mode "by A12", A12 = 0 chops to four.
    pub fn b(&self, a12: bool) -> i64 {
        match field(self.code(0), 1, 0) {
            0b10 => 2,
            0b01 if !a12 => 2,
            _ => 4,
        }
    }
}

/// A8 of MR0.
pub fn is_dll_reset(code: u16) -> bool {
    bit(code, 8) == 1
}

fn meaning(number: u32, code: u16) -> [u8; 6] {
    let a9a6a2 = bit(code, 9) << 2 | bit(code, 6) << 1 | bit(code, 2);
    let cl = cl_of_code(code).unwrap_or(0) as u16;
    let wr = wr_of_code(code) as u16;
    let cwl = cwl_of_code(code) as u16;
    let fields = match number {
        0 => [field(code, 1, 0), bit(code, 3), cl, bit(code, 8), wr, bit(code, 12)],
        1 => [field(code, 4, 3), bit(code, 1), a9a6a2, bit(code, 11), bit(code, 12), 0],
        2 => [cwl, bit(code, 6), bit(code, 7), field(code, 10, 9), field(code, 2, 0), 0],
        _ => [0; 6],
    };
    fields.map(|value| value as u8)
}

/// Register reading: refusals 9, 1, 2, 3, 4, 11 in this order, or six bytes; 11 comes with 256 times the bit.
pub fn register_reading(header: &[u8], number: u32, code: u16, lent: usize) -> Result<[u8; 6], u32> {
    if lent < 6 {
        return Err(9);
    }
    let six: &[u8; 6] = header.try_into().map_err(|_| 1u32)?;
    let header = read_header(six)?;
    match bad_bit(&header, number, code) {
        Some(bit) => Err(11 + 256 * bit),
        None => Ok(meaning(number, code)),
    }
}
