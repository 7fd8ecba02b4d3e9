//! The calls that are compared: judging a generated recording, register reading, burst order.

use crate::calls::{Call, Function};
use crate::damage::{make_fault, set_edition, Case};
use crate::edition::Edition::One;
use crate::generate::{case, wide_case};
use crate::moving::move_call;
use crate::random::Random;
use crate::registers::allowed;
use crate::settings::{allowed_code, header_bytes, random_header};

fn source(seed: u64, index: u64, function: Function) -> Random {
    let mixed = Random::new(seed ^ (1 + function as u64) << 56).next();
    Random::new(Random::new(mixed ^ index.wrapping_mul(0xD134_2543_DE82_EF95)).next())
}

fn judge_call(function: Function, case: Case) -> Call {
    Call { function, data: case.recording, numbers: [case.end, 0, 0, 0], lent: case.lent }
}

pub fn call(function: Function, seed: u64, index: u64, small: bool) -> Call {
    let mut random = source(seed, index, function);
    match function {
        Function::Judge => judge_call(function, case(seed, index, small)),
        Function::Ranks => judge_call(function, wide_case(seed, index, small)),
        Function::Widen | Function::Narrow => move_call(&mut random, function, index, small),
        Function::Register => register_call(&mut random),
        Function::Burst => burst_call(&mut random),
    }
}

/// In an order in which making a fault leaves those before it.
const FAULTS: [u32; 6] = [2, 3, 4, 11, 9, 1];

/// A code that is allowed, nearly allowed or any; in half of the calls up to three faults.
fn register_call(random: &mut Random) -> Call {
    let header = random_header(random);
    let mut number = random.below(4) as u32;
    let mut code = allowed_code(random, &header, number as u8);
    match random.below(8) {
        0 | 1 => code ^= 1 << random.below(16),
        2 => code = random.next() as u16,
        3 => code = allowed_code(random, &random_header(&mut Random::new(code as u64)), number as u8),
        _ => {}
    }
    let count = random.pick(&[0, 0, 0, 1, 2, 2, 3]);
    let wanted: Vec<u32> = (0..count).map(|_| random.pick(&FAULTS)).collect();
    let lent = random.pick(&[6, 6, 7, 8, 20]);
    let mut case = Case { edition: One, recording: header_bytes(&header).to_vec(), end: 0, lent };
    for fault in FAULTS.iter().filter(|fault| wanted.contains(fault)) {
        match fault {
            11 if random.chance(50) => number = random.pick(&[4, 5, 7, 255, 256, 65536, u32::MAX]),
            11 if number == 3 || allowed(&header, number, code) => code |= 0x8000,
            11 => {}
            2 => set_edition(random, &mut case, &[0, 2, 2, 3, 5, 9, 15]),
            9 => case.lent = random.below(6) as usize,
            1 => case.recording.resize(random.pick(&[0, 1, 2, 3, 4, 5, 7, 8, 12]), 0),
            _ => make_fault(random, &mut case, *fault),
        }
    }
    let numbers = [number as u64, code as u64, 0, 0];
    Call { function: Function::Register, data: case.recording, numbers, lent: case.lent }
}

/// Good ones, and each number now and then one that is not.
fn burst_call(random: &mut Random) -> Call {
    let any = random.next() & 0xFFFF_FFFF;
    let length = random.pick(&[4, 8, 4, 8, 4, 8, 4, 8, 4, 8, 0, 5, 12, any]);
    let start = if random.chance(90) { random.below(8) } else { random.pick(&[8, 9, 255, 256, any | 8]) };
    let either = [0, 0, 1, 1, 2, 256, any | 1];
    let (kind, direction) = (random.pick(&either), random.pick(&either));
    let lent = random.pick(&[length.min(60), length.min(60), 8, 9, 20, 7, 4, 3, 0]) as usize;
    Call { function: Function::Burst, data: vec![], numbers: [length, start, kind, direction], lent }
}
