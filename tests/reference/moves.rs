//! The moves of a recording between the editions.

use crate::edition::{Edition, Edition::*, Wide};
use crate::header::read_header_of;
use crate::recording::{section_refusal, Record};

const HEADER: usize = 6;

/// What a recording of this edition is moved to, and how long it is then.
fn moved(from: Edition, recording: &[u8]) -> Vec<u8> {
    let (header, section) = recording.split_at(HEADER);
    let to = if from == One { Two } else { One };
    let mut bytes = vec![to.number() << 4 | header[0] & 15];
    bytes.extend(&header[1..]);
    for record in from.records(section) {
        match from {
            One => bytes.extend(Wide::of(&Record::read(record)).write()),
            Two => bytes.extend(Wide::read(record).seen_by(0).write()),
        }
    }
    bytes
}

/// Some record has another RESET, second CS or ODT than a record of edition 1 gets.
pub fn stays(section: &[u8]) -> bool {
    Two.records(section).any(|eight| !Wide::read(eight).can_go_back())
}

/// From edition 1 to 2, or back: refusals 1, 2, 3, 4, 5, 7, 6, 14, 13, 9 in this order.
pub fn shifted(from: Edition, recording: &[u8], lent: usize) -> Result<Vec<u8>, u32> {
    if recording.len() < HEADER {
        return Err(1);
    }
    let (header, section) = recording.split_at(HEADER);
    read_header_of(&[from], header.try_into().unwrap())?;
    if let Some(refusal) = section_refusal(from, section, 0) {
        return Err(refusal);
    }
    if from == Two && stays(section) {
        return Err(13);
    }
    let bytes = moved(from, recording);
    if lent < bytes.len() {
        return Err(9);
    }
    Ok(bytes)
}
