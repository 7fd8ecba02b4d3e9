//! The two editions of a recording: how many bytes a record has, and what each rank sees of a record of edition 2.

use crate::recording::Record;

#[derive(Clone, Copy, Debug, PartialEq, Eq)]
pub enum Edition {
    One,
    Two,
}

use Edition::*;

pub const BOTH: [Edition; 2] = [One, Two];

impl Edition {
    pub fn number(self) -> u8 {
        match self {
            One => 1,
            Two => 2,
        }
    }

    /// Bytes of a record.
    pub fn size(self) -> usize {
        match self {
            One => 6,
            Two => 8,
        }
    }

    pub fn ranks(self) -> usize {
        match self {
            One => 1,
            Two => 2,
        }
    }

    /// Whole records of a section, each in its bytes.
    pub fn records(self, section: &[u8]) -> std::slice::ChunksExact<'_, u8> {
        section.chunks_exact(self.size())
    }

    pub fn last_edge(self, section: &[u8]) -> i64 {
        self.records(section).map(step).sum()
    }

    /// Some record's bits that must be 0 are not; a record of edition 1 has none.
    pub fn has_zero_bits_set(self, section: &[u8]) -> bool {
        self == Two && self.records(section).any(|eight| Wide::read(eight).zeros != 0)
    }

    /// The section as this rank sees it, in records of edition 1.
    pub fn seen_by(self, section: &[u8], rank: usize) -> Vec<u8> {
        match self {
            One => section.to_vec(),
            Two => self.records(section).flat_map(|eight| Wide::read(eight).seen_by(rank).write()).collect(),
        }
    }
}

/// The edition that the first four bits name, if it is one.
pub fn named_by(recording: &[u8]) -> Option<Edition> {
    let first = recording.first()?;
    BOTH.into_iter().find(|edition| edition.number() == first >> 4)
}

/// How many bytes judging writes: 40 when the first four bits are 2, else 20.
pub fn room(recording: &[u8]) -> usize {
    20 * named_by(recording).map_or(1, Edition::ranks)
}

/// The first three bytes of a record of either edition.
pub fn step(record: &[u8]) -> i64 {
    record[..3].iter().fold(0, |step, byte| step << 8 | *byte as i64)
}

/// Eight bytes: step 24, RESET, CKE, CS of the first rank, CS of the second, ODT, RAS, CAS, WE 1 each, BA 3, A15..A0 16,
/// zero 13.
#[derive(Clone, Copy, Debug)]
pub struct Wide {
    pub step: i64,
    pub reset: bool,
    pub cke: bool,
    pub cs: [bool; 2],
    pub odt: bool,
    /// RAS CAS WE.
    pub command: u8,
    pub ba: u8,
    pub a: u16,
    pub zeros: u16,
}

impl Wide {
    pub fn read(eight: &[u8]) -> Wide {
        let all = u64::from_be_bytes(eight.try_into().unwrap());
        let bit = |place: u32| all >> place & 1 == 1;
        Wide {
            step: (all >> 40) as i64,
            reset: bit(39),
            cke: bit(38),
            cs: [bit(37), bit(36)],
            odt: bit(35),
            command: (all >> 32 & 0b111) as u8,
            ba: (all >> 29 & 0b111) as u8,
            a: (all >> 13) as u16,
            zeros: (all & 0x1FFF) as u16,
        }
    }

    pub fn write(&self) -> [u8; 8] {
        let bits = [(39, self.reset), (38, self.cke), (37, self.cs[0]), (36, self.cs[1]), (35, self.odt)];
        let levels = bits.iter().fold(0, |all, (place, level)| all | (*level as u64) << place);
        let all = (self.step as u64) << 40
            | levels
            | (self.command as u64) << 32
            | (self.ba as u64) << 29
            | (self.a as u64) << 13
            | self.zeros as u64;
        all.to_be_bytes()
    }

    /// Its own CS, and what the ranks share. RESET and ODT are not judged.
    pub fn seen_by(&self, rank: usize) -> Record {
        let pins = (self.cs[rank] as u8) << 3 | self.command;
        Record { step: self.step, cke: self.cke, pins, ba: self.ba, a: self.a }
    }

    /// Old to new: RESET 1, the second CS 1, ODT 0, zeros.
    pub fn of(record: &Record) -> Wide {
        Wide {
            step: record.step,
            reset: true,
            cke: record.cke,
            cs: [record.pins >> 3 == 1, true],
            odt: false,
            command: record.pins & 0b111,
            ba: record.ba,
            a: record.a,
            zeros: 0,
        }
    }

    /// RESET 1, the second CS 1, ODT 0.
    pub fn can_go_back(&self) -> bool {
        self.reset && self.cs[1] && !self.odt
    }
}
