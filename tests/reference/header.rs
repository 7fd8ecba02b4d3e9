//! The six header bytes, refusals 1 to 4, and the clock counts of a header.

use crate::edition::Edition;

#[derive(Clone, Copy, Debug)]
pub struct Header {
    pub bin: usize,
    pub density: u8,
    pub width: u8,
    pub hot: bool,
    pub period: i64,
}

pub struct Bin {
    pub least_period: i64,
    pub t_rcd_rp: i64,
    pub t_rc: i64,
    pub t_ras: i64,
    pub t_rrd: [i64; 2],
    pub t_faw: [i64; 2],
    pub t_cke: i64,
}

/// Picoseconds. Pairs are the 1K page and the 2K page.
#[rustfmt::skip]
const BINS: [Bin; 4] = [
    Bin { least_period: 1875, t_rcd_rp: 13125, t_rc: 50625, t_ras: 37500, t_rrd: [7500, 10000], t_faw: [37500, 50000], t_cke: 5625 },
    Bin { least_period: 1500, t_rcd_rp: 13125, t_rc: 49500, t_ras: 36000, t_rrd: [6000, 7500], t_faw: [30000, 45000], t_cke: 5625 },
    Bin { least_period: 1250, t_rcd_rp: 13125, t_rc: 48750, t_ras: 35000, t_rrd: [6000, 7500], t_faw: [30000, 40000], t_cke: 5000 },
    Bin { least_period: 1070, t_rcd_rp: 12840, t_rc: 47080, t_ras: 34240, t_rrd: [5000, 6000], t_faw: [27000, 35000], t_cke: 5000 },
];

pub const GREATEST_PERIOD: i64 = 3300;

pub fn least_period(bin: usize) -> i64 {
    BINS[bin].least_period
}

/// The header in the first six bytes, of one of these editions, or the first of refusals 2, 3, 4 that holds.
pub fn read_header_of(editions: &[Edition], bytes: &[u8; 6]) -> Result<Header, u32> {
    let all = bytes.iter().fold(0u64, |number, byte| number << 8 | *byte as u64);
    let field = |lowest: u32, bits: u32| all >> lowest & ((1 << bits) - 1);
    if !editions.iter().any(|edition| edition.number() as u64 == field(44, 4)) {
        return Err(2);
    }
    if field(36, 3) != 0 || field(0, 24) != 0 {
        return Err(3);
    }
    let header = Header {
        bin: field(42, 2) as usize,
        density: field(41, 1) as u8,
        width: field(40, 1) as u8,
        hot: field(39, 1) == 1,
        period: field(24, 12) as i64,
    };
    if header.period < least_period(header.bin) || header.period > GREATEST_PERIOD {
        return Err(4);
    }
    Ok(header)
}

/// One of edition 1.
pub fn read_header(bytes: &[u8; 6]) -> Result<Header, u32> {
    read_header_of(&[Edition::One], bytes)
}

/// A least time becomes T / period rounded up, a greatest time is rounded down.
impl Header {
    fn least(&self, picoseconds: i64) -> i64 {
        (picoseconds + self.period - 1) / self.period
    }

    fn greatest(&self, picoseconds: i64) -> i64 {
        picoseconds / self.period
    }

    pub fn times(&self) -> &'static Bin {
        &BINS[self.bin]
    }

    /// x8 has the 1K page, x16 the 2K page.
    fn page(&self) -> usize {
        self.width as usize
    }

    pub fn t_rcd(&self) -> i64 {
        self.least(self.times().t_rcd_rp)
    }

    pub fn t_rp(&self) -> i64 {
        self.least(self.times().t_rcd_rp)
    }

    pub fn t_rc(&self) -> i64 {
        self.least(self.times().t_rc)
    }

    pub fn t_ras(&self) -> i64 {
        self.least(self.times().t_ras)
    }

    pub fn t_rrd(&self) -> i64 {
        self.least(self.times().t_rrd[self.page()]).max(4)
    }

    pub fn t_faw(&self) -> i64 {
        self.least(self.times().t_faw[self.page()])
    }

    pub fn t_cke(&self) -> i64 {
        self.least(self.times().t_cke).max(3)
    }

    pub fn t_rtp(&self) -> i64 {
        self.least(7500).max(4)
    }

    pub fn t_wtr(&self) -> i64 {
        self.least(7500).max(4)
    }

    pub fn t_wr(&self) -> i64 {
        self.least(15000)
    }

    pub fn t_mod(&self) -> i64 {
        self.least(15000).max(12)
    }

    pub fn refresh_time(&self) -> i64 {
        if self.density == 0 {
            110_000
        } else {
            160_000
        }
    }

    pub fn t_rfc(&self) -> i64 {
        self.least(self.refresh_time())
    }

    pub fn t_xs(&self) -> i64 {
        self.least(self.refresh_time() + 10_000).max(5)
    }

    pub fn zq_long(&self) -> i64 {
        self.least(320_000).max(256)
    }

    pub fn zq_short(&self) -> i64 {
        self.least(80_000).max(64)
    }

    pub fn exit_time(&self) -> i64 {
        if self.bin == 0 {
            7500
        } else {
            6000
        }
    }

    pub fn t_xp(&self) -> i64 {
        self.least(self.exit_time()).max(3)
    }

    pub fn t_xpdll(&self) -> i64 {
        self.least(24_000).max(10)
    }

    /// Nine times tREFI's clocks.
    pub fn greatest_stay(&self) -> i64 {
        9 * self.t_refi()
    }

    /// Nine times tREFI's clocks too.
    pub fn greatest_gap(&self) -> i64 {
        9 * self.t_refi()
    }

    pub fn greatest_t_ras(&self) -> i64 {
        self.greatest(if self.hot { 35_100_000 } else { 70_000_000 })
    }

    pub fn t_refi(&self) -> i64 {
        self.greatest(if self.hot { 3_900_000 } else { 7_800_000 })
    }
}

pub const T_MRD: i64 = 4;
