//! Burst order: refusals 10 and 9 in this order, or a byte a word.

pub fn burst_order(length: u32, start: u32, kind: u32, direction: u32, lent: usize) -> Result<Vec<u8>, u32> {
    if (length != 4 && length != 8) || start > 7 {
        return Err(10);
    }
    if lent < length as usize {
        return Err(9);
    }
    let (sequential, read) = (kind == 0, direction == 0);
    let word = |i: u32| match (read, sequential) {
        (true, true) => 4 * ((start >> 2 & 1) ^ (i >> 2 & 1)) + (start + i) % 4,
        (true, false) => start ^ i,
        (false, _) => start - start % length + i,
    };
    Ok((0..length).map(|i| word(i) as u8).collect())
}
