//! The smallest recording found on which two judges still disagree.

use crate::edition::{step, Edition};

/// More tries than this, or with more bytes in all, are not worth the wait.
const MOST_TRIES: usize = 4000;
const MOST_BYTES: usize = 2_000_000_000;

const HEADER: usize = 6;

/// Drops pieces of the records, halves first and single ones last, as long as `differs` holds of what is left. A piece is
/// dropped with its steps, or its steps are added to the record behind it.
pub fn shrink(edition: Edition, recording: Vec<u8>, differs: &mut dyn FnMut(&[u8]) -> bool) -> Vec<u8> {
    let mut smallest = recording;
    let (mut tries, mut bytes) = (0, 0);
    let mut size = (smallest.len() / edition.size() / 2).max(1);
    while smallest.len() >= HEADER + edition.size() && tries < MOST_TRIES && bytes < MOST_BYTES {
        let mut number = 0;
        let mut dropped = false;
        while HEADER + edition.size() * (number + size) <= smallest.len() && tries < MOST_TRIES && bytes < MOST_BYTES {
            let start = HEADER + edition.size() * number;
            let piece = start..start + edition.size() * size;
            let without = [dropped_with_steps(&smallest, &piece), dropped_without_steps(edition, &smallest, &piece)];
            tries += 2;
            bytes += 2 * smallest.len();
            match without.into_iter().flatten().find(|left| differs(left)) {
                Some(left) => (smallest, dropped) = (left, true),
                None => number += size,
            }
        }
        if size == 1 && !dropped {
            break;
        }
        size = (size / 2).max(1);
    }
    smallest
}

type Piece = std::ops::Range<usize>;

fn dropped_with_steps(recording: &[u8], piece: &Piece) -> Option<Vec<u8>> {
    Some([&recording[..piece.start], &recording[piece.end..]].concat())
}

fn dropped_without_steps(edition: Edition, recording: &[u8], piece: &Piece) -> Option<Vec<u8>> {
    let next = recording.get(piece.end..piece.end + edition.size())?;
    let steps = edition.last_edge(&recording[piece.clone()]) + step(next);
    let bytes = &(steps as u32).to_be_bytes()[1..];
    (steps < 1 << 24).then(|| [&recording[..piece.start], bytes, &recording[piece.end + 3..]].concat())
}
