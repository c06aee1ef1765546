//! What many recordings draw: unit words, samples, sizes and places.
use crate::rng::Rng;

/// The sides of a luma block.
pub const SIDES: [usize; 5] = [4, 8, 16, 32, 64];
/// Sizes that are refused, and a number that 32 bits would cut to an accepted one.
pub const BAD_SIZES: [usize; 8] = [0, 1, 3, 6, 18, 4098, 4100, (1 << 32) + 16];
/// Sides that no luma block has.
pub const BAD_SIDES: [usize; 9] = [0, 1, 2, 3, 5, 12, 63, 128, (1 << 32) + 4];

/// A unit word: done and intra once in a while or mostly, the other bits anything.
pub fn word(rng: &mut Rng, done_of_8: usize, intra_of_8: usize) -> u32 {
    let other = rng.next() as u32 & !(1 << 31 | 1 << 15);
    let done = (rng.below(8) < done_of_8) as u32;
    let intra = (rng.below(8) < intra_of_8) as u32;
    other | done << 31 | intra << 15
}

/// The unit words of a picture: none, few, most or all of them done, and the same for intra.
pub fn words(rng: &mut Rng, w: usize, h: usize) -> Vec<u32> {
    let (done, intra) = (rng.pick(&[0, 2, 6, 7, 8, 8]), rng.pick(&[0, 2, 4, 6, 8]));
    (0..(w / 4) * (h / 4)).map(|_| word(rng, done, intra)).collect()
}

/// Samples of 0..1023, in one of several ranges.
pub fn samples(rng: &mut Rng, count: usize) -> Vec<u16> {
    let (low, high) = rng.pick(&[(0, 1023), (0, 1023), (0, 3), (500, 520), (1020, 1023)]);
    (0..count).map(|_| rng.range(low, high) as u16).collect()
}

/// What a buffer holds before a call.
pub fn stale(rng: &mut Rng, count: usize) -> Vec<u16> {
    let high = if count > 1000 { 9 } else { 65535 };
    (0..count).map(|_| rng.range(0, high) as u16).collect()
}

/// A multiple of 4 of 4..=most.
pub fn size(rng: &mut Rng, most: usize) -> usize {
    4 * (1 + rng.below(most / 4))
}

/// A block's place inside a picture that it fits.
pub fn place(rng: &mut Rng, w: usize, h: usize, side: usize) -> (usize, usize) {
    (side * rng.below(w / side), side * rng.below(h / side))
}

/// A side that fits the picture.
pub fn side(rng: &mut Rng, w: usize, h: usize) -> usize {
    let fitting: Vec<usize> = SIDES.iter().copied().filter(|&side| side <= w.min(h)).collect();
    rng.pick(&fitting)
}

/// Places near a block of this side, in a picture w by h, that are refused: off the multiples or outside.
pub fn bad_places(w: usize, h: usize, side: usize) -> Vec<(usize, usize)> {
    let (past_x, past_y) = (w / side * side, h / side * side);
    vec![(1, 0), (0, 1), (side / 2, 0), (0, side / 2), (past_x, 0), (0, past_y), (1 << 32, 0), (0, 1 << 32)]
}

/// The same slice one element shorter, one longer, and empty.
pub fn wrong_lengths<T: Copy>(good: &[T]) -> Vec<Vec<T>> {
    let longer = good.iter().copied().chain([good[0]]).collect();
    vec![good[..good.len() - 1].to_vec(), longer, vec![]]
}

// ---- damage, for inputs outside the domain

/// A number of a size, a place or a side, moved or replaced.
pub fn spoil(rng: &mut Rng, number: &mut usize) {
    *number = match rng.below(6) {
        0 => number.wrapping_add(1),
        1 => number.saturating_sub(1),
        2 => number.wrapping_add(4),
        3 => rng.pick(&[0, 1, 2, 3, 4, 5, 6, 8, 12, 16, 32, 63, 64, 65, 128, 4096, 4097, 4098, 4100]),
        4 => *number + (1 << 32),
        _ => rng.below(300),
    };
}

/// A slice with another length, or, once in a while, with its own.
pub fn stretch<T: Copy + Default>(rng: &mut Rng, values: &mut Vec<T>) {
    let n = match rng.below(5) {
        0 => values.len() + 1,
        1 => values.len().saturating_sub(1),
        2 => 0,
        3 => 2 * values.len(),
        _ => rng.below(300),
    };
    values.resize(n, T::default());
}

/// A sample over 1023, or at the bound.
pub fn overdo(rng: &mut Rng, samples: &mut [u16]) {
    if !samples.is_empty() {
        let at = rng.below(samples.len());
        samples[at] = rng.pick(&[1023, 1024, 1025, 2047, 32768, 65535]);
    }
}
