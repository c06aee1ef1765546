//! A split map by its digits: one bit for each block of 8 or more that the walk meets, the high bit of each byte first, from a byte on.
use super::*;

fn splits_len(w: usize, h: usize) -> usize {
    1024 * w.div_ceil(64) * h.div_ceil(64)
}

/// Where the byte of a block stands in the map.
pub fn place(w: usize, x: usize, y: usize, side: usize) -> usize {
    let root = (y / 64) * w.div_ceil(64) + x / 64;
    let level = 6 - side.ilog2() as usize;
    1024 * root + 256 * level + 16 * ((y % 64 + side / 2) / 4) + (x % 64 + side / 2) / 4
}

/// The number, and the position afterwards; the map goes to `buf`.
pub fn put_map((w, h): (usize, usize), splits: &[u8], buf: &mut [u8], at: usize) -> (u32, usize) {
    if !size_ok(w, h) {
        return (SIZE, at);
    }
    if splits.len() != splits_len(w, h) {
        return (LENGTH, at);
    }
    let mut digits = Vec::new();
    let by = walk::cut_by(splits, w);
    let walked = walk::leaves(w, h, |x, y, side| {
        let cut = by(x, y, side)?;
        digits.push(cut);
        Ok(cut)
    });
    if let Err(number) = walked {
        return (number, at);
    }
    let start = at.div_ceil(8);
    let own = digits.len().div_ceil(8);
    if start > buf.len() || own > buf.len() - start {
        return (BITS, at);
    }
    for (byte, bits) in buf[start..].iter_mut().zip(digits.chunks(8)) {
        *byte = bits.iter().enumerate().map(|(i, &bit)| (bit as u8) << (7 - i)).sum();
    }
    (DONE, 8 * (start + own))
}

/// The number, and the position afterwards; the map is read from `src`.
pub fn get_map((w, h): (usize, usize), src: &[u8], at: usize, map: &mut [u8]) -> (u32, usize) {
    if !size_ok(w, h) {
        return (SIZE, at);
    }
    if map.len() != splits_len(w, h) {
        return (LENGTH, at);
    }
    let start = at.div_ceil(8);
    let bytes = src.get(start..).unwrap_or(&[]);
    let mut bits = bytes.iter().flat_map(|byte| (0..8).map(move |i| byte >> (7 - i) & 1 == 1));
    let mut read = vec![0; map.len()];
    let mut count = 0;
    let walked = walk::leaves(w, h, |x, y, side| {
        let cut = bits.next().ok_or(BITS)?;
        count += 1;
        read[place(w, x, y, side)] = cut as u8;
        Ok(cut)
    });
    if let Err(number) = walked {
        return (number, at);
    }
    if bits.take((8 - count % 8) % 8).any(|bit| bit) {
        return (BITS, at);
    }
    map.copy_from_slice(&read);
    (DONE, 8 * (start + count.div_ceil(8)))
}
