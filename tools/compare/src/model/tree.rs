//! The split tree's calls: the walk's verdict, a root's leaves, a unit's visiting rank, both lists of edges.
use super::*;

fn splits_ok(w: usize, h: usize, splits: &[u8]) -> bool {
    splits.len() == 1024 * w.div_ceil(64) * h.div_ceil(64)
}

pub fn check(w: usize, h: usize, splits: &[u8]) -> u32 {
    if !size_ok(w, h) {
        return SIZE;
    }
    if !splits_ok(w, h, splits) {
        return LENGTH;
    }
    walk::leaves(w, h, walk::cut_by(splits, w)).map_or_else(|number| number, |_| DONE)
}

/// The number and how many leaves; x, y and side of each are written first into a list of 768.
pub fn leaves(w: usize, h: usize, splits: &[u8], (x, y): (usize, usize), out: &mut [u16]) -> (u32, usize) {
    if !size_ok(w, h) {
        return (SIZE, 0);
    }
    if !splits_ok(w, h, splits) || out.len() != 768 {
        return (LENGTH, 0);
    }
    if x % 64 != 0 || y % 64 != 0 || x >= w || y >= h {
        return (PLACE, 0);
    }
    match walk::root(w, h, (x, y), walk::cut_by(splits, w)) {
        Err(number) => (number, 0),
        Ok(met) => {
            let numbers = met.iter().flat_map(|leaf| [leaf.x, leaf.y, leaf.wide]);
            out.iter_mut().zip(numbers).for_each(|(place, number)| *place = number as u16);
            (DONE, met.len())
        }
    }
}

/// Row and column bits interleaved, the row's bit the higher.
pub fn rank(x: usize, y: usize) -> (u32, usize) {
    if x >= 16 || y >= 16 {
        return (PLACE, 0);
    }
    (DONE, (0..4).map(|bit| (x >> bit & 1) << (2 * bit) | (y >> bit & 1) << (2 * bit + 1)).sum())
}

/// The number and both counts; each list is written first into its buffer.
pub fn list_edges(
    (w, h): (usize, usize),
    splits: &[u8],
    limit: usize,
    vertical: &mut [u16],
    horizontal: &mut [u16],
) -> (u32, usize, usize) {
    if !size_ok(w, h) {
        return (SIZE, 0, 0);
    }
    let room = 2 * (w / 4) * (h / 4);
    if !splits_ok(w, h, splits) || vertical.len() != room || horizontal.len() != room {
        return (LENGTH, 0, 0);
    }
    if ![5, 6].contains(&limit) {
        return (SETTING, 0, 0);
    }
    match walk::leaves(w, h, walk::cut_by(splits, w)) {
        Err(number) => (number, 0, 0),
        Ok(leaves) => {
            let m = put(&walk::vertical(w, h, &leaves, limit), vertical);
            (DONE, m, put(&walk::horizontal(&leaves, limit), horizontal))
        }
    }
}

fn put(edges: &[(usize, usize)], out: &mut [u16]) -> usize {
    let numbers = edges.iter().flat_map(|&(x, y)| [x, y]);
    out.iter_mut().zip(numbers).for_each(|(place, number)| *place = number as u16);
    edges.len()
}
