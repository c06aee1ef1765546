//! Availability: the eight named answers, intra and inter.
//! The names, in order: up, left, right, up_left, up_right, low_left, low_right, right_up.
use super::*;

pub fn avail(inter: bool, w: usize, h: usize, words: &[u32], x: usize, y: usize, side: usize) -> (u32, [bool; 8]) {
    if !size_ok(w, h) {
        return (SIZE, [false; 8]);
    }
    if words.len() != (w / 4) * (h / 4) {
        return (LENGTH, [false; 8]);
    }
    if !block_ok(w, h, x, y, side) {
        return (PLACE, [false; 8]);
    }
    let units = Units::new(w, h, words);
    let (x, y, n) = (x as i64 / 4, y as i64 / 4, side as i64 / 4);
    (DONE, if inter { for_inter(units, x, y, n) } else { for_intra(units, x, y, n) })
}

/// A low corner is the last unit of an arm twice the side long, and asked only where that side is available.
fn for_intra(units: Units, x: i64, y: i64, n: i64) -> [bool; 8] {
    let above = y > 0;
    let left = units.done(x - 1, y);
    let right = units.done(x + n, y);
    [
        above,
        left,
        right,
        above && units.done(x - 1, y - 1),
        above && units.done(x + n, y - 1),
        left && units.done(x - 1, y + 2 * n - 1),
        right && units.done(x + n, y + 2 * n - 1),
        above,
    ]
}

/// Done and not intra, but up and right_up ask only for not intra.
fn for_inter(units: Units, x: i64, y: i64, n: i64) -> [bool; 8] {
    let usable = |x, y| units.done(x, y) && units.not_intra(x, y);
    let left = usable(x - 1, y);
    let right = usable(x + n, y);
    [
        units.not_intra(x, y - 1),
        left,
        right,
        usable(x - 1, y - 1),
        usable(x + n, y - 1),
        left && usable(x - 1, y + n),
        right && usable(x + n, y + n),
        units.not_intra(x + n - 1, y - 1),
    ]
}
