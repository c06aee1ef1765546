//! Mode ranks: the five bytes of the lent table at 5*(6l+u), none on a refusal.
use super::*;

pub fn ranks<'a>(
    (w, h): (usize, usize),
    words: &[u32],
    modes: &[u8],
    table: &'a [u8],
    (sx, sy): (usize, usize),
) -> (u32, &'a [u8]) {
    if !size_ok(w, h) {
        return (SIZE, &[]);
    }
    let count = (w / 4) * (h / 4);
    if words.len() != count || modes.len() != count || table.len() != 180 {
        return (LENGTH, &[]);
    }
    if sx >= w / 4 || sy >= h / 4 {
        return (PLACE, &[]);
    }
    let units = Units::new(w, h, words);
    let (x, y) = (sx as i64, sy as i64);
    match (index(units, modes, x - 1, y), index(units, modes, x, y - 1)) {
        (Some(l), Some(u)) => (DONE, &table[5 * (6 * l + u)..][..5]),
        _ => (MODE, &[]),
    }
}

/// Mode + 1 of a unit that exists, is intra and done; 0 for no mode and for other units; None for a bad byte.
fn index(units: Units, modes: &[u8], x: i64, y: i64) -> Option<usize> {
    if !(units.done(x, y) && units.intra(x, y)) {
        return Some(0);
    }
    match modes[(y * units.wide + x) as usize] {
        mode @ 0..=4 => Some(mode as usize + 1),
        255 => Some(0),
        _ => None,
    }
}
