//! Gathering: left downwards, the corner, up rightwards, each sample by the unit it lies in.
use super::*;

pub fn gather(
    chroma: bool,
    (w, h): (usize, usize),
    plane: &[u16],
    words: &[u32],
    (x, y, side): (usize, usize, usize),
    constrained: bool,
    run: &mut [u16],
) -> u32 {
    if !size_ok(w, h) {
        return SIZE;
    }
    if plane.len() != plane_len(chroma, w, h) || words.len() != (w / 4) * (h / 4) {
        return LENGTH;
    }
    if !block_ok(w, h, x, y, side) {
        return PLACE;
    }
    let step = if chroma { 2 } else { 1 };
    let side = side / step;
    if run.len() != 4 * side + 1 {
        return LENGTH;
    }
    let units = Units::new(w, h, words);
    let (x, y, unit) = ((x / step) as i64, (y / step) as i64, (4 / step) as i64);
    let present = |(px, py): (i64, i64)| {
        let (ux, uy) = (px.div_euclid(unit), py.div_euclid(unit));
        units.done(ux, uy) && (!constrained || units.intra(ux, uy))
    };
    let value = |p: (i64, i64)| if present(p) { plane[(p.1 as usize) * (w / step) + p.0 as usize] } else { 512 };
    let gathered: Vec<u16> = places(x, y, side as i64).map(value).collect();
    if !samples_ok(&gathered) {
        return SAMPLE;
    }
    run.copy_from_slice(&gathered);
    DONE
}

/// Where the run's samples lie.
fn places(x: i64, y: i64, side: i64) -> impl Iterator<Item = (i64, i64)> {
    let left = (0..2 * side).map(move |i| (x - 1, y + i));
    let up = (0..2 * side).map(move |i| (x + i, y - 1));
    left.chain([(x - 1, y - 1)]).chain(up)
}
