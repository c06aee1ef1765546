//! The five modes.
use super::*;

pub fn predict(mode: usize, side: usize, run: &[u16], block: &mut [u16]) -> u32 {
    if !side_ok(side) {
        return PLACE;
    }
    if run.len() != 4 * side + 1 || block.len() != side * side {
        return LENGTH;
    }
    if mode > 4 {
        return MODE;
    }
    if !samples_ok(run) {
        return SAMPLE;
    }
    for (place, sample) in block.iter_mut().enumerate() {
        *sample = predicted(mode, side, run, place / side, place % side);
    }
    DONE
}

/// The sample of row i and column j.
fn predicted(mode: usize, side: usize, run: &[u16], i: usize, j: usize) -> u16 {
    let left = |k: usize| run[k];
    let corner = run[2 * side];
    let up = |k: usize| run[2 * side + 1 + k];
    match mode {
        0 => {
            let sum: usize = (0..side).map(|k| left(k) as usize + up(k) as usize).sum();
            ((sum + side) >> (side.ilog2() + 1)) as u16
        }
        1 => left(i),
        2 => up(j),
        3 if i > j => left(i - j - 1),
        3 if i == j => corner,
        3 => up(j - i - 1),
        _ => (up(i + j + 1) + left(i + j + 1)) >> 1,
    }
}
