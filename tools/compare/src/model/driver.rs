//! The block driver: a picture from its leaves' records, residuals and lent predictions.
use super::walk::{self, Leaf};
use super::*;

/// All that the driver is lent to read.
#[derive(Clone, Copy)]
pub struct Given<'a> {
    pub w: usize,
    pub h: usize,
    /// Whether the picture has colour. A grey one has no U and V, and its leaves no mask bit and no residual of them.
    pub colour: bool,
    pub splits: &'a [u8],
    /// Four bytes a leaf: kind, QP, mask, keep.
    pub records: &'a [u8],
    pub residuals: &'a [i16],
    /// The lent predictions, Y, U, V.
    pub predictions: [&'a [u16]; 3],
    pub constrained: bool,
}

/// A leaf's record.
#[derive(Clone, Copy)]
pub struct Record {
    pub kind: u8,
    pub qp: u8,
    pub mask: u8,
    pub keep: u8,
}

/// What the driver tells of each unit.
pub struct Maps<'a> {
    pub words: &'a mut [u32],
    pub modes: &'a mut [u8],
    pub keep: &'a mut [u8],
}

pub fn reconstruct(given: &Given, mut planes: [&mut [u16]; 3], mut maps: Maps) -> u32 {
    let lengths = planes.each_ref().map(|plane| plane.len());
    let leaves = match check(given, lengths, [maps.words.len(), maps.modes.len(), maps.keep.len()]) {
        Ok(leaves) => leaves,
        Err(number) => return number,
    };
    maps.words.fill(0);
    let mut residuals = given.residuals;
    for (leaf, record) in leaves.iter().zip(records(given)) {
        for (i, plane) in planes.iter_mut().enumerate().take(if given.colour { 3 } else { 1 }) {
            let prediction = predicted(given, *leaf, record, i, plane, maps.words);
            let coded = record.mask >> i & 1 == 1;
            let (own, rest) = residuals.split_at(if coded { prediction.len() } else { 0 });
            residuals = rest;
            let own = if coded { own.to_vec() } else { vec![0; prediction.len()] };
            let (size, block) = ((given.w, given.h), (leaf.x, leaf.y, leaf.wide));
            assert_eq!(residual::plane(i > 0, size, block, coded, &prediction, &own, plane), DONE);
        }
        finish(given, *leaf, record, &mut maps);
    }
    DONE
}

/// The prediction of a leaf in component i: by its mode from what is done, or the lent one.
fn predicted(given: &Given, leaf: Leaf, record: Record, i: usize, plane: &[u16], words: &[u32]) -> Vec<u16> {
    let scale = if i > 0 { 2 } else { 1 };
    let (side, w) = (leaf.wide / scale, given.w / scale);
    let mut prediction = vec![0; side * side];
    if record.kind == 5 {
        let (x, y) = (leaf.x / scale, leaf.y / scale);
        let place = |k: usize| (y + k / side) * w + x + k % side;
        (0..side * side).for_each(|k| prediction[k] = given.predictions[i][place(k)]);
    } else {
        let mut run = vec![0; 4 * side + 1];
        let (size, block) = ((given.w, given.h), (leaf.x, leaf.y, leaf.wide));
        assert_eq!(gather::gather(i > 0, size, plane, words, block, given.constrained, &mut run), DONE);
        assert_eq!(predict::predict(record.kind as usize, side, &run, &mut prediction), DONE);
    }
    prediction
}

/// The checks in their order; the leaves of an accepted walk.
fn check(given: &Given, planes: [usize; 3], maps: [usize; 3]) -> Result<Vec<Leaf>, u32> {
    let (w, h) = (given.w, given.h);
    if !size_ok(w, h) {
        return Err(SIZE);
    }
    let (units, roots) = ((w / 4) * (h / 4), w.div_ceil(64) * h.div_ceil(64));
    let lent = given.predictions.iter().map(|plane| plane.len());
    let long = planes.into_iter().chain(lent).zip([false, true, true].into_iter().cycle());
    let chroma_len = if given.colour { plane_len(true, w, h) } else { 0 };
    let planes_ok =
        long.into_iter().all(|(n, chroma)| n == if chroma { chroma_len } else { plane_len(false, w, h) });
    if !planes_ok || maps != [units; 3] || given.splits.len() != 1024 * roots {
        return Err(LENGTH);
    }
    let leaves = walk::leaves(w, h, walk::cut_by(given.splits, w))?;
    let most = if given.colour { 7 } else { 1 };
    if given.records.len() != 4 * leaves.len()
        || !records(given).all(|record| record.mask <= most && record.keep <= 1)
    {
        return Err(RECORD);
    }
    if given.residuals.len() != leaves.iter().zip(records(given)).map(residual_len).sum::<usize>() {
        return Err(RECORD);
    }
    if !records(given).all(|record| record.kind <= 5) {
        return Err(MODE);
    }
    if !records(given).all(|record| record.qp <= 51) {
        return Err(QP);
    }
    if !given.predictions.iter().all(|plane| samples_ok(plane)) {
        return Err(SAMPLE);
    }
    Ok(leaves)
}

pub fn records<'a>(given: &'a Given) -> impl Iterator<Item = Record> + 'a {
    given.records.chunks_exact(4).map(|r| Record { kind: r[0], qp: r[1], mask: r[2], keep: r[3] })
}

/// How many residuals a leaf has: of its masked components alone.
pub fn residual_len((leaf, record): (&Leaf, Record)) -> usize {
    let whole = leaf.wide * leaf.wide;
    [whole, whole / 4, whole / 4]
        .iter()
        .enumerate()
        .filter(|(i, _)| record.mask >> i & 1 == 1)
        .map(|(_, n)| n)
        .sum()
}

/// The words, the modes and the keep bytes of a finished leaf's units.
pub fn finish(given: &Given, leaf: Leaf, record: Record, maps: &mut Maps) {
    let intra = (record.kind < 5) as u32;
    let word = 1 << 31 | (record.mask as u32 & 1) << 24 | (record.qp as u32) << 16 | intra << 15;
    for y in leaf.y / 4..(leaf.y + leaf.high) / 4 {
        for x in leaf.x / 4..(leaf.x + leaf.wide) / 4 {
            let unit = y * (given.w / 4) + x;
            maps.words[unit] = word;
            maps.modes[unit] = if record.kind == 5 { 255 } else { record.kind };
            maps.keep[unit] = record.keep;
        }
    }
}
