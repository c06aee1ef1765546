//! The split walk, and the edges that each pass visits.
use super::{PAST, SPLIT};

/// A leaf, or a half of one: its first luma sample, its width and its height.
#[derive(Clone, Copy)]
pub struct Leaf {
    pub x: usize,
    pub y: usize,
    pub wide: usize,
    pub high: usize,
}

/// The leaves of the picture in walk order: the roots in raster order, in each a cut block's parts up-left,
/// up-right, down-left, down-right. `cut(x, y, side)` says of a block of 8 or more whether it is cut, or refuses.
pub fn leaves(
    w: usize,
    h: usize,
    mut cut: impl FnMut(usize, usize, usize) -> Result<bool, u32>,
) -> Result<Vec<Leaf>, u32> {
    let mut met = Vec::new();
    for y in (0..h).step_by(64) {
        for x in (0..w).step_by(64) {
            block((w, h), (x, y, 64), &mut cut, &mut met)?;
        }
    }
    Ok(met)
}

/// The leaves of the root at (x, y) alone.
pub fn root(
    w: usize,
    h: usize,
    (x, y): (usize, usize),
    mut cut: impl FnMut(usize, usize, usize) -> Result<bool, u32>,
) -> Result<Vec<Leaf>, u32> {
    let mut met = Vec::new();
    block((w, h), (x, y, 64), &mut cut, &mut met)?;
    Ok(met)
}

/// Whether a block is cut, by its byte: that at 256*level + p of its root, p the unit at its centre, 16*row + column in the root.
pub fn cut_by(splits: &[u8], w: usize) -> impl Fn(usize, usize, usize) -> Result<bool, u32> + '_ {
    move |x, y, side| {
        let root = (y / 64) * w.div_ceil(64) + x / 64;
        let level = 6 - side.ilog2() as usize;
        let (row, column) = ((y % 64 + side / 2) / 4, (x % 64 + side / 2) / 4);
        match splits[1024 * root + 256 * level + 16 * row + column] {
            0 => Ok(false),
            1 => Ok(true),
            _ => Err(SPLIT),
        }
    }
}

fn block(
    (w, h): (usize, usize),
    (x, y, side): (usize, usize, usize),
    cut: &mut dyn FnMut(usize, usize, usize) -> Result<bool, u32>,
    met: &mut Vec<Leaf>,
) -> Result<(), u32> {
    if x >= w || y >= h {
        return Ok(());
    }
    if side >= 8 && cut(x, y, side)? {
        let half = side / 2;
        for (px, py) in [(x, y), (x + half, y), (x, y + half), (x + half, y + half)] {
            block((w, h), (px, py, half), cut, met)?;
        }
        return Ok(());
    }
    if x + side > w || y + side > h {
        return Err(PAST);
    }
    met.push(Leaf { x, y, wide: side, high: side });
    Ok(())
}

/// The vertical pass: the first luma sample of Q, the unit right of the edge, of every edge in order.
pub fn vertical(w: usize, h: usize, leaves: &[Leaf], limit: usize) -> Vec<(usize, usize)> {
    let mut done = Done::new(w, h);
    let mut list = Vec::new();
    for leaf in halves(leaves, limit, |l| Leaf { wide: 32, ..l }, |l| Leaf { x: l.x + 32, wide: 32, ..l }) {
        let right = leaf.x + leaf.wide;
        if leaf.x > 0 && done.get(leaf.x - 4, leaf.y) {
            list.extend((leaf.y..leaf.y + leaf.high).step_by(4).map(|y| (leaf.x, y)));
        }
        if right < w && done.get(right, leaf.y) {
            list.extend((leaf.y..leaf.y + leaf.high).step_by(4).map(|y| (right, y)));
        }
        done.set(leaf);
    }
    list
}

/// The horizontal pass: the first luma sample of Q, the unit below the edge, of every edge in order.
pub fn horizontal(leaves: &[Leaf], limit: usize) -> Vec<(usize, usize)> {
    let mut list = Vec::new();
    for leaf in halves(leaves, limit, |l| Leaf { high: 32, ..l }, |l| Leaf { y: l.y + 32, high: 32, ..l }) {
        if leaf.y > 0 {
            list.extend((leaf.x..leaf.x + leaf.wide).step_by(4).map(|x| (x, leaf.y)));
        }
    }
    list
}

/// With limit 5 a 64 leaf is two halves.
fn halves(leaves: &[Leaf], limit: usize, first: fn(Leaf) -> Leaf, second: fn(Leaf) -> Leaf) -> Vec<Leaf> {
    let cut = |leaf: &Leaf| limit == 5 && leaf.wide == 64;
    let parts = |leaf: &Leaf| if cut(leaf) { vec![first(*leaf), second(*leaf)] } else { vec![*leaf] };
    leaves.iter().flat_map(parts).collect()
}

/// Which units a pass has done.
struct Done {
    wide: usize,
    units: Vec<bool>,
}

impl Done {
    fn new(w: usize, h: usize) -> Done {
        Done { wide: w / 4, units: vec![false; (w / 4) * (h / 4)] }
    }

    fn get(&self, x: usize, y: usize) -> bool {
        self.units[(y / 4) * self.wide + x / 4]
    }

    fn set(&mut self, leaf: Leaf) {
        for y in (leaf.y..leaf.y + leaf.high).step_by(4) {
            for x in (leaf.x..leaf.x + leaf.wide).step_by(4) {
                self.units[(y / 4) * self.wide + x / 4] = true;
            }
        }
    }
}
