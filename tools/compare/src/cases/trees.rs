//! Random split trees that the walk accepts.
use crate::model::walk;
use crate::rng::Rng;

/// How readily a block is cut where it need not be, in tenths, at sides 64, 32, 16 and 8.
pub type Taste = [usize; 4];

pub const COARSE: Taste = [3, 3, 3, 3];
pub const MIXED: Taste = [8, 6, 5, 4];
pub const FINE: Taste = [10, 10, 9, 8];
pub const FINEST: Taste = [10, 10, 10, 10];
/// Leaves of 16 and of 8, as many blocks of 16 cut as not.
pub const SIXTEENS: Taste = [10, 10, 5, 0];
pub const UNCUT: Taste = [0, 0, 0, 0];

/// Every block of 8 or more that the walk meets, in walk order: x, y, side, and whether it is cut.
pub fn tree(rng: &mut Rng, w: usize, h: usize, taste: Taste) -> Vec<(usize, usize, usize, bool)> {
    let mut met = Vec::new();
    let cut = |x, y, side| {
        let must = x + side > w || y + side > h;
        let level = 6 - usize::ilog2(side) as usize;
        let cut = must || rng.below(10) < taste[level];
        met.push((x, y, side, cut));
        Ok(cut)
    };
    assert!(walk::leaves(w, h, cut).is_ok());
    met
}

pub fn taste(rng: &mut Rng) -> Taste {
    rng.pick(&[COARSE, MIXED, MIXED, FINE, FINEST, UNCUT])
}
