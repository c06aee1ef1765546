//! What a block's neighbours are: availability and mode ranks.
use crate::lend;
use crate::refusal::{answer, Refusal};

/// Which neighbours of a block are there.
#[derive(Clone, Copy, Debug, Default, PartialEq, Eq)]
pub struct Neighbours {
    /// Above the block's first column.
    pub up: bool,
    /// Left of its first row.
    pub left: bool,
    /// Right of its first row.
    pub right: bool,
    /// Up-left of it.
    pub up_left: bool,
    /// Up-right of it.
    pub up_right: bool,
    /// Low-left of it.
    pub low_left: bool,
    /// Low-right of it.
    pub low_right: bool,
    /// Above its last column.
    pub right_up: bool,
}

impl Neighbours {
    /// By the bits that the archive answers, `up` the lowest.
    fn from_mask(mask: u8) -> Neighbours {
        let bit = |place: u8| mask >> place & 1 == 1;
        Neighbours {
            up: bit(0),
            left: bit(1),
            right: bit(2),
            up_left: bit(3),
            up_right: bit(4),
            low_left: bit(5),
            low_right: bit(6),
            right_up: bit(7),
        }
    }
}

/// Which neighbours of the luma block of `side` at (x, y) are there for intra prediction; `words` has a word a unit.
/// Refusals: [`Size`](Refusal::Size), [`Length`](Refusal::Length), [`Block`](Refusal::Block).
#[inline]
pub fn get_avail_intra(
    w: usize,
    h: usize,
    words: &[u32],
    x: usize,
    y: usize,
    side: usize,
) -> Result<Neighbours, Refusal> {
    let mut mask = 0;
    // The pointers come from a slice with its own length and from a local.
    let number = unsafe { lend!(lomsakeun_get_avail_intra(w, h, in words, x, y, side, &mut mask)) };
    answer(number, Neighbours::from_mask(mask))
}

/// The same for inter prediction.
#[inline]
pub fn get_avail_inter(
    w: usize,
    h: usize,
    words: &[u32],
    x: usize,
    y: usize,
    side: usize,
) -> Result<Neighbours, Refusal> {
    let mut mask = 0;
    // As above.
    let number = unsafe { lend!(lomsakeun_get_avail_inter(w, h, in words, x, y, side, &mut mask)) };
    answer(number, Neighbours::from_mask(mask))
}

/// The five mode ranks for the unit of column x and row y: those of the rank table, 180 bytes, that the modes left and above choose.
/// Refusals: [`Size`](Refusal::Size), [`Length`](Refusal::Length), [`Block`](Refusal::Block), [`Mode`](Refusal::Mode).
#[inline]
pub fn get_mpm(
    w: usize,
    h: usize,
    words: &[u32],
    modes: &[u8],
    table: &[u8],
    x: usize,
    y: usize,
) -> Result<[u8; 5], Refusal> {
    let mut ranks = [0; 5];
    // Each pointer comes from a slice or an array that lives through the call, with its own length.
    let number = unsafe { lend!(lomsakeun_get_mpm(w, h, in words, in modes, in table, x, y, mut ranks)) };
    answer(number, ranks)
}
