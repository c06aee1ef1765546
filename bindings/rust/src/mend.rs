//! A torn split map, mended.
use crate::lend;
use crate::refusal::{answer, Refusal};

/// How many numbers the list of changes has for each root: five for each of at most 85.
pub const CHANGES_LENGTH: usize = 425;

/// A byte of a split map that was changed: it stands at `1024 * root + 256 * level + place`.
#[derive(Clone, Copy, Debug, PartialEq, Eq)]
pub struct Change {
    /// The root's number, in raster order.
    pub root: usize,
    /// The block's level: 0 for a side of 64, 3 for one of 8.
    pub level: u8,
    /// The place among the level's 256 bytes: 16 times the row and the column of the unit at the block's centre, in its root.
    pub place: u8,
    /// The byte that stood there.
    pub old: u8,
    /// The byte that stands there now.
    pub new: u8,
}

/// The split map of a picture of `w` by `h`, 1,024 bytes a root, mended into `out`, of the same length: a block that reaches past the picture
/// is cut, a byte above 1 inside the picture becomes 0, and all other bytes are copied. [`check`](crate::check) accepts what is written. Each
/// change goes to `list`, of [`CHANGES_LENGTH`] numbers a root, in the order of the walk; the list's rest is as it was. Answers how many changes
/// there are; [`changes`] reads them. Refusals: [`Size`](Refusal::Size) and [`Length`](Refusal::Length).
#[inline]
pub fn mend(w: usize, h: usize, splits: &[u8], out: &mut [u8], list: &mut [u16]) -> Result<usize, Refusal> {
    let mut count = 0;
    // The pointers come from slices that live through the call, with their own lengths, and from a local; the borrows keep them apart.
    let number = unsafe { lend!(lomsakeun_mend(w, h, in splits, mut out, mut list, &mut count)) };
    answer(number, count)
}

/// The first `count` changes of a list that [`mend`] wrote.
pub fn changes(list: &[u16], count: usize) -> impl Iterator<Item = Change> + '_ {
    list.chunks_exact(5).take(count).map(|numbers| Change {
        root: usize::from(numbers[0]),
        level: numbers[1] as u8,
        place: numbers[2] as u8,
        old: numbers[3] as u8,
        new: numbers[4] as u8,
    })
}
