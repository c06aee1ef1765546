//! A map of edge rows, kept right while motion and flags are edited unit by unit.
use crate::lend;
use crate::refusal::{answer, Refusal};

/// A unit's motion: the references of list 0 and list 1, and x and y of each.
#[derive(Clone, Copy, Debug, Default, PartialEq, Eq)]
#[allow(missing_docs)]
pub struct Motion {
    pub refi0: i8,
    pub refi1: i8,
    pub x0: i16,
    pub y0: i16,
    pub x1: i16,
    pub y1: i16,
}

/// A bit of the unit word that [`set_flag`] sets.
#[derive(Clone, Copy, Debug, PartialEq, Eq)]
pub enum Flag {
    /// Bit 15.
    Intra,
    /// Bit 24, luma-coded.
    Coded,
}

/// Fills `rows`, a byte a unit: the strength row of its left edge in bits 0..1, that of its top edge in bits 2..3, and 0 where no unit lies on that
/// side. Refusals: [`Size`](Refusal::Size), [`Length`](Refusal::Length).
///
/// ```
/// use lomsakeun::{fill_rows, set_flag, Flag, Refusal};
///
/// // Two units beside each other, at rest and not coded: row 3 between them.
/// let mut words = [0; 2];
/// let (motion, refs) = ([0; 8], [0; 4]);
/// let mut rows = [0; 2];
/// fill_rows(8, 4, &words, &motion, &refs, &mut rows)?;
/// assert_eq!(rows, [0, 3]);
///
/// // The first is luma-coded now: row 1.
/// set_flag(8, 4, 0, 0, Flag::Coded, true, &mut words, &motion, &refs, &mut rows)?;
/// assert_eq!((words, rows), ([1 << 24, 0], [0, 1]));
/// # Ok::<(), Refusal>(())
/// ```
#[inline]
pub fn fill_rows(
    w: usize,
    h: usize,
    words: &[u32],
    motion: &[i16],
    refs: &[i8],
    rows: &mut [u8],
) -> Result<(), Refusal> {
    // The pointers come from slices that live through the call, with their own lengths; the borrows keep them apart.
    let number = unsafe { lend!(lomsakeun_fill_rows(w, h, in words, in motion, in refs, mut rows)) };
    answer(number, ())
}

/// Sets the motion and the references of the unit of column x and row y, and in the map, whatever it holds, the rows of that unit's four edges; no
/// other bit of it. A right map stays right. Refusals: [`Size`](Refusal::Size), [`Length`](Refusal::Length), [`Block`](Refusal::Block).
#[inline]
#[allow(clippy::too_many_arguments)]
pub fn set_motion(
    w: usize,
    h: usize,
    x: usize,
    y: usize,
    moved: Motion,
    words: &[u32],
    motion: &mut [i16],
    refs: &mut [i8],
    rows: &mut [u8],
) -> Result<(), Refusal> {
    // As above.
    let number = unsafe {
        lend!(lomsakeun_set_motion(
            w, h, x, y, moved.x0, moved.y0, moved.x1, moved.y1, moved.refi0, moved.refi1, in words, mut motion,
            mut refs, mut rows
        ))
    };
    answer(number, ())
}

/// The same for a bit of the unit's word. Refusals: [`Size`](Refusal::Size), [`Length`](Refusal::Length), [`Block`](Refusal::Block).
#[inline]
#[allow(clippy::too_many_arguments)]
pub fn set_flag(
    w: usize,
    h: usize,
    x: usize,
    y: usize,
    flag: Flag,
    on: bool,
    words: &mut [u32],
    motion: &[i16],
    refs: &[i8],
    rows: &mut [u8],
) -> Result<(), Refusal> {
    // As above.
    let number = unsafe {
        lend!(lomsakeun_set_flag(w, h, x, y, flag == Flag::Coded, on, mut words, in motion, in refs, mut rows))
    };
    answer(number, ())
}
