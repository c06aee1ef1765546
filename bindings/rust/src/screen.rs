//! The ward screen: 8-bit rows of a crop window, one at a time.
use crate::lend;
use crate::picture::Planes;
use crate::refusal::{answer, Refusal};

/// The two runs over a window.
#[derive(Clone, Copy, Debug, PartialEq, Eq)]
pub enum Run {
    /// At full size.
    Full,
    /// At half the size.
    Preview,
}

/// A crop window by its edges, in luma samples: `right` and `bottom` are the column and the row after its last.
#[derive(Clone, Copy, Debug, PartialEq, Eq)]
pub struct Window {
    /// The first column.
    pub left: usize,
    /// The first row.
    pub top: usize,
    /// The column after the last.
    pub right: usize,
    /// The row after the last.
    pub bottom: usize,
}

/// The picture that a run shows, finished.
#[derive(Clone, Copy, Debug)]
pub struct Shown<'a> {
    /// Its width.
    pub w: usize,
    /// Its height.
    pub h: usize,
    /// Its planes.
    pub planes: Planes<&'a [u16]>,
}

/// Which row of a run comes next. It is not `Copy`: a call takes it and hands back the next, or the same one with a refusal.
#[derive(Debug, PartialEq, Eq)]
pub struct Turn {
    run: Run,
    plane: usize,
    row: usize,
}

impl Turn {
    /// The start of a run: the top of Y.
    pub fn first(run: Run) -> Turn {
        Turn { run, plane: 0, row: 0 }
    }

    /// The plane whose turn it is: 0 is Y, 1 is U and 2 is V.
    pub fn plane(&self) -> usize {
        self.plane
    }

    /// The row whose turn it is.
    pub fn row_number(&self) -> usize {
        self.row
    }

    /// Row `row` of plane `plane`, first in `out`, which has w bytes for every row: the next turn and how many samples were written. Refusals:
    /// [`Size`](Refusal::Size), [`Length`](Refusal::Length), [`Window`](Refusal::Window), [`Turn`](Refusal::Turn), [`Sample`](Refusal::Sample).
    #[inline]
    pub fn row(
        self,
        plane: usize,
        row: usize,
        shown: Shown<'_>,
        window: Window,
        out: &mut [u8],
    ) -> Result<(Turn, usize), (Refusal, Turn)> {
        let (mut turn, mut written) = (self, 0);
        let (colour, [y, u, v]) = shown.planes.lent();
        // Each pointer comes from a slice that lives through the call, with its own length, and `out` is borrowed alone; the others are locals.
        let number = unsafe {
            lend!(lomsakeun_ward_row(
                turn.run == Run::Preview, &mut turn.plane, &mut turn.row, plane, row, colour, shown.w, shown.h,
                in y, in u, in v, window.left, window.top, window.right, window.bottom, mut out, &mut written
            ))
        };
        match answer(number, written) {
            Ok(written) => Ok((turn, written)),
            Err(refusal) => Err((refusal, turn)),
        }
    }
}
