//! The block driver.
use crate::lend;
use crate::picture::{Picture, Planes};
use crate::refusal::{answer, Refusal};

/// What a picture's blocks are made from.
#[derive(Clone, Copy, Debug)]
pub struct Blocks<'a> {
    /// 1,024 bytes a root.
    pub splits: &'a [u8],
    /// Four bytes a leaf, in the order of the walk: kind (a mode, or 5 for the lent prediction), QP, mask (1 Y, 2 U, 4 V; of a grey picture 1
    /// alone), keep (1 where deblocking is to leave the block as it is, else 0).
    pub leaves: &'a [u8],
    /// The masked residuals one after another: Y, U and V of each leaf.
    pub residual: &'a [i16],
    /// The lent prediction of each plane of the picture, of its length, also where no leaf takes it.
    pub predictions: Planes<&'a [u16]>,
    /// Whether only intra units count as neighbours.
    pub constrained: bool,
}

/// Reconstructs a picture: its blocks in the order of the walk, each predicted or taken from the lent prediction, with its residual; then its
/// unit words, and its modes: a byte a unit, 255 where the prediction was lent; and its keep bytes, a byte a unit, 0 or 1. What the picture, the
/// modes and the keep bytes held before counts for nothing.
/// Refusals: [`Size`](Refusal::Size), [`Length`](Refusal::Length), [`Split`](Refusal::Split), [`Leaf`](Refusal::Leaf),
/// [`Record`](Refusal::Record), [`Mode`](Refusal::Mode), [`Qp`](Refusal::Qp), [`Sample`](Refusal::Sample).
#[inline]
pub fn reconstruct(blocks: Blocks, picture: Picture, modes: &mut [u8], keep: &mut [u8]) -> Result<(), Refusal> {
    let Blocks { splits, leaves, residual, predictions, constrained } = blocks;
    let Picture { w, h, planes, words } = picture;
    let (_, [pred_y, pred_u, pred_v]) = predictions.lent();
    let (colour, [y, u, v]) = planes.lent();
    // Each pointer comes from a slice that lives through the call, with its own length.
    let number = unsafe {
        lend!(lomsakeun_reconstruct(
            w, h, colour, in splits, in leaves, in residual, in pred_y, in pred_u, in pred_v, constrained, mut y,
            mut u, mut v, mut words, mut modes, mut keep
        ))
    };
    answer(number, ())
}
