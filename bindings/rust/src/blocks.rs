//! A block's samples: gathering, the five modes and residual addition.
use crate::lend;
use crate::refusal::{answer, Refusal};

/// A component of a 4:2:0 picture. The two chroma planes have one form.
#[derive(Clone, Copy, Debug, PartialEq, Eq)]
pub enum Component {
    /// Y.
    Luma,
    /// U or V.
    Chroma,
}

/// Gathers the neighbour samples of the luma block of `side` at (x, y), in the component: left downwards, the corner, up rightwards. `run` has
/// four times the side in the component, and one. Refusals: [`Size`](Refusal::Size), [`Length`](Refusal::Length), [`Block`](Refusal::Block),
/// [`Sample`](Refusal::Sample).
#[allow(clippy::too_many_arguments)]
#[inline]
pub fn get_nbr(
    component: Component,
    w: usize,
    h: usize,
    plane: &[u16],
    words: &[u32],
    x: usize,
    y: usize,
    side: usize,
    constrained: bool,
    run: &mut [u16],
) -> Result<(), Refusal> {
    // Each pointer comes from a slice that lives through the call, with its own length.
    let number = unsafe {
        lend!(lomsakeun_get_nbr(
            component == Component::Chroma, w, h, in plane, in words, x, y, side, constrained, mut run
        ))
    };
    answer(number, ())
}

/// Predicts a block of `side` from its run: mode 0 DC, 1 horizontal, 2 vertical, 3 UL, 4 UR. Refusals: [`Block`](Refusal::Block),
/// [`Length`](Refusal::Length), [`Mode`](Refusal::Mode), [`Sample`](Refusal::Sample).
#[inline]
pub fn ipred_b(mode: u8, side: usize, run: &[u16], block: &mut [u16]) -> Result<(), Refusal> {
    // As above.
    let number = unsafe { lend!(lomsakeun_ipred_b(mode, side, in run, mut block)) };
    answer(number, ())
}

/// Writes a block: the prediction, or, where `coded`, prediction and residual clipped to 0..=1023. Refusals: [`Block`](Refusal::Block),
/// [`Length`](Refusal::Length), [`Sample`](Refusal::Sample).
#[inline]
pub fn recon(coded: bool, side: usize, pred: &[u16], coef: &[i16], rec: &mut [u16]) -> Result<(), Refusal> {
    // As above.
    let number = unsafe { lend!(lomsakeun_recon(coded, side, in pred, in coef, mut rec)) };
    answer(number, ())
}

/// The same into the plane of a component, at the luma block of `side` at (x, y). Refusals: [`Size`](Refusal::Size),
/// [`Length`](Refusal::Length), [`Block`](Refusal::Block), [`Sample`](Refusal::Sample).
#[allow(clippy::too_many_arguments)]
#[inline]
pub fn recon_plane(
    component: Component,
    w: usize,
    h: usize,
    x: usize,
    y: usize,
    side: usize,
    coded: bool,
    pred: &[u16],
    coef: &[i16],
    rec: &mut [u16],
) -> Result<(), Refusal> {
    // As above.
    let number = unsafe {
        lend!(lomsakeun_recon_plane(
            component == Component::Chroma, w, h, x, y, side, coded, in pred, in coef, mut rec
        ))
    };
    answer(number, ())
}
