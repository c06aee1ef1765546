//! evc_ipred_b.
use crate::def::*;
use crate::{caught, ipred};

/// Predicts a block from its run: left downwards, the corner, up rightwards.
pub fn predict(mode: u8, side: usize, run: &[u16], block: &mut [u16]) -> Option<()> {
    let (left, rest) = run.split_at(2 * side);
    let mut predicted = block.to_vec();
    caught(|| ipred::evc_ipred_b(left, rest[0], &rest[1..], &mut predicted, IntraPredDir::from(mode), side, side))?;
    block.copy_from_slice(&predicted);
    Some(())
}

/// The call alone, for measuring speed.
pub fn bare(mode: u8, side: usize, run: &[u16], block: &mut [u16]) {
    let (left, rest) = run.split_at(2 * side);
    ipred::evc_ipred_b(left, rest[0], &rest[1..], block, IntraPredDir::from(mode), side, side);
}
