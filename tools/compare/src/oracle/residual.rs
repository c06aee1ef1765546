//! evc_recon into a block, evc_recon_yuv into a plane.
use crate::api::frame::Frame;
use crate::api::ChromaSampling;
use crate::def::*;
use crate::{caught, planes, recon, tbl};

/// Adds the residual into a block of its own.
pub fn block(coded: bool, side: usize, prediction: &[u16], residual: &[i16], block: &mut [u16]) -> Option<()> {
    let mut added = block.to_vec();
    caught(|| recon::evc_recon(&mut None, residual, prediction, coded, side, side, &mut added, Y_C))?;
    block.copy_from_slice(&added);
    Some(())
}

/// The call alone, for measuring speed.
pub fn bare(coded: bool, side: usize, prediction: &[u16], residual: &[i16], block: &mut [u16]) {
    recon::evc_recon(&mut None, residual, prediction, coded, side, side, block, Y_C);
}

/// Adds the residual into the luma plane or one chroma plane. The Rust does all three planes in one call; the
/// other two are lent zeros and dropped.
pub fn plane(
    chroma: bool,
    (w, h): (usize, usize),
    (x, y, side): (usize, usize, usize),
    coded: bool,
    prediction: &[u16],
    residual: &[i16],
    plane: &mut [u16],
) -> Option<()> {
    let (shift, component) = if chroma { (1, U_C) } else { (0, Y_C) };
    let mut frame = Frame::<pel>::new(w, h, ChromaSampling::Cs420);
    planes::fill(&mut frame.planes[component], w >> shift, plane);
    let mut pred = vec![0; reach()];
    let mut coef = vec![0; pred.len()];
    let at = tbl::tbl_cu_dim_offset[component];
    pred[at..at + prediction.len()].copy_from_slice(prediction);
    coef[at..at + residual.len()].copy_from_slice(residual);
    let mut nnz = [false; N_C];
    nnz[component] = coded;
    caught(|| recon::evc_recon_yuv(&mut None, x, y, side, side, &coef, &pred, &nnz, &mut frame.planes))?;
    planes::read(&frame.planes[component], w >> shift, plane);
    Some(())
}

/// Where each component's prediction and residual lie in what a block is lent.
pub fn offsets() -> [usize; 3] {
    tbl::tbl_cu_dim_offset
}

/// How long a prediction or a residual is, U and V at their places.
pub fn reach() -> usize {
    MAX_CU_DIM + (MAX_CU_DIM >> 1)
}

/// Three planes in the Rust's own shapes, so that calls can be measured without the conversion. They have no margin, so that their rows lie as far
/// apart as the product's.
pub struct Prepared {
    size: (usize, usize),
    frame: Frame<pel>,
}

impl Prepared {
    pub fn new((w, h): (usize, usize)) -> Prepared {
        Prepared { size: (w, h), frame: Frame::<pel>::flat(w, h, ChromaSampling::Cs420) }
    }

    /// The residual of all three components of one block, each coded, each at its place.
    pub fn add(&mut self, (x, y, side): (usize, usize, usize), pred: &[u16], coef: &[i16]) {
        let planes = &mut self.frame.planes;
        recon::evc_recon_yuv(&mut None, x, y, side, side, coef, pred, &[true; N_C], planes);
    }

    /// The finished planes.
    pub fn read(&self, into: &mut [Vec<u16>; 3]) {
        planes::read_all(&self.frame, self.size.0, into);
    }
}
