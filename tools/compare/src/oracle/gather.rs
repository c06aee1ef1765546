//! evc_get_nbr_b, handed the mask of evc_get_avail_intra.
use crate::api::frame::Frame;
use crate::api::ChromaSampling;
use crate::def::*;
use crate::{avail, caught, ipred, map_of, planes};

/// Gathers the run of the block named by its luma place and side, from the luma or one chroma plane.
pub fn gather(
    chroma: bool,
    (w, h): (usize, usize),
    plane: &[u16],
    words: &[u32],
    (x, y, side): (usize, usize, usize),
    constrained: bool,
    run: &mut [u16],
) -> Option<()> {
    let map = map_of(words);
    let (shift, component) = if chroma { (1, U_C) } else { (0, Y_C) };
    let mut frame = Frame::<pel>::new(w, h, ChromaSampling::Cs420);
    planes::fill(&mut frame.planes[component], w >> shift, plane);
    let (w_scu, h_scu) = (PEL2SCU(w), PEL2SCU(h));
    let scup = PEL2SCU(y) * w_scu + PEL2SCU(x);
    let mut gathered = run.to_vec();
    caught(|| {
        ipred::evc_get_nbr_b(
            x >> shift,
            y >> shift,
            side >> shift,
            side >> shift,
            &frame.planes[component].as_region(),
            avail::intra_mask(w, h, &map, x, y, side),
            &mut gathered,
            scup,
            &map,
            w_scu,
            h_scu,
            component,
            constrained,
        )
    })?;
    run.copy_from_slice(&gathered);
    Some(())
}

/// A luma plane and the unit words in the Rust's own shapes, so that calls can be measured without the conversion.
pub struct Prepared {
    size: (usize, usize),
    frame: Frame<pel>,
    map: Vec<MCU>,
}

impl Prepared {
    pub fn new((w, h): (usize, usize), plane: &[u16], words: &[u32]) -> Prepared {
        let mut frame = Frame::<pel>::new(w, h, ChromaSampling::Cs420);
        planes::fill(&mut frame.planes[Y_C], w, plane);
        Prepared { size: (w, h), frame, map: map_of(words) }
    }

    /// The availability mask and the gathering of one luma block.
    pub fn gather(&self, x: usize, y: usize, side: usize, run: &mut [u16]) {
        let (w, h) = self.size;
        let (w_scu, h_scu) = (PEL2SCU(w), PEL2SCU(h));
        let scup = PEL2SCU(y) * w_scu + PEL2SCU(x);
        let mask = avail::intra_mask(w, h, &self.map, x, y, side);
        let region = self.frame.planes[Y_C].as_region();
        ipred::evc_get_nbr_b(x, y, side, side, &region, mask, run, scup, &self.map, w_scu, h_scu, Y_C, false);
    }
}
