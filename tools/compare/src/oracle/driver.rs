//! A picture's blocks by the Rust's own calls, for measuring speed: availability, gathering, modes and residual addition of each leaf.
use crate::api::frame::Frame;
use crate::api::ChromaSampling;
use crate::def::*;
use crate::{avail, ipred, planes, recon, tbl};

/// A picture, its unit words, and a leaf's prediction and run in the Rust's own shapes; its planes have no margin, so that their rows lie as far
/// apart as the product's. A residual is all that a leaf is lent.
pub struct Prepared {
    size: (usize, usize),
    frame: Frame<pel>,
    map: Vec<MCU>,
    pred: Vec<pel>,
    run: Vec<pel>,
}

impl Prepared {
    pub fn new((w, h): (usize, usize)) -> Prepared {
        Prepared {
            size: (w, h),
            frame: Frame::<pel>::flat(w, h, ChromaSampling::Cs420),
            map: vec![MCU::from(0); PEL2SCU(w) * PEL2SCU(h)],
            pred: vec![0; MAX_CU_DIM + (MAX_CU_DIM >> 1)],
            run: vec![0; 4 * MAX_CU_SIZE + 1],
        }
    }

    /// Before the first leaf: no unit is done.
    pub fn clear(&mut self) {
        self.map.fill(MCU::from(0));
    }

    /// The intra leaf of `side` at (x, y), each component coded: its samples, and then its words.
    pub fn leaf(&mut self, (x, y, side): (usize, usize, usize), mode: u8, qp: u8, coef: &[i16]) {
        let (w, h) = self.size;
        let (w_scu, h_scu) = (PEL2SCU(w), PEL2SCU(h));
        let scup = PEL2SCU(y) * w_scu + PEL2SCU(x);
        let mask = avail::intra_mask(w, h, &self.map, x, y, side);
        for component in [Y_C, U_C, V_C] {
            let shift = (component != Y_C) as usize;
            let (x, y, side) = (x >> shift, y >> shift, side >> shift);
            let region = self.frame.planes[component].as_region();
            let run = &mut self.run[..4 * side + 1];
            ipred::evc_get_nbr_b(
                x, y, side, side, &region, mask, run, scup, &self.map, w_scu, h_scu, component, false,
            );
            let (left, rest) = run.split_at(2 * side);
            let pred = &mut self.pred[tbl::tbl_cu_dim_offset[component]..];
            ipred::evc_ipred_b(left, rest[0], &rest[1..], pred, IntraPredDir::from(mode), side, side);
        }
        let planes = &mut self.frame.planes;
        recon::evc_recon_yuv(&mut None, x, y, side, side, coef, &self.pred, &[true; N_C], planes);
        let word = MCU::from(1 << 31 | 1 << 24 | (qp as u32) << 16 | 1 << 15);
        for row in self.map[scup..].chunks_mut(w_scu).take(PEL2SCU(side)) {
            row[..PEL2SCU(side)].fill(word);
        }
    }

    /// The finished planes.
    pub fn read(&self, into: &mut [Vec<u16>; 3]) {
        planes::read_all(&self.frame, self.size.0, into);
    }
}
