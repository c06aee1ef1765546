//! evc_get_avail_intra and evc_get_avail_inter, the mask's bits taken apart.
use crate::def::*;
use crate::{caught, map_of, util};

/// up, left, right, up_left, up_right, low_left, low_right, right_up.
const NAMED: [u16; 8] =
    [AVAIL_UP, AVAIL_LE, AVAIL_RI, AVAIL_UP_LE, AVAIL_UP_RI, AVAIL_LO_LE, AVAIL_LO_RI, AVAIL_RI_UP];

pub fn intra(w: usize, h: usize, words: &[u32], x: usize, y: usize, side: usize) -> Option<[bool; 8]> {
    let map = map_of(words);
    caught(|| named(intra_mask(w, h, &map, x, y, side)))
}

pub fn inter(w: usize, h: usize, words: &[u32], x: usize, y: usize, side: usize) -> Option<[bool; 8]> {
    let map = map_of(words);
    let (sx, sy, w_scu, h_scu) = (PEL2SCU(x), PEL2SCU(y), PEL2SCU(w), PEL2SCU(h));
    let scup = sy * w_scu + sx;
    caught(|| named(util::evc_get_avail_inter(sx, sy, w_scu, h_scu, scup, side, side, &map)))
}

/// The mask of evc_get_avail_intra for a luma block.
pub(crate) fn intra_mask(w: usize, h: usize, map: &[MCU], x: usize, y: usize, side: usize) -> u16 {
    let (sx, sy, w_scu, h_scu) = (PEL2SCU(x), PEL2SCU(y), PEL2SCU(w), PEL2SCU(h));
    let log2 = util::CONV_LOG2(side);
    util::evc_get_avail_intra(sx, sy, w_scu, h_scu, sy * w_scu + sx, log2, log2, map)
}

fn named(mask: u16) -> [bool; 8] {
    NAMED.map(|bit| IS_AVAIL(mask, bit))
}
