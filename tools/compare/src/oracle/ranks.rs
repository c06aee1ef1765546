//! evc_get_mpm_b, which reads the rank table evey_tbl_mpm.
use crate::def::*;
use crate::{caught, ipred, map_of, tbl};

/// The five ranks for the unit at (sx, sy).
pub fn ranks(w: usize, _h: usize, words: &[u32], modes: &[u8], sx: usize, sy: usize) -> Option<[u8; 5]> {
    let map = map_of(words);
    let modes: Vec<IntraPredDir> = modes.iter().map(|&mode| IntraPredDir::from(mode)).collect();
    let w_scu = PEL2SCU(w);
    let row = caught(|| {
        ipred::evc_get_mpm_b(sx as u16, sy as u16, &map, &modes, (sy * w_scu + sx) as u32, w_scu as u16)
    })?;
    Some([row[0], row[1], row[2], row[3], row[4]])
}

/// The Rust's rank table, flat: the five ranks of l and u at 5*(6l+u).
pub fn table() -> Vec<u8> {
    tbl::evey_tbl_mpm.iter().flatten().flatten().copied().collect()
}
