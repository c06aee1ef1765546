//! evc_deblock over a whole picture, and its four window filters alone.
use crate::api::ChromaSampling;
use crate::def::*;
use crate::picman::EvcPic;
use crate::plane::Plane;
use crate::tracer::Tracer;
use crate::{caught, df, map_of, planes, tbl};
use std::cell::RefCell;
use std::rc::Rc;

type Shared<T> = Option<Rc<RefCell<T>>>;

/// A picture in the Rust's own shapes, so that a run can be measured without the conversion.
pub struct Picture {
    w: usize,
    h: usize,
    pic: Shared<EvcPic>,
    map_scu: Vec<MCU>,
    map_split: Vec<LcuSplitMode>,
    map_mv: Shared<Vec<[[i16; MV_D]; REFP_NUM]>>,
    map_refi: Shared<Vec<[i8; REFP_NUM]>>,
}

impl Picture {
    pub fn new((w, h): (usize, usize), words: &[u32], splits: &[u8], motion: &[i16], refs: &[i8]) -> Picture {
        let mv = motion.chunks_exact(4).map(|v| [[v[0], v[1]], [v[2], v[3]]]).collect();
        let refi = refs.chunks_exact(2).map(|r| [r[0], r[1]]).collect();
        Picture {
            w,
            h,
            pic: Some(Rc::new(RefCell::new(EvcPic::new(w, h, ChromaSampling::Cs420)))),
            map_scu: map_of(words),
            map_split: splits.chunks_exact(1024).map(split_of).collect(),
            map_mv: Some(Rc::new(RefCell::new(mv))),
            map_refi: Some(Rc::new(RefCell::new(refi))),
        }
    }

    /// Writes the three planes.
    pub fn fill(&mut self, samples: [&[u16]; 3]) {
        self.each_plane(|i, plane, w| planes::fill(plane, w, samples[i]));
    }

    /// Reads the three planes and the unit words.
    pub fn read(&mut self, mut samples: [&mut [u16]; 3], words: &mut [u32]) {
        self.each_plane(|i, plane, w| planes::read(plane, w, samples[i]));
        for (word, mcu) in words.iter_mut().zip(&self.map_scu) {
            // MCU is one u32, and has no way out for its unused bits.
            *word = unsafe { std::mem::transmute::<MCU, u32>(*mcu) };
        }
    }

    fn each_plane(&mut self, mut f: impl FnMut(usize, &mut Plane<pel>, usize)) {
        let pic = self.pic.as_ref().unwrap().borrow();
        let mut frame = pic.frame.borrow_mut();
        for (i, plane) in frame.planes.iter_mut().enumerate() {
            f(i, plane, if i == Y_C { self.w } else { self.w / 2 });
        }
    }

    /// Deblocks. The tables and the offsets are U's and V's.
    pub fn run(&mut self, tables: &Vec<Vec<i8>>, offsets: [i8; 2]) {
        self.run_traced(&mut None, tables, offsets);
    }

    pub(crate) fn run_traced(&mut self, tracer: &mut Option<Tracer>, tables: &Vec<Vec<i8>>, offsets: [i8; 2]) {
        let (w, h) = (self.w as u16, self.h as u16);
        let (w_lcu, h_lcu) = ((w + 63) >> MAX_CU_LOG2, (h + 63) >> MAX_CU_LOG2);
        df::evc_deblock(
            offsets[0],
            offsets[1],
            w_lcu,
            h_lcu,
            w >> MIN_CU_LOG2,
            h >> MIN_CU_LOG2,
            w,
            h,
            tracer,
            &self.pic,
            &mut self.map_scu,
            &self.map_split,
            &self.map_mv,
            &self.map_refi,
            tables,
        );
    }
}

/// One root's 1,024 bytes as the Rust's nested lists: a block's depth there is twice its level.
fn split_of(bytes: &[u8]) -> LcuSplitMode {
    let mut split = LcuSplitMode::default();
    for (i, _) in bytes.iter().enumerate().filter(|&(_, &byte)| byte == 1) {
        split.data[2 * (i / 256)][BlockShape::SQUARE as usize][i % 256] = SplitMode::SPLIT_QUAD;
    }
    split
}

/// Deblocks planes and words in place; the strengths are the Rust's own.
pub fn deblock(
    size: (usize, usize),
    samples: [&mut [u16]; 3],
    words: &mut [u32],
    (splits, motion, refs): (&[u8], &[i16], &[i8]),
    tables: [&[i8]; 2],
    offsets: [i8; 2],
) -> Option<()> {
    let mut picture = Picture::new(size, words, splits, motion, refs);
    picture.fill([&*samples[0], &*samples[1], &*samples[2]]);
    let tables = tables.iter().map(|table| table.to_vec()).collect();
    caught(|| picture.run(&tables, offsets))?;
    picture.read(samples, words);
    Some(())
}

/// Filters one window alone, of 4 lines in luma and 2 in chroma, lying row by row; the strength is any entry.
pub fn window(chroma: bool, horizontal: bool, entry: u8, samples: &mut [u16]) -> Option<()> {
    let filter = match (chroma, horizontal) {
        (false, false) => df::deblock_scu_ver_luma,
        (false, true) => df::deblock_scu_hor_luma,
        (true, false) => df::deblock_scu_ver_chroma,
        (true, true) => df::deblock_scu_hor_chroma,
    };
    let w = if chroma && horizontal { 2 } else { 4 };
    let mut plane = Plane::<pel>::new(w, samples.len() / w, 0, 0, 0, 0);
    planes::fill(&mut plane, w, samples);
    caught(|| filter(&mut None, &mut plane.as_region_mut(), 0, chroma as usize, &[entry]))?;
    planes::read(&plane, w, samples);
    Some(())
}

/// The Rust's strength table, flat: 52 entries a row.
pub fn strengths() -> Vec<u8> {
    tbl::evc_tbl_df_st.iter().flatten().copied().collect()
}
