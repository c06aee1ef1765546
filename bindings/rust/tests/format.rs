//! What the safe calls cannot say: U or V lent to a picture that is told to be grey. Each call that is told a format refuses it as a length and
//! writes nothing. With neither it is done, but for a stream's frame, which has colour.
use lomsakeun::{sys, Refusal};

/// A picture of 8 by 8, its U and V of any length, its unit words at QP 51, and the other bytes that a call may write.
#[derive(Clone, PartialEq, Debug)]
struct Grey {
    y: Vec<u16>,
    u: Vec<u16>,
    v: Vec<u16>,
    words: Vec<u32>,
    modes: Vec<u8>,
    keep: Vec<u8>,
    out: Vec<u8>,
}

/// One block of 8.
const SPLITS: [u8; 1024] = {
    let mut splits = [0; 1024];
    splits[136] = 1;
    splits[256 + 68] = 1;
    splits[512 + 34] = 1;
    splits
};
const STRENGTHS: [u8; 208] = [3; 208];
const MOTION: [i16; 16] = [0; 16];
const REFS: [i8; 8] = [0; 8];
const LUMA: [u16; 64] = [9; 64];
const NO_TABLE: [i8; 0] = [];
const NO_RESIDUAL: [i16; 0] = [];
/// A block that is predicted by DC at QP 51, without a residual.
const LEAF: [u8; 4] = [0, 51, 0, 0];

/// A call of the archive: its arguments as they are, or slices that it writes (mut) or reads (ref), each its pointer and its length. A pointer comes
/// from a slice that lives through the call, or from a local.
macro_rules! call {
    ($name:ident [$($done:expr),*]) => { unsafe { sys::$name($($done),*) } };
    ($name:ident [$($done:expr),*] mut ($($slice:expr),*) $($rest:tt)*) => {
        call!($name [$($done,)* $($slice.as_mut_ptr(), $slice.len()),*] $($rest)*)
    };
    ($name:ident [$($done:expr),*] ref ($($slice:expr),*) $($rest:tt)*) => {
        call!($name [$($done,)* $($slice.as_ptr(), $slice.len()),*] $($rest)*)
    };
    ($name:ident [$($done:expr),*] ($($value:expr),*) $($rest:tt)*) => {
        call!($name [$($done,)* $($value),*] $($rest)*)
    };
}

fn deblock(p: &mut Grey) -> u8 {
    let (mut m, mut n) = (0, 0);
    call!(lomsakeun_deblock [8, 8] mut (p.y, p.u, p.v, p.words) ref (SPLITS, MOTION, REFS, p.keep, NO_TABLE, NO_TABLE, STRENGTHS)
        (6, 0, 0, false, &mut m, &mut n))
}

/// By a map of rows: 3 between units at rest, and none at the picture's sides.
fn deblock_by_rows(p: &mut Grey) -> u8 {
    let (rows, mut m, mut n) = ([0u8, 3, 12, 15], 0, 0);
    call!(lomsakeun_deblock_by_rows [8, 8] mut (p.y, p.u, p.v, p.words)
        ref (SPLITS, MOTION, REFS, p.keep, rows, NO_TABLE, NO_TABLE, STRENGTHS) (6, 0, 0, false, &mut m, &mut n))
}

fn deblock_band(p: &mut Grey) -> u8 {
    let (mut next, mut m, mut n) = (0, 0, 0);
    call!(lomsakeun_deblock_band [&mut next, 0, 8, 8] mut (p.y, p.u, p.v, p.words)
        ref (SPLITS, MOTION, REFS, p.keep, NO_TABLE, NO_TABLE, STRENGTHS) (6, 0, 0, false, &mut m, &mut n))
}

/// The lent prediction has no chroma.
fn reconstruct(p: &mut Grey) -> u8 {
    let none = [0u16; 0];
    call!(lomsakeun_reconstruct [8, 8, false] ref (SPLITS, LEAF, NO_RESIDUAL, LUMA, none, none) (false)
        mut (p.y, p.u, p.v, p.words, p.modes, p.keep))
}

/// U and V are lent to be predicted from, and there are none to be written.
fn reconstruct_from(p: &mut Grey) -> u8 {
    let (mut no_u, mut no_v) = ([0u16; 0], [0u16; 0]);
    call!(lomsakeun_reconstruct [8, 8, false] ref (SPLITS, LEAF, NO_RESIDUAL, LUMA, p.u, p.v) (false)
        mut (p.y, no_u, no_v, p.words, p.modes, p.keep))
}

fn write_frame(p: &mut Grey) -> u8 {
    call!(lomsakeun_write_frame [false, 8, 8] ref (p.y, p.u, p.v) mut (p.out))
}

fn ward_row(p: &mut Grey) -> u8 {
    let (row, mut plane_turn, mut row_turn, mut written) = (&mut p.out[..8], 0, 0, 0);
    call!(lomsakeun_ward_row [false, &mut plane_turn, &mut row_turn, 0, 0, false, 8, 8] ref (p.y, p.u, p.v) (0, 0, 8, 8) mut (row)
        (&mut written))
}

/// What each call answers for U and V of these lengths; where it refuses, nothing was written.
fn answers(u: usize, v: usize) -> [u8; 7] {
    let calls = [deblock, deblock_by_rows, deblock_band, reconstruct, reconstruct_from, write_frame, ward_row];
    calls.map(|call| {
        let y = LUMA.to_vec();
        let (words, modes, keep) = (vec![51 << 16; 4], vec![7; 4], vec![0; 4]);
        // a frame of luma alone: its line and two bytes a sample
        let before = Grey { y, u: vec![9; u], v: vec![9; v], words, modes, keep, out: vec![77; 6 + 128] };
        let mut after = before.clone();
        let number = call(&mut after);
        assert!(number == 0 || after == before);
        number
    })
}

#[test]
fn chroma_of_a_grey_picture() {
    let [length, setting] = [Refusal::Length, Refusal::Setting].map(Refusal::number);
    assert_eq!(answers(0, 0), [0, 0, 0, 0, 0, setting, 0]);
    for (u, v) in [(16, 0), (0, 16), (16, 16), (1, 0), (0, 1)] {
        assert_eq!(answers(u, v), [length; 7]);
    }
}
