//! Each refusal of each call: its number, and that nothing was written, in the lent slices or beside them.
use lomsakeun::Points as Given;
use lomsakeun::Refusal::{self, *};
use lomsakeun::{
    check, deblock, derived_chroma_qp_mapping_tables, get_avail_inter, get_avail_intra, get_map, get_mpm, get_nbr,
    ipred_b, leaves, list_edges, listing, mend, put_map, recon, recon_plane, reconstruct, visiting_rank, Bands, Blocks,
    Component, Maps, Picture, Planes, Settings, CHANGES_LENGTH, LISTING_LENGTH,
};
use std::fmt::Debug;

const DONE: u32 = 1 << 31;
const INTRA: u32 = 1 << 15;
/// How many elements stand on each side of a slice that must not be written.
const PAD: usize = 64;

/// Lends a slice of n elements out of a longer buffer, and requires that the call is refused so and that the buffer is as it was.
fn refused<T, V>(refusal: Refusal, n: usize, call: impl FnOnce(&mut [T]) -> Result<V, Refusal>)
where
    T: Copy + PartialEq + Debug + From<u8>,
    V: PartialEq + Debug,
{
    let before: Vec<T> = (0..n + 2 * PAD).map(|i| T::from((i % 101) as u8)).collect();
    let mut buffer = before.clone();
    assert_eq!(call(&mut buffer[PAD..PAD + n]), Err(refusal));
    assert_eq!(buffer, before);
}

/// The same with two slices.
fn both_refused<V>(
    refusal: Refusal,
    (m, n): (usize, usize),
    call: impl FnOnce(&mut [u16], &mut [u16]) -> Result<V, Refusal>,
) where
    V: PartialEq + Debug,
{
    let before: Vec<u16> = (0..m.max(n) + 2 * PAD).map(|i| i as u16).collect();
    let (mut first, mut second) = (before.clone(), before.clone());
    assert_eq!(call(&mut first[PAD..PAD + m], &mut second[PAD..PAD + n]), Err(refusal));
    assert_eq!(first, before);
    assert_eq!(second, before);
}

const BAD_SIZES: [(usize, usize); 8] =
    [(0, 8), (8, 0), (6, 8), (8, 6), (4100, 8), (8, 4100), (1 << 32, 8), (8, usize::MAX)];

#[test]
fn numbers() {
    let numbers: Vec<u8> = Refusal::ALL.iter().map(|refusal| refusal.number()).collect();
    assert_eq!(numbers, (1..=22).collect::<Vec<u8>>());
    for &refusal in Refusal::ALL {
        assert_eq!(Refusal::from_number(refusal.number()), Some(refusal));
        assert!(refusal.to_string().starts_with(&format!("refused={}: ", refusal.number())));
    }
    assert_eq!([0, 23, 255].map(Refusal::from_number), [None; 3]);
}

/// Derives tables of these lengths from these points.
fn derive(
    refusal: Refusal,
    same: bool,
    first: (usize, &[i8], &[i8]),
    second: (usize, &[i8], &[i8]),
    n: (usize, usize),
) {
    let of = |(count, a, b)| Given { count, a, b };
    let before: Vec<i8> = (0..n.0.max(n.1) + 2 * PAD).map(|i| (i % 101) as i8).collect();
    let (mut t0, mut t1) = (before.clone(), before.clone());
    let (lent0, lent1) = (&mut t0[PAD..PAD + n.0], &mut t1[PAD..PAD + n.1]);
    let answer = derived_chroma_qp_mapping_tables(false, same, of(first), of(second), lent0, lent1);
    assert_eq!(answer, Err(refusal));
    assert_eq!(t0, before);
    assert_eq!(t1, before);
}

#[test]
fn chroma_tables() {
    let zeros = [0i8; 59];
    let good: (usize, &[i8], &[i8]) = (2, &zeros[..58], &zeros[..58]);
    for wrong in [&zeros[..0], &zeros[..57], &zeros[..59]] {
        derive(Length, false, (2, wrong, good.2), good, (70, 70));
        derive(Length, false, (2, good.1, wrong), good, (70, 70));
        derive(Length, true, good, (2, wrong, good.2), (70, 70));
        derive(Length, true, good, (2, good.1, wrong), (70, 70));
    }
    for wrong in [0, 69, 71] {
        derive(Length, false, good, good, (wrong, 70));
        derive(Length, false, good, good, (70, wrong));
    }
    for count in [0, 59, usize::MAX] {
        derive(Points, false, (count, good.1, good.2), good, (70, 70));
        derive(Points, false, good, (count, good.1, good.2), (70, 70));
    }
    let mut below = [0i8; 58];
    below[1] = -1;
    derive(Points, false, (2, &below, good.2), good, (70, 70));
    derive(Points, false, good, (2, &below, good.2), (70, 70));
    let mut far = [0i8; 58];
    far[0] = 70;
    derive(Pivot, false, (1, &far, good.2), good, (70, 70));
    derive(Pivot, false, good, (1, good.1, &far), (70, 70));
    far[0] = -1;
    derive(Pivot, true, (1, good.1, &far), good, (70, 70));
}

#[test]
fn availability() {
    let words = [DONE; 6];
    for call in [get_avail_intra, get_avail_inter] {
        for (w, h) in BAD_SIZES {
            assert_eq!(call(w, h, &words, 0, 0, 4), Err(Size));
        }
        for wrong in [0, 5] {
            assert_eq!(call(12, 8, &words[..wrong], 0, 0, 3), Err(Length));
        }
        for (x, y, side) in
            [(0, 0, 0), (0, 0, 2), (2, 0, 4), (0, 2, 4), (12, 0, 4), (0, 8, 4), (8, 0, 8), (1 << 32, 0, 4)]
        {
            assert_eq!(call(12, 8, &words, x, y, side), Err(Block));
        }
    }
}

#[test]
fn ranks() {
    let (words, modes, table) = ([DONE | INTRA; 4], [0u8; 4], [0u8; 180]);
    for (w, h) in BAD_SIZES {
        assert_eq!(get_mpm(w, h, &words, &modes, &table, 0, 0), Err(Size));
    }
    assert_eq!(get_mpm(8, 8, &words[..3], &modes, &table, 9, 0), Err(Length));
    assert_eq!(get_mpm(8, 8, &words, &modes[..3], &table, 9, 0), Err(Length));
    assert_eq!(get_mpm(8, 8, &words, &modes, &table[..179], 9, 0), Err(Length));
    assert_eq!(get_mpm(8, 8, &words, &modes, &table, 2, 0), Err(Block));
    assert_eq!(get_mpm(8, 8, &words, &modes, &table, 0, 1 << 32), Err(Block));
    assert_eq!(get_mpm(8, 8, &words, &[9, 9, 5, 9], &table, 1, 1), Err(Mode));
    assert_eq!(get_mpm(8, 8, &words, &[9, 254, 0, 9], &table, 1, 1), Err(Mode));
}

#[test]
fn compact() {
    let mut at = 3;
    let mut splits = [0; 1024];
    for (w, h) in BAD_SIZES {
        refused(Size, 1, |buf| put_map(w, h, &splits, buf, &mut at));
        refused(Size, 1024, |map| get_map(w, h, &[], &mut at, map));
    }
    refused(Length, 1, |buf| put_map(8, 8, &splits[1..], buf, &mut at));
    refused(Length, 1023, |map| get_map(8, 8, &[], &mut at, map));
    // a block of 64 that reaches out of the picture is not cut
    refused(Leaf, 0, |buf| put_map(8, 8, &splits, buf, &mut at));
    refused(Leaf, 1024, |map| get_map(8, 8, &[0, 0], &mut at, map));
    splits[136] = 2;
    refused(Split, 2, |buf| put_map(64, 64, &splits, buf, &mut at));
    splits[136] = 0;
    refused(Bits, 1, |buf| put_map(64, 64, &splits, buf, &mut at));
    refused(Bits, 1024, |map| get_map(64, 64, &[0], &mut at, map));
    refused(Bits, 1024, |map| get_map(64, 64, &[0, 1], &mut at, map));
    assert_eq!(at, 3);
    for mut far in [9, usize::MAX] {
        refused(Bits, 1, |buf| put_map(64, 64, &splits, buf, &mut far));
        refused(Bits, 1024, |map| get_map(64, 64, &[0], &mut far, map));
    }
}

#[test]
fn mending() {
    let splits = [2; 1025];
    for (w, h) in BAD_SIZES {
        refused(Size, 1024, |out| mend(w, h, &splits[..1024], out, &mut [0; CHANGES_LENGTH]));
    }
    for wrong in [0, 1023, 1025] {
        refused(Length, 1024, |out| mend(4, 4, &splits[..wrong], out, &mut [0; CHANGES_LENGTH]));
        refused(Length, wrong, |out| mend(4, 4, &splits[..1024], out, &mut [0; CHANGES_LENGTH]));
    }
    for wrong in [0, 424, 426] {
        let mut out = [9; 1024];
        refused(Length, wrong, |list| mend(4, 4, &splits[..1024], &mut out, list));
        assert_eq!(out, [9; 1024]);
    }
}

#[test]
fn gathering() {
    let (plane, words) = ([0u16; 65], [DONE; 4]);
    let gather = |refusal, (w, h), plane: &[u16], words: &[u32], (x, y, side), n| {
        refused(refusal, n, |run| get_nbr(Component::Luma, w, h, plane, words, x, y, side, false, run));
    };
    for size in BAD_SIZES {
        gather(Size, size, &plane[..64], &words, (4, 4, 4), 17);
    }
    for wrong in [0, 63, 65] {
        gather(Length, (8, 8), &plane[..wrong], &words, (4, 4, 4), 17);
    }
    gather(Length, (8, 8), &plane[..64], &words[..3], (4, 4, 4), 17);
    for wrong in [0, 16, 18] {
        gather(Length, (8, 8), &plane[..64], &words, (4, 4, 4), wrong);
    }
    for place in [(0, 0, 3), (0, 0, 16), (4, 4, 8), (2, 0, 4), (8, 0, 4), (0, usize::MAX - 3, 4)] {
        gather(Block, (8, 8), &plane[..64], &words, place, 17);
    }
    let mut over = [0u16; 64];
    over[35] = 1024;
    gather(Sample, (8, 8), &over, &words, (4, 4, 4), 17);
    refused(Length, 17, |run| get_nbr(Component::Chroma, 8, 8, &plane[..16], &words, 4, 4, 4, false, run));
}

#[test]
fn modes() {
    let run = [0u16; 18];
    for side in [0, 1, 3, 5, 128, usize::MAX] {
        refused(Block, 16, |block| ipred_b(9, side, &run[..17], block));
    }
    for wrong in [0, 16, 18] {
        refused(Length, 16, |block| ipred_b(9, 4, &run[..wrong], block));
    }
    for wrong in [0, 15, 17] {
        refused(Length, wrong, |block| ipred_b(9, 4, &run[..17], block));
    }
    for mode in [5, 255] {
        refused(Mode, 16, |block| ipred_b(mode, 4, &[1024; 17], block));
    }
    for at in [0, 8, 16] {
        let mut over = [0u16; 17];
        over[at] = 1024;
        (0..5).for_each(|mode| refused(Sample, 16, |block| ipred_b(mode, 4, &over, block)));
    }
}

#[test]
fn residuals() {
    let (pred, coef) = ([0u16; 17], [0i16; 17]);
    for coded in [false, true] {
        for side in [0, 3, 128, 1 << 33] {
            refused(Block, 16, |rec| recon(coded, side, &pred[..16], &coef[..16], rec));
        }
        for wrong in [0, 15, 17] {
            refused(Length, 16, |rec| recon(coded, 4, &pred[..wrong], &coef[..16], rec));
            refused(Length, 16, |rec| recon(coded, 4, &pred[..16], &coef[..wrong], rec));
            refused(Length, wrong, |rec| recon(coded, 4, &pred[..16], &coef[..16], rec));
        }
        let mut over = [0u16; 16];
        over[15] = 1024;
        refused(Sample, 16, |rec| recon(coded, 4, &over, &coef[..16], rec));
    }
}

#[test]
fn residuals_into_a_plane() {
    let (pred, coef) = ([0u16; 17], [0i16; 17]);
    let add = |refusal, (w, h), (x, y, side), pred: &[u16], coef: &[i16], n| {
        refused(refusal, n, |rec| recon_plane(Component::Luma, w, h, x, y, side, true, pred, coef, rec));
    };
    for size in BAD_SIZES {
        add(Size, size, (4, 4, 4), &pred[..16], &coef[..16], 64);
    }
    for wrong in [0, 63, 65] {
        add(Length, (8, 8), (4, 4, 3), &pred[..16], &coef[..16], wrong);
    }
    for wrong in [0, 15, 17] {
        add(Length, (8, 8), (4, 4, 4), &pred[..wrong], &coef[..16], 64);
        add(Length, (8, 8), (4, 4, 4), &pred[..16], &coef[..wrong], 64);
    }
    for place in [(4, 4, 3), (4, 4, 8), (2, 4, 4), (8, 0, 4), (0, 0, 16)] {
        add(Block, (8, 8), place, &pred[..16], &coef[..16], 64);
    }
    add(Sample, (8, 8), (4, 4, 4), &[1024; 16], &coef[..16], 64);
}

/// The bytes of one root with these bytes set.
fn root(set: &[(usize, u8)]) -> Vec<u8> {
    let mut splits = vec![0; 1024];
    set.iter().for_each(|&(at, byte)| splits[at] = byte);
    splits
}

#[test]
fn split_trees() {
    for (w, h) in BAD_SIZES {
        assert_eq!(check(w, h, &root(&[])), Err(Size));
        refused(Size, 768, |out| leaves(w, h, &root(&[]), 0, 0, out));
    }
    for wrong in [0, 1023, 1025] {
        assert_eq!(check(64, 64, &vec![0; wrong]), Err(Length));
        refused(Length, 768, |out| leaves(64, 64, &vec![0; wrong], 0, 0, out));
    }
    for wrong in [0, 767, 769] {
        refused(Length, wrong, |out| leaves(64, 64, &root(&[]), 1, 0, out));
    }
    for (x, y) in [(1, 0), (0, 32), (64, 0), (0, 64), (1 << 32, 0)] {
        refused(Block, 768, |out| leaves(64, 64, &root(&[]), x, y, out));
    }
    for byte in [2, 255] {
        assert_eq!(check(64, 64, &root(&[(136, byte)])), Err(Split));
        refused(Split, 768, |out| leaves(64, 64, &root(&[(136, 1), (256 + 204, byte)]), 0, 0, out));
    }
    assert_eq!(check(60, 64, &root(&[])), Err(Leaf));
    refused(Leaf, 768, |out| leaves(64, 60, &root(&[]), 0, 0, out));
    // at one block the byte comes first
    assert_eq!(check(60, 64, &root(&[(136, 2)])), Err(Split));
    for (x, y) in [(16, 0), (0, 16), (usize::MAX, 0), (0, 1 << 32)] {
        assert_eq!(visiting_rank(x, y), Err(Block));
    }
}

#[test]
fn edges() {
    let list = |refusal, (w, h), splits: &[u8], limit, n| {
        both_refused(refusal, n, |vertical, horizontal| list_edges(w, h, splits, limit, vertical, horizontal));
    };
    for size in BAD_SIZES {
        list(Size, size, &root(&[]), 9, (512, 512));
    }
    for wrong in [0, 511, 513] {
        list(Length, (64, 64), &root(&[]), 9, (wrong, 512));
        list(Length, (64, 64), &root(&[]), 9, (512, wrong));
    }
    list(Length, (64, 64), &[0; 1023], 9, (512, 512));
    for limit in [0, 4, 7, 255] {
        list(Setting, (64, 64), &root(&[(136, 2)]), limit, (512, 512));
    }
    list(Split, (64, 64), &root(&[(136, 2)]), 6, (512, 512));
    list(Leaf, (64, 60), &root(&[]), 5, (480, 480));
}

#[test]
fn sheets() {
    for wrong in [0, 1, LISTING_LENGTH - 1, LISTING_LENGTH + 1] {
        refused(Length, wrong, |out: &mut [u8]| listing(b"width=16\n", out));
    }
}

/// Three planes to be written, U and V only where there is colour.
fn written(colour: bool, [y, u, v]: &mut [Vec<u16>; 3]) -> Planes<&mut [u16]> {
    Planes { y, chroma: colour.then_some([u, v]) }
}

/// The same to be read.
fn shown(colour: bool, [y, u, v]: &[Vec<u16>; 3]) -> Planes<&[u16]> {
    Planes { y, chroma: colour.then_some([u, v]) }
}

/// A picture of 8 by 8 that is accepted, and what it is deblocked with.
#[derive(Clone)]
struct Deblock {
    w: usize,
    h: usize,
    planes: [Vec<u16>; 3],
    words: Vec<u32>,
    splits: Vec<u8>,
    motion: Vec<i16>,
    refs: Vec<i8>,
    keep: Vec<u8>,
    tables: Option<[Vec<i8>; 2]>,
    strengths: Vec<u8>,
    settings: Settings,
    colour: bool,
}

impl Deblock {
    fn good() -> Deblock {
        Deblock {
            w: 8,
            h: 8,
            planes: [vec![9; 64], vec![9; 16], vec![9; 16]],
            words: vec![51 << 16; 4],
            splits: root(&[(136, 1), (256 + 68, 1), (512 + 34, 1)]),
            motion: vec![0; 16],
            refs: vec![0; 8],
            keep: vec![1; 4],
            tables: Some([vec![51; 70], vec![51; 70]]),
            strengths: vec![3; 208],
            settings: Settings { limit: 6, u_offset: 12, v_offset: -12 },
            colour: true,
        }
    }

    /// Takes the colour away, but not the offsets.
    fn fade(&mut self) {
        self.planes[1..].iter_mut().for_each(Vec::clear);
        (self.tables, self.colour) = (None, false);
    }

    fn maps(&self) -> Maps<'_> {
        Maps {
            splits: &self.splits,
            motion: &self.motion,
            refs: &self.refs,
            keep: &self.keep,
            tables: self.tables.as_ref().map(|tables| tables.each_ref().map(|table| &table[..])),
            strengths: &self.strengths,
        }
    }

    /// Requires that it is refused with this change, and that nothing was written.
    fn refused(refusal: Refusal, change: impl FnOnce(&mut Deblock)) {
        let mut case = Deblock::good();
        change(&mut case);
        let (mut planes, mut words) = (case.planes.clone(), case.words.clone());
        let picture = Picture { w: case.w, h: case.h, planes: written(case.colour, &mut planes), words: &mut words };
        assert_eq!(deblock(picture, case.maps(), case.settings), Err(refusal));
        assert_eq!((planes, words), (case.planes, case.words));
    }
}

#[test]
fn deblocking() {
    for (w, h) in BAD_SIZES {
        Deblock::refused(Size, |case| (case.w, case.h) = (w, h));
    }
    for i in 0..3 {
        Deblock::refused(Length, |case| {
            case.planes[i].pop();
        });
        Deblock::refused(Sample, |case| case.planes[i][5] = 1024);
    }
    for i in 0..2 {
        Deblock::refused(Length, |case| case.tables.as_mut().unwrap()[i].push(0));
    }
    Deblock::refused(Length, |case| case.words.push(0));
    Deblock::refused(Length, |case| case.splits.push(0));
    Deblock::refused(Length, |case| case.motion.clear());
    Deblock::refused(Length, |case| case.refs.clear());
    Deblock::refused(Length, |case| case.keep.push(0));
    Deblock::refused(Length, |case| {
        case.strengths.pop();
    });
    for limit in [0, 4, 7, 255] {
        Deblock::refused(Setting, |case| case.settings.limit = limit);
    }
    for offset in [-128, -13, 13, 127] {
        Deblock::refused(Setting, |case| case.settings.u_offset = offset);
        Deblock::refused(Setting, |case| case.settings.v_offset = offset);
    }
    Deblock::refused(Split, |case| case.splits[136] = 2);
    Deblock::refused(Leaf, |case| case.splits[136] = 0);
    Deblock::refused(Qp, |case| case.words[3] = 52 << 16);
    // A mark of 2, also beside a QP of 52.
    Deblock::refused(Keep, |case| case.keep[3] = 2);
    Deblock::refused(Keep, |case| (case.keep[0], case.words[3]) = (255, 52 << 16));
    // Without its colour: offsets are left, or a table is lent; in colour: no table, or planes of length 0.
    Deblock::refused(Setting, Deblock::fade);
    for lengths in [[70, 0], [0, 70], [70, 70]] {
        Deblock::refused(Length, |case| {
            case.fade();
            case.tables = Some(lengths.map(|n| vec![51; n]));
        });
    }
    Deblock::refused(Length, |case| case.tables = None);
    Deblock::refused(Length, |case| {
        case.planes[1..].iter_mut().for_each(Vec::clear);
    });
    Deblock::refused(Length, |case| {
        case.fade();
        case.colour = true;
    });
}

/// A band of a picture of 8 by 72, and what is lent for it: band 0 has 64 rows, band 1 has 8 and the 64 above.
#[derive(Clone)]
struct Band {
    band: usize,
    lent: Deblock,
}

impl Band {
    /// All blocks are of 8.
    fn good(band: usize) -> Band {
        let (lent, own) = if band == 0 { (16, 16) } else { (18, 2) };
        let mut splits = root(&[(136, 1), (256 + 68, 1)]);
        if own == 16 {
            splits[256 + 196] = 1;
        }
        (0..own / 2).for_each(|i| splits[512 + 16 * (i / 2 * 4 + 2) + 2] = 1);
        let planes = [vec![9; 32 * lent], vec![9; 8 * lent], vec![9; 8 * lent]];
        let words = vec![51 << 16; 2 * lent];
        let (motion, refs, keep) = (vec![0; 8 * lent], vec![0; 4 * lent], vec![0; 2 * lent]);
        Band { band, lent: Deblock { h: 72, planes, words, splits, motion, refs, keep, ..Deblock::good() } }
    }

    fn run(&mut self, bands: &mut Bands) -> Result<(usize, usize), Refusal> {
        let case = &mut self.lent;
        let (mut planes, mut words) = (case.planes.clone(), case.words.clone());
        let part = Picture { w: case.w, h: case.h, planes: written(case.colour, &mut planes), words: &mut words };
        let answer = bands.deblock(self.band, part, case.maps(), case.settings);
        (case.planes, case.words) = (planes, words);
        answer
    }

    /// Requires that it is refused at this position with this change, that nothing was written, and that the position stays.
    fn refused(refusal: Refusal, next: usize, band: usize, change: impl FnOnce(&mut Band)) {
        let mut bands = position(next);
        let mut case = Band::good(band);
        change(&mut case);
        let before = case.clone();
        assert_eq!(case.run(&mut bands), Err(refusal));
        assert_eq!((case.lent.planes, case.lent.words), (before.lent.planes, before.lent.words));
        assert_eq!(bands, position(next));
    }
}

/// The position after so many bands of such a picture.
fn position(next: usize) -> Bands {
    let mut bands = Bands::first();
    (0..next).for_each(|band| assert_eq!(Band::good(band).run(&mut bands), Ok([(0, 14), (0, 2)][band])));
    assert_eq!(bands.next(), next);
    bands
}

#[test]
fn bands_out_of_turn() {
    for (next, band) in [(1, 0), (0, 1), (2, 0), (2, 1)] {
        Band::refused(Refusal::Band, next, band, |_| {});
    }
    // past the last: also where it is the position's next
    for band in [2, 3, 64, usize::MAX] {
        Band::refused(Refusal::Band, 2, 1, |case| case.band = band);
        Band::refused(Refusal::Band, 0, 0, |case| case.band = band);
    }
    // after 1 and before 2
    Band::refused(Size, 1, 0, |case| case.lent.h = 70);
    Band::refused(Refusal::Band, 1, 0, |case| case.lent.words.clear());
}

#[test]
fn bands() {
    for band in [0, 1] {
        for (w, h) in BAD_SIZES {
            Band::refused(Size, band, band, |case| (case.lent.w, case.lent.h) = (w, h));
        }
        for i in 0..3 {
            Band::refused(Length, band, band, |case| {
                case.lent.planes[i].pop();
            });
            Band::refused(Sample, band, band, |case| *case.lent.planes[i].last_mut().unwrap() = 1024);
        }
        for i in 0..2 {
            Band::refused(Length, band, band, |case| case.lent.tables.as_mut().unwrap()[i].push(0));
        }
        Band::refused(Length, band, band, |case| case.lent.words.push(0));
        Band::refused(Length, band, band, |case| case.lent.splits.push(0));
        Band::refused(Length, band, band, |case| case.lent.motion.clear());
        Band::refused(Length, band, band, |case| case.lent.refs.clear());
        Band::refused(Length, band, band, |case| case.lent.keep.push(0));
        Band::refused(Length, band, band, |case| case.lent.strengths.clear());
        Band::refused(Setting, band, band, |case| case.lent.settings.limit = 7);
        Band::refused(Setting, band, band, |case| case.lent.settings.u_offset = 13);
        Band::refused(Setting, band, band, |case| case.lent.settings.v_offset = -13);
        Band::refused(Split, band, band, |case| case.lent.splits[136] = 2);
        Band::refused(Leaf, band, band, |case| case.lent.splits[136] = 0);
        Band::refused(Qp, band, band, |case| *case.lent.words.last_mut().unwrap() = 52 << 16);
        Band::refused(Keep, band, band, |case| *case.lent.keep.last_mut().unwrap() = 2);
        // without its colour, or its tables alone
        Band::refused(Setting, band, band, |case| case.lent.fade());
        Band::refused(Length, band, band, |case| case.lent.tables = None);
    }
    // the whole picture's split bytes, or its rows, are too many
    Band::refused(Length, 1, 1, |case| case.lent.splits.resize(2048, 0));
    Band::refused(Length, 0, 0, |case| case.lent.planes = Band::good(1).lent.planes);
}

/// The row of units above a band is checked, and no row above that.
#[test]
fn the_row_above_a_band() {
    for (i, row) in [(0, 8), (1, 4), (2, 4)] {
        let rows = if i == 0 { 60 } else { 30 };
        Band::refused(Sample, 1, 1, |case| case.lent.planes[i][row * rows] = 1024);
        let mut higher = Band::good(1);
        higher.lent.planes[i][row * rows - 1] = 1024;
        assert_eq!(higher.run(&mut position(1)), Ok((0, 2)));
        assert_eq!(higher.lent.planes[i][row * rows - 1], 1024);
    }
    Band::refused(Qp, 1, 1, |case| case.lent.words[30] = 52 << 16);
    let mut higher = Band::good(1);
    higher.lent.words[29] = 52 << 16;
    assert_eq!(higher.run(&mut position(1)), Ok((0, 2)));
    assert_eq!((higher.lent.words[29], higher.lent.words[31]), (52 << 16, 51 << 16));
    assert_eq!(higher.lent.words[32..], [51 << 16 | DONE; 4]);
    Band::refused(Keep, 1, 1, |case| case.lent.keep[30] = 2);
    let mut higher = Band::good(1);
    higher.lent.keep[29] = 2;
    assert_eq!(higher.run(&mut position(1)), Ok((0, 2)));
}

/// A band that was refused is mended and called again.
#[test]
fn a_band_mended() {
    let mut bands = position(1);
    let mut case = Band::good(1);
    case.lent.words[30] = 52 << 16;
    assert_eq!(case.run(&mut bands), Err(Qp));
    case.lent.words[30] = 51 << 16;
    assert_eq!(case.run(&mut bands), Ok((0, 2)));
    assert_eq!(bands.next(), 2);
}

/// A picture of 8 by 8 that is accepted, and what it is made from: one block of 8, and its residual.
#[derive(Clone)]
struct Driver {
    w: usize,
    h: usize,
    /// Whether the picture has chroma, and whether the lent prediction has.
    colour: bool,
    lent: bool,
    splits: Vec<u8>,
    leaves: Vec<u8>,
    residual: Vec<i16>,
    predictions: [Vec<u16>; 3],
    planes: [Vec<u16>; 3],
    words: Vec<u32>,
    modes: Vec<u8>,
    keep: Vec<u8>,
}

impl Driver {
    fn good() -> Driver {
        let planes = [vec![1023; 64], vec![1023; 16], vec![1023; 16]];
        Driver {
            w: 8,
            h: 8,
            colour: true,
            lent: true,
            splits: root(&[(136, 1), (256 + 68, 1), (512 + 34, 1)]),
            leaves: vec![5, 51, 7, 0],
            residual: vec![-1; 96],
            predictions: planes.clone(),
            planes,
            words: vec![9; 4],
            modes: vec![9; 4],
            keep: vec![9; 4],
        }
    }

    fn run(&mut self) -> Result<(), Refusal> {
        let planes = written(self.colour, &mut self.planes);
        let picture = Picture { w: self.w, h: self.h, planes, words: &mut self.words };
        let blocks = Blocks {
            splits: &self.splits,
            leaves: &self.leaves,
            residual: &self.residual,
            predictions: shown(self.lent, &self.predictions),
            constrained: false,
        };
        reconstruct(blocks, picture, &mut self.modes, &mut self.keep)
    }

    /// The same without its colour.
    fn grey() -> Driver {
        let (leaves, residual) = (vec![5, 51, 1, 0], vec![-1; 64]);
        let mut case = Driver { colour: false, lent: false, leaves, residual, ..Driver::good() };
        case.predictions[1..].iter_mut().chain(&mut case.planes[1..]).for_each(Vec::clear);
        case
    }

    /// Requires that it is refused with this change, and that nothing was written.
    fn refused(refusal: Refusal, change: impl FnOnce(&mut Driver)) {
        Driver::good().refuses(refusal, change);
    }

    fn refuses(mut self, refusal: Refusal, change: impl FnOnce(&mut Driver)) {
        let case = &mut self;
        change(case);
        let before = case.clone();
        assert_eq!(case.run(), Err(refusal));
        let after = (self.planes, self.words, self.modes, self.keep);
        assert_eq!(after, (before.planes, before.words, before.modes, before.keep));
    }
}

#[test]
fn driving() {
    let mut good = Driver::good();
    assert_eq!(good.run(), Ok(()));
    assert_eq!(good.planes, [vec![1022; 64], vec![1022; 16], vec![1022; 16]]);
    assert_eq!(good.keep, [0; 4]);
    let mut kept = Driver::good();
    kept.leaves[3] = 1;
    assert_eq!((kept.run(), kept.keep), (Ok(()), vec![1; 4]));
    for (w, h) in BAD_SIZES {
        Driver::refused(Size, |case| (case.w, case.h) = (w, h));
    }
    for i in 0..3 {
        Driver::refused(Length, |case| {
            case.planes[i].pop();
        });
        Driver::refused(Length, |case| case.predictions[i].push(0));
        Driver::refused(Sample, |case| case.predictions[i][5] = 1024);
        // also where no leaf takes it
        Driver::refused(Sample, |case| (case.predictions[i][5], case.leaves[0]) = (1024, 0));
    }
    Driver::refused(Length, |case| case.splits.push(0));
    Driver::refused(Length, |case| {
        case.words.pop();
    });
    Driver::refused(Length, |case| case.modes.push(0));
    Driver::refused(Length, |case| case.keep.push(0));
    Driver::refused(Split, |case| case.splits[136] = 2);
    Driver::refused(Leaf, |case| case.splits[136] = 0);
    for wrong in [0, 3, 5, 8] {
        Driver::refused(Record, |case| case.leaves.resize(wrong, 0));
    }
    for wrong in [0, 95, 97] {
        Driver::refused(Record, |case| case.residual.resize(wrong, 0));
    }
    Driver::refused(Record, |case| case.leaves[2] = 8);
    Driver::refused(Record, |case| case.leaves[2] = 6);
    for keep in [2, 128, 255] {
        Driver::refused(Record, |case| case.leaves[3] = keep);
    }
    for mode in [6, 255] {
        Driver::refused(Mode, |case| (case.leaves[0], case.leaves[1]) = (mode, 52));
    }
    for qp in [52, 255] {
        Driver::refused(Qp, |case| (case.leaves[1], case.predictions[0][0]) = (qp, 1024));
    }
}

/// A grey picture: U and V are empty, and a mask has no bit of them.
#[test]
fn driving_grey() {
    let mut good = Driver::grey();
    assert_eq!(good.run(), Ok(()));
    assert_eq!(good.planes, [vec![1022; 64], vec![], vec![]]);
    for i in 1..3 {
        Driver::refused(Length, |case| case.planes[i].clear());
        Driver::grey().refuses(Length, |case| {
            case.predictions[i].push(0);
            case.lent = true;
        });
    }
    // a picture in colour that is lent no chroma to be predicted from
    Driver::refused(Length, |case| case.lent = false);
    for mask in [2, 3, 4, 7, 8] {
        Driver::grey().refuses(Record, |case| case.leaves[2] = mask);
    }
}
