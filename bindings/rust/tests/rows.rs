//! The map of edge rows: filled, edited, and each refusal, with what it must answer and that nothing else is written.
use lomsakeun::Refusal::{Block, Length, Size};
use lomsakeun::*;

const INTRA: u32 = 1 << 15;
const CODED: u32 = 1 << 24;

/// The maps of a picture of 3 by 3 units, all at rest, with a map of edge rows.
#[derive(Clone, Debug, PartialEq)]
struct Held {
    words: [u32; 9],
    motion: [i16; 36],
    refs: [i8; 18],
    rows: [u8; 9],
}

const AT_REST: Held = Held { words: [0; 9], motion: [0; 36], refs: [0; 18], rows: [255; 9] };

impl Held {
    fn fill(&mut self) {
        fill_rows(12, 12, &self.words, &self.motion, &self.refs, &mut self.rows).unwrap();
    }

    fn moved(&mut self, x: usize, y: usize, moved: Motion) {
        set_motion(12, 12, x, y, moved, &self.words, &mut self.motion, &mut self.refs, &mut self.rows).unwrap();
    }

    fn flagged(&mut self, x: usize, y: usize, flag: Flag, on: bool) {
        set_flag(12, 12, x, y, flag, on, &mut self.words, &self.motion, &self.refs, &mut self.rows).unwrap();
    }

    /// The map is the one that is filled anew.
    fn right(&self) {
        let mut anew = self.clone();
        anew.rows = [255; 9];
        anew.fill();
        assert_eq!(anew.rows, self.rows);
    }
}

/// Row 3 left and above, and 0 at the picture's sides.
#[test]
fn filled() {
    let mut held = AT_REST;
    held.fill();
    assert_eq!(held.rows, [0, 3, 3, 12, 15, 15, 12, 15, 15]);
}

/// Motion that differs by 3 keeps row 3, by 4 makes it row 2; a flag makes it 1 or 0: on the unit's four edges.
#[test]
fn edited() {
    let mut held = AT_REST;
    held.fill();
    held.moved(1, 1, Motion { x0: 3, ..Motion::default() });
    assert_eq!(held.rows, [0, 3, 3, 12, 15, 15, 12, 15, 15]);
    held.moved(1, 1, Motion { x0: 4, ..Motion::default() });
    assert_eq!(held.rows, [0, 3, 3, 12, 10, 14, 12, 11, 15]);
    assert_eq!((held.motion[16..20].to_vec(), held.refs), (vec![4, 0, 0, 0], [0; 18]));
    held.flagged(1, 1, Flag::Coded, true);
    assert_eq!(held.rows, [0, 3, 3, 12, 5, 13, 12, 7, 15]);
    assert_eq!(held.words[4], CODED);
    held.flagged(1, 1, Flag::Intra, true);
    assert_eq!(held.rows, [0, 3, 3, 12, 0, 12, 12, 3, 15]);
    assert_eq!(held.words[4], CODED | INTRA);
    held.flagged(1, 1, Flag::Intra, false);
    held.flagged(1, 1, Flag::Coded, false);
    held.moved(1, 1, Motion::default());
    assert_eq!(held, Held { rows: [0, 3, 3, 12, 15, 15, 12, 15, 15], ..AT_REST });
    for unit in 0..9 {
        let moved = Motion { refi0: unit as i8 - 4, y1: 100 * unit as i16, ..Motion::default() };
        held.moved(unit % 3, unit / 3, moved);
        held.right();
        held.flagged(2 - unit % 3, unit / 3, if unit % 2 == 0 { Flag::Coded } else { Flag::Intra }, true);
        held.right();
    }
}

/// In a wrong map the four edges are set, and no other bit.
#[test]
fn wrong_before() {
    let mut held = AT_REST;
    held.flagged(1, 1, Flag::Coded, true);
    assert_eq!(held.rows, [255, 255, 255, 255, 0xf5, 0xfd, 255, 0xf7, 255]);
    // at a corner there are two neighbours or none, and the sides' bits are 0
    held.rows = [255; 9];
    held.flagged(0, 0, Flag::Intra, true);
    assert_eq!(held.rows, [0xf0, 0xfc, 255, 0xf3, 255, 255, 255, 255, 255]);
    held.rows = [255; 9];
    held.flagged(2, 2, Flag::Intra, true);
    assert_eq!(held.rows, [255, 255, 255, 255, 255, 255, 255, 255, 0xf0]);
}

/// A refusal, of each call, and that nothing was written.
fn refused(refusal: Refusal, w: usize, h: usize, (x, y): (usize, usize), lengths: [usize; 4], units: bool) {
    let words = vec![7u32; lengths[0]];
    let motion = vec![8i16; lengths[1]];
    let refs = vec![9i8; lengths[2]];
    let rows = vec![10u8; lengths[3]];
    let (mut w2, mut m, mut r, mut map) = (words.clone(), motion.clone(), refs.clone(), rows.clone());
    if !units {
        assert_eq!(fill_rows(w, h, &words, &motion, &refs, &mut map), Err(refusal));
    }
    assert_eq!(set_motion(w, h, x, y, Motion::default(), &words, &mut m, &mut r, &mut map), Err(refusal));
    for flag in [Flag::Intra, Flag::Coded] {
        assert_eq!(set_flag(w, h, x, y, flag, true, &mut w2, &motion, &refs, &mut map), Err(refusal));
    }
    assert_eq!((w2, m, r, map), (words, motion, refs, rows));
}

#[test]
fn refusals() {
    for (w, h) in [(0, 8), (8, 0), (6, 8), (8, 6), (4100, 8), (8, 4100), (1 << 32, 8), (8, usize::MAX)] {
        refused(Size, w, h, (9, 9), [0; 4], false);
    }
    let good = [4, 16, 8, 4];
    for slice in 0..4 {
        for other in [0, good[slice] - 1, good[slice] + 1, 2 * good[slice]] {
            let mut lengths = good;
            lengths[slice] = other;
            refused(Length, 8, 8, (9, 9), lengths, false);
        }
    }
    for place in [(2, 0), (0, 2), (2, 2), (usize::MAX, 0), (0, usize::MAX), (1 << 32, 0)] {
        refused(Block, 8, 8, place, good, true);
    }
}

/// Two units beside each other with a step between them, filtered by a map: the same planes, and 19 for a map that is not right, after 7.
#[test]
fn by_rows() {
    let (words, motion, refs, keep) = ([30 << 16; 2], [0; 8], [0; 4], [0; 2]);
    let mut splits = [0; 1024];
    for at in [136, 256 + 68, 512 + 34, 768 + 17] {
        splits[at] = 1;
    }
    let (table, mut strengths) = ([20; 70], [0; 208]);
    strengths[3 * 52 + 30] = 3;
    let tables = Some([&table[..]; 2]);
    let maps = Maps { splits: &splits, motion: &motion, refs: &refs, keep: &keep, tables, strengths: &strengths };
    let settings = Settings { limit: 6, u_offset: 0, v_offset: 0 };
    let run = |rows: &[u8], first: u16| {
        let mut y: Vec<u16> = (0..32).map(|i| if i % 8 < 4 { 100 } else { 120 }).collect();
        y[0] = first;
        let (mut u, mut v, mut words) = ([7; 8], [9; 8], words);
        let picture = Picture { w: 8, h: 4, planes: Planes::colour(&mut y, &mut u, &mut v), words: &mut words };
        (deblock_by_rows(picture, maps, rows, settings), y, u, v, words)
    };
    let mut rows = [255; 2];
    fill_rows(8, 4, &words, &motion, &refs, &mut rows).unwrap();
    assert_eq!(rows, [0, 3]);
    let plain = run(&[], 100);
    assert_eq!(plain.0, Ok((1, 0)));
    assert_eq!(plain.1[..8], [100, 100, 103, 107, 113, 117, 120, 120]);
    assert_eq!(run(&rows, 100), plain);
    for (rows, first, refusal) in [
        (&[0, 2][..], 100, Refusal::Rows),
        (&[16, 3], 100, Refusal::Rows),
        (&[0, 2], 1024, Refusal::Sample),
        (&[0], 100, Length),
    ] {
        let refused = run(rows, first);
        assert_eq!(refused.0, Err(refusal));
        assert_eq!((refused.1[1..8].to_vec(), refused.4), (vec![100, 100, 100, 120, 120, 120, 120], words));
    }
}
