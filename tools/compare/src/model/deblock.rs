//! Deblocking: the checks, the strength rows, the line filter, both passes.
use super::walk::{self, Leaf};
use super::*;

/// All that deblocking is lent to read.
#[derive(Clone, Copy)]
pub struct Given<'a> {
    pub w: usize,
    pub h: usize,
    pub splits: &'a [u8],
    pub motion: &'a [i16],
    pub refs: &'a [i8],
    pub keep: &'a [u8],
    pub tables: [&'a [i8]; 2],
    pub strengths: &'a [u8],
    pub limit: usize,
    pub offsets: [i64; 2],
    pub colour: bool,
}

impl Given<'_> {
    /// The samples of a plane of h luma rows: a grey picture has none of colour.
    fn plane_len(&self, chroma: bool, h: usize) -> usize {
        if chroma && !self.colour {
            0
        } else {
            plane_len(chroma, self.w, h)
        }
    }
}

/// The luma rows that planes and maps are lent for: so many, of which the last are the call's own, and of which the first are not judged.
pub struct Rows {
    pub lent: usize,
    pub own: usize,
    pub unjudged: usize,
}

/// The number and the two passes' edge counts.
pub fn deblock(given: &Given, planes: [&mut [u16]; 3], words: &mut [u32]) -> (u32, usize, usize) {
    if !size_ok(given.w, given.h) {
        return (SIZE, 0, 0);
    }
    deblock_rows(given, &Rows { lent: given.h, own: given.h, unjudged: 0 }, planes, words)
}

/// The same of some rows of a picture, its size being right: those edges that lie on the left or on top of a leaf of the call's own rows.
pub fn deblock_rows(given: &Given, rows: &Rows, planes: [&mut [u16]; 3], words: &mut [u32]) -> (u32, usize, usize) {
    let leaves = match check(given, rows, [&*planes[0], &*planes[1], &*planes[2]], words) {
        Ok(leaves) => leaves,
        Err(number) => return (number, 0, 0),
    };
    let above = rows.lent - rows.own;
    let leaves: Vec<Leaf> = leaves.into_iter().map(|leaf| Leaf { y: above + leaf.y, ..leaf }).collect();
    let [y, u, v] = planes;
    let vertical = walk::vertical(given.w, rows.lent, &leaves, given.limit);
    let horizontal = walk::horizontal(&leaves, given.limit);
    for (edges, along) in [(&vertical, false), (&horizontal, true)] {
        for &(qx, qy) in edges {
            let edge = Edge::new(given, words, qx / 4, qy / 4, along);
            edge.filter(y, given.w, edge.entry(None), (qx, qy), 4);
            if !given.colour {
                continue;
            }
            let place = (qx / 2, qy / 2);
            edge.filter(u, given.w / 2, edge.entry(Some((0, 0))), place, 2);
            edge.filter(v, given.w / 2, edge.entry(Some((1, 1))), place, 2);
        }
    }
    words[(given.w / 4) * (above / 4)..].iter_mut().for_each(|word| *word |= 1 << 31);
    (DONE, vertical.len(), horizontal.len())
}

/// The checks from the lengths on, in their order; the leaves of an accepted walk over the call's own rows.
fn check(given: &Given, rows: &Rows, planes: [&[u16]; 3], words: &[u32]) -> Result<Vec<Leaf>, u32> {
    if !lengths_ok(given, rows, planes, words) {
        return Err(LENGTH);
    }
    let most = if given.colour { 12 } else { 0 };
    let offsets_ok = given.offsets.iter().all(|offset| (-most..=most).contains(offset));
    if ![5, 6].contains(&given.limit) || !offsets_ok {
        return Err(SETTING);
    }
    let leaves = walk::leaves(given.w, rows.own, walk::cut_by(given.splits, given.w))?;
    let units = (given.w / 4) * (rows.unjudged / 4);
    if !given.keep[units..].iter().all(|&mark| mark <= 1) {
        return Err(KEEP);
    }
    if !words[units..].iter().all(|&word| qp_of(word) <= 51) {
        return Err(QP);
    }
    let judged = |(plane, chroma): (&&[u16], bool)| samples_ok(&plane[given.plane_len(chroma, rows.unjudged)..]);
    if !planes.iter().zip([false, true, true]).all(judged) {
        return Err(SAMPLE);
    }
    Ok(leaves)
}

fn lengths_ok(given: &Given, rows: &Rows, planes: [&[u16]; 3], words: &[u32]) -> bool {
    let (w, h) = (given.w, rows.lent);
    let units = (w / 4) * (h / 4);
    let roots = w.div_ceil(64) * rows.own.div_ceil(64);
    planes.iter().zip([false, true, true]).all(|(plane, chroma)| plane.len() == given.plane_len(chroma, h))
        && words.len() == units
        && given.splits.len() == 1024 * roots
        && given.motion.len() == 4 * units
        && given.refs.len() == 2 * units
        && given.keep.len() == units
        && given.tables.iter().all(|table| table.len() == if given.colour { 70 } else { 0 })
        && given.strengths.len() == 208
}

fn qp_of(word: u32) -> i64 {
    (word as i64 >> 16) & 127
}

/// The mapped chroma QP.
fn mapped(given: &Given, table: usize, offset: usize, qp: i64) -> i64 {
    let at = (qp + given.offsets[offset]).clamp(-12, 57);
    given.tables[table][(12 + at) as usize] as i64
}

/// Whether U's lookup and V's, in a picture that has them, lie inside 0..51, where the Rust has entries.
fn lookups_fit(given: &Given, word: u32) -> bool {
    !given.colour || (0..2).all(|plane| (0..=51).contains(&mapped(given, plane, plane, qp_of(word))))
}

/// One unit edge: Q is the current unit, P the one left or above.
struct Edge<'a> {
    given: &'a Given<'a>,
    row: usize,
    qp: i64,
    along: bool,
    /// Whether P is kept, and Q.
    kept: [bool; 2],
}

impl<'a> Edge<'a> {
    fn new(given: &'a Given, words: &[u32], qx: usize, qy: usize, along: bool) -> Edge<'a> {
        let wide = given.w / 4;
        let q = qy * wide + qx;
        let p = if along { q - wide } else { q - 1 };
        let kept = [given.keep[p] == 1, given.keep[q] == 1];
        Edge { given, row: row((given.motion, given.refs), words, q, p), qp: qp_of(words[q]), along, kept }
    }

    /// The strength entry, for luma or for a chroma plane's table and offset: that of the nearest end where the mapped QP has none.
    fn entry(&self, chroma: Option<(usize, usize)>) -> i64 {
        let qp = chroma.map_or(self.qp, |(table, offset)| mapped(self.given, table, offset, self.qp));
        self.given.strengths[52 * self.row + qp.clamp(0, 51) as usize] as i64
    }

    /// Filters the edge's lines in one plane, the first of Q's samples being at (x, y). A and B are P's, C and D are Q's: what is kept stays.
    fn filter(&self, plane: &mut [u16], w: usize, entry: i64, (x, y): (usize, usize), lines: usize) {
        let (across, next) = if self.along { (w, 1) } else { (1, w) };
        for i in 0..lines {
            let c = y * w + x + i * next;
            let places = [c - 2 * across, c - across, c, c + across];
            let filtered = line(places.map(|place| plane[place]), entry, lines == 4);
            for (k, (place, sample)) in places.into_iter().zip(filtered).enumerate() {
                if !self.kept[k / 2] {
                    plane[place] = sample;
                }
            }
        }
    }
}

/// The strength row of Q and P, by the picture's motion and references.
pub fn row(moved: (&[i16], &[i8]), words: &[u32], q: usize, p: usize) -> usize {
    let either = |bit: u32| (words[q] >> bit | words[p] >> bit) & 1 == 1;
    if either(15) {
        0
    } else if either(24) {
        1
    } else {
        match differences(moved, q, p) {
            Some(list) if list.iter().all(|d| d.abs() < 4) => 3,
            _ => 2,
        }
    }
}

/// The motion differences where the references are equal in place or crosswise; a negative reference's motion
/// counts as 0.
fn differences((motions, references): (&[i16], &[i8]), q: usize, p: usize) -> Option<[i64; 4]> {
    let refs = |unit: usize| [references[2 * unit], references[2 * unit + 1]];
    let motion = |unit: usize, list: usize, i: usize| {
        let counts = refs(unit)[list] >= 0;
        if counts {
            motions[4 * unit + 2 * list + i] as i64
        } else {
            0
        }
    };
    let ([q0, q1], [p0, p1]) = (refs(q), refs(p));
    let other = if q0 == p0 && q1 == p1 {
        [0, 1]
    } else if q0 == p1 && q1 == p0 {
        [1, 0]
    } else {
        return None;
    };
    let difference = |k: usize| motion(q, k / 2, k % 2) - motion(p, other[k / 2], k % 2);
    Some([0, 1, 2, 3].map(difference))
}

/// Whether an accepted picture lies in the Rust's domain as to its marks, its size, its chroma QPs and its motion: nothing is kept, at most 65,536
/// units, both chroma tables alike, for on vertical edges the Rust reads the first for V, every lookup inside 0..51, and the differences that it takes, up to the first of 4 or more at each visited
/// edge, inside -32767..32767.
pub fn fits(given: &Given, words: &[u32]) -> bool {
    let wide = given.w / 4;
    let leaves = walk::leaves(given.w, given.h, walk::cut_by(given.splits, given.w)).unwrap();
    let vertical = walk::vertical(given.w, given.h, &leaves, given.limit);
    let horizontal = walk::horizontal(&leaves, given.limit);
    let unit = |(x, y): (usize, usize)| (y / 4) * wide + x / 4;
    let mut pairs = vertical.iter().map(|&edge| (unit(edge), unit(edge) - 1)).collect::<Vec<_>>();
    pairs.extend(horizontal.iter().map(|&edge| (unit(edge), unit(edge) - wide)));
    given.keep.iter().all(|&mark| mark == 0)
        && words.len() <= 65536
        && given.tables[0] == given.tables[1]
        && words.iter().all(|&word| lookups_fit(given, word))
        && pairs.iter().all(|&(q, p)| taken_fit(given, words, q, p))
}

fn taken_fit(given: &Given, words: &[u32], q: usize, p: usize) -> bool {
    let marked = |unit: usize| (words[unit] >> 15 | words[unit] >> 24) & 1 == 1;
    let list = differences((given.motion, given.refs), q, p).unwrap_or([0; 4]);
    let last = list.iter().position(|d| d.abs() >= 4).unwrap_or(3);
    marked(q) || marked(p) || list[..=last].iter().all(|d| d.abs() <= 32767)
}

/// One line A B | C D. An entry of 0 leaves it untouched; chroma writes B and C only.
pub fn line(samples: [u16; 4], entry: i64, luma: bool) -> [u16; 4] {
    if entry == 0 {
        return samples;
    }
    let [a, b, c, d] = samples.map(i64::from);
    let delta = (a - 4 * b + 4 * c - d) / 8;
    let over = (2 * (delta.abs() - 4 * entry)).max(0);
    let clip = (delta.abs() - over).max(0);
    let d1 = if delta < 0 { -clip } else { clip };
    let d2 = if luma { ((a - d) / 4).clamp(-(clip / 2), clip / 2) } else { 0 };
    let held = |v: i64| v.clamp(0, 1023) as u16;
    let [outer_a, outer_d] = if luma { [held(a - d2), held(d + d2)] } else { [samples[0], samples[3]] };
    [outer_a, held(b + d1), held(c - d1), outer_d]
}
