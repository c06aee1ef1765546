//! Deblocking by bands.
use crate::deblock::{Maps, Settings};
use crate::lend;
use crate::picture::Picture;
use crate::refusal::{answer, Refusal};

/// A picture that is deblocked by bands, from the top: which band comes next. A band is 64 luma rows, the last one maybe fewer; they are
/// numbered from 0. Two of them are in memory at a time: the band that a call does, and the band above it.
///
/// ```
/// use lomsakeun::{Bands, Maps, Picture, Planes, Refusal, Settings};
///
/// // A picture of 64 by 160, all intra at QP 40, each band lighter by 20. Its rows come from here, and go to `shown` when they are final.
/// let (w, h) = (64, 160);
/// let sample = |band: usize| 100 + 20 * band as u16;
/// let mut shown: Vec<u16> = Vec::new();
/// let mut counts = Vec::new();
///
/// let (tables, strengths) = ([40; 70], [3; 208]);
/// let settings = Settings { limit: 6, u_offset: 0, v_offset: 0 };
/// let mut bands = Bands::first();
/// let (mut y, mut u, mut v, mut words) = (vec![], vec![], vec![], vec![]);
/// for band in 0..3 {
///     // The band's rows follow those of the band above.
///     let rows = if band < 2 { 64 } else { 32 };
///     y.resize(y.len() + w * rows, sample(band));
///     u.resize(u.len() + w * rows / 4, 500);
///     v.resize(v.len() + w * rows / 4, 500);
///     words.resize(words.len() + w * rows / 16, 40 << 16 | 1 << 15);
///     // Its own split bytes: one block of 64, and in the last band two of 32.
///     let mut splits = [0; 1024];
///     splits[136] = (rows < 64) as u8;
///     let (motion, refs, keep) = (vec![0; 4 * words.len()], vec![0; 2 * words.len()], vec![0; words.len()]);
///
///     let part = Picture { w, h, planes: Planes::colour(&mut y, &mut u, &mut v), words: &mut words };
///     let tables = Some([&tables[..]; 2]);
///     let maps = Maps { splits: &splits, motion: &motion, refs: &refs, keep: &keep, tables, strengths: &strengths };
///     counts.push(bands.deblock(band, part, maps, settings)?);
///
///     // The band above is final and is let go; the band itself is the next one's band above.
///     let above = y.len() - w * rows;
///     shown.extend(y.drain(..above));
///     u.drain(..above / 4);
///     v.drain(..above / 4);
///     words.drain(..above / 16);
/// }
/// shown.extend(y);
///
/// assert_eq!(bands.next(), 3);
/// assert_eq!(counts, [(0, 0), (0, 16), (8, 16)]);
/// let column: Vec<u16> = (0..h).map(|row| shown[row * w]).collect();
/// assert_eq!(column[60..68], [100, 100, 103, 107, 113, 117, 120, 120]);
/// assert_eq!(column[124..132], [120, 120, 123, 127, 133, 137, 140, 140]);
/// # Ok::<(), Refusal>(())
/// ```
#[derive(Clone, Debug, PartialEq, Eq)]
pub struct Bands {
    next: usize,
}

impl Bands {
    /// Band 0 comes next.
    #[inline]
    pub fn first() -> Bands {
        Bands { next: 0 }
    }

    /// The band that comes next.
    #[inline]
    pub fn next(&self) -> usize {
        self.next
    }

    /// Deblocks this band, sets done in its words, and answers how many of its edges each pass visited; the one above it is among them. Then
    /// the next band comes next; after a refusal the same.
    ///
    /// `part.w` and `part.h` are the whole picture's sides. The planes, words, motion, references and marks are those of the lent rows: the 64 of the
    /// band above, if any, followed by the band's own. The split bytes are the band's own.
    ///
    /// After a band all rows but its last two luma rows and its last two chroma rows are final. After the last one all are, and equal those
    /// of [`deblock`](crate::deblock()) over the picture, where nothing was altered between the calls.
    ///
    /// Refusals: [`Size`](Refusal::Size), [`Band`](Refusal::Band), [`Length`](Refusal::Length), [`Setting`](Refusal::Setting),
    /// [`Split`](Refusal::Split), [`Leaf`](Refusal::Leaf), and [`Keep`](Refusal::Keep), [`Qp`](Refusal::Qp) and [`Sample`](Refusal::Sample) in
    /// the band and in the 4 luma rows above it.
    #[inline]
    pub fn deblock(
        &mut self,
        band: usize,
        part: Picture,
        maps: Maps,
        settings: Settings,
    ) -> Result<(usize, usize), Refusal> {
        let Picture { w, h, planes, words } = part;
        let Maps { splits, motion, refs, keep, tables, strengths } = maps;
        let (colour, [y, u, v]) = planes.lent();
        let [table0, table1] = tables.unwrap_or_default();
        let (mut vertical, mut horizontal) = (0, 0);
        // Each pointer comes from a slice that lives through the call, with its own length, from a local, or from the position.
        let number = unsafe {
            lend!(lomsakeun_deblock_band(
                &mut self.next, band, w, h, mut y, mut u, mut v, mut words, in splits, in motion, in refs, in keep,
                in table0, in table1, in strengths, settings.limit, settings.u_offset, settings.v_offset, colour,
                &mut vertical, &mut horizontal
            ))
        };
        answer(number, (vertical, horizontal))
    }
}
