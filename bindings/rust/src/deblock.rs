//! Deblocking.
use crate::lend;
use crate::picture::Picture;
use crate::refusal::{answer, Refusal};

/// What deblocking reads of each unit and root.
#[derive(Clone, Copy, Debug)]
pub struct Maps<'a> {
    /// 1,024 bytes a root.
    pub splits: &'a [u8],
    /// Four numbers a unit: list 0 x, y, list 1 x, y.
    pub motion: &'a [i16],
    /// Two a unit.
    pub refs: &'a [i8],
    /// A mark a unit, 0 or 1: no sample of a unit marked 1 is moved.
    pub keep: &'a [u8],
    /// The chroma QP tables, U's and V's, 70 entries each; `None` in a grey picture.
    pub tables: Option<[&'a [i8]; 2]>,
    /// The strengths: four rows of 52.
    pub strengths: &'a [u8],
}

/// The settings of deblocking. Whether the picture has colour is said by its [`Planes`](crate::Planes).
#[derive(Clone, Copy, Debug)]
pub struct Settings {
    /// The transform limit, 5 or 6.
    pub limit: u8,
    /// U's offset, -12 to 12; in a grey picture 0.
    pub u_offset: i8,
    /// V's offset, -12 to 12; in a grey picture 0.
    pub v_offset: i8,
}

/// Deblocks a picture, sets done in every word, and answers how many edges each pass visited. Nothing is done for the chroma that a grey
/// picture has not. Refusals: [`Size`](Refusal::Size), [`Length`](Refusal::Length),
/// [`Setting`](Refusal::Setting), [`Split`](Refusal::Split), [`Leaf`](Refusal::Leaf), [`Keep`](Refusal::Keep), [`Qp`](Refusal::Qp),
/// [`Sample`](Refusal::Sample).
#[inline]
pub fn deblock(picture: Picture, maps: Maps, settings: Settings) -> Result<(usize, usize), Refusal> {
    deblock_by_rows(picture, maps, &[], settings)
}

/// The same, lent a map of edge rows, as [`fill_rows`](crate::fill_rows) fills it, or none, which is empty: the rows are read from it, and the planes,
/// words and counts are the same. Refusals: those of [`deblock`], a map of another length with the other lengths, and [`Rows`](Refusal::Rows) last, for
/// a map that is not right.
#[inline]
pub fn deblock_by_rows(
    picture: Picture,
    maps: Maps,
    rows: &[u8],
    settings: Settings,
) -> Result<(usize, usize), Refusal> {
    let Picture { w, h, planes, words } = picture;
    let Maps { splits, motion, refs, keep, tables, strengths } = maps;
    let (colour, [y, u, v]) = planes.lent();
    let [table0, table1] = tables.unwrap_or_default();
    let (mut vertical, mut horizontal) = (0, 0);
    // Each pointer comes from a slice that lives through the call, with its own length, or from a local.
    let number = unsafe {
        lend!(lomsakeun_deblock_by_rows(
            w, h, mut y, mut u, mut v, mut words, in splits, in motion, in refs, in keep, in rows, in table0,
            in table1, in strengths, settings.limit, settings.u_offset, settings.v_offset, colour, &mut vertical,
            &mut horizontal
        ))
    };
    answer(number, (vertical, horizontal))
}
