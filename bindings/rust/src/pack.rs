//! A split map in its compact form: a writer and a reader over a lent part of a buffer, each with its position in bits.
use crate::lend;
use crate::refusal::{answer, Refusal};

/// The split map of a picture of `w` by `h` goes into `buf` by its digits, from position `*at` on, in bits: it starts on a byte, and `*at` moves
/// on behind it. On a refusal buffer and position are as they were. Refusals: those of [`check`](crate::check), then [`Bits`](Refusal::Bits)
/// where the room is less than the map's own bytes.
#[inline]
pub fn put_map(w: usize, h: usize, splits: &[u8], buf: &mut [u8], at: &mut usize) -> Result<(), Refusal> {
    // The pointers come from slices that live through the call, with their own lengths; the borrows keep them apart.
    let number = unsafe { lend!(lomsakeun_put_map(w, h, in splits, mut buf, at)) };
    answer(number, ())
}

/// The split map of a picture of `w` by `h` is read from `src`, from position `*at` on, in bits, into `map`, 1,024 bytes a root: the same blocks,
/// and 0 at every place that the walk does not reach. On a refusal map and position are as they were. Refusals: [`Size`](Refusal::Size),
/// [`Length`](Refusal::Length), then [`Leaf`](Refusal::Leaf), or [`Bits`](Refusal::Bits) where the bits run out, as the walk meets them, then
/// [`Bits`](Refusal::Bits) for a fill bit that is not 0.
#[inline]
pub fn get_map(w: usize, h: usize, src: &[u8], at: &mut usize, map: &mut [u8]) -> Result<(), Refusal> {
    // As above.
    let number = unsafe { lend!(lomsakeun_get_map(w, h, in src, at, mut map)) };
    answer(number, ())
}

/// Writes maps into a lent part of a buffer, one after the other.
pub struct Writer<'a> {
    buf: &'a mut [u8],
    at: usize,
}

impl<'a> Writer<'a> {
    /// A writer at the start of `buf`.
    pub fn new(buf: &'a mut [u8]) -> Writer<'a> {
        Writer { buf, at: 0 }
    }

    /// The position of the next map, in bits.
    pub fn at(&self) -> usize {
        self.at
    }

    /// Writes a map, as [`put_map`] does.
    pub fn write(&mut self, w: usize, h: usize, splits: &[u8]) -> Result<(), Refusal> {
        put_map(w, h, splits, self.buf, &mut self.at)
    }
}

/// Reads maps from a lent part of a buffer, one after the other.
pub struct Reader<'a> {
    src: &'a [u8],
    at: usize,
}

impl<'a> Reader<'a> {
    /// A reader at the start of `src`.
    pub fn new(src: &'a [u8]) -> Reader<'a> {
        Reader { src, at: 0 }
    }

    /// The position of the next map, in bits.
    pub fn at(&self) -> usize {
        self.at
    }

    /// Reads a map, as [`get_map`] does.
    pub fn read(&mut self, w: usize, h: usize, map: &mut [u8]) -> Result<(), Refusal> {
        get_map(w, h, self.src, &mut self.at, map)
    }
}
