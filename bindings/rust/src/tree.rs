//! The split tree and its edges, and the listing of a sheet.
use crate::lend;
use crate::refusal::{answer, Refusal};

/// The length of a root's list of leaves: three numbers for each of at most 256.
pub const LEAVES_LENGTH: usize = 768;

/// The length of the buffer that a sheet's listing is written to.
pub const LISTING_LENGTH: usize = 81920;

/// Whether the walk over a picture's split bytes, 1,024 a root, is accepted. Refusals: [`Size`](Refusal::Size), [`Length`](Refusal::Length),
/// and [`Split`](Refusal::Split) or [`Leaf`](Refusal::Leaf) as the walk meets them.
#[inline]
pub fn check(w: usize, h: usize, splits: &[u8]) -> Result<(), Refusal> {
    // The pointer comes from a slice that lives through the call, with its own length.
    answer(unsafe { lend!(lomsakeun_check(w, h, in splits)) }, ())
}

/// The leaves of the root at (x, y), in the order of the walk: x, y and side of each go to `out`, of [`LEAVES_LENGTH`] numbers. Answers how
/// many. Refusals: those of [`check`] for that root, and [`Block`](Refusal::Block).
#[inline]
pub fn leaves(w: usize, h: usize, splits: &[u8], x: usize, y: usize, out: &mut [u16]) -> Result<usize, Refusal> {
    let mut count = 0;
    // As above, and a local.
    let number = unsafe { lend!(lomsakeun_leaves(w, h, in splits, x, y, mut out, &mut count)) };
    answer(number, count)
}

/// The visiting rank of the unit of column x and row y of a root, each below 16. Refusal: [`Block`](Refusal::Block).
#[inline]
pub fn visiting_rank(x: usize, y: usize) -> Result<u8, Refusal> {
    let mut rank = 0;
    // A local.
    let number = unsafe { lend!(lomsakeun_visiting_rank(x, y, &mut rank)) };
    answer(number, rank)
}

/// The edges that each pass of deblocking visits, in order: x and y of each edge's first luma sample of Q, into two buffers of two numbers a
/// unit. Answers how many edges each pass has. Refusals: those of [`check`], and [`Setting`](Refusal::Setting).
#[inline]
pub fn list_edges(
    w: usize,
    h: usize,
    splits: &[u8],
    limit: u8,
    vertical: &mut [u16],
    horizontal: &mut [u16],
) -> Result<(usize, usize), Refusal> {
    let (mut vertical_count, mut horizontal_count) = (0, 0);
    // As above, and two locals.
    let number = unsafe {
        lend!(lomsakeun_list_edges(
            w, h, in splits, limit, mut vertical, mut horizontal, &mut vertical_count, &mut horizontal_count
        ))
    };
    answer(number, (vertical_count, horizontal_count))
}

/// The text that `edgelist` prints for a sheet, a refusal's line too: put first into `out`, of [`LISTING_LENGTH`] bytes. Answers how long it
/// is. Refusal: [`Length`](Refusal::Length).
#[inline]
pub fn listing(input: &[u8], out: &mut [u8]) -> Result<usize, Refusal> {
    let mut length = 0;
    // As above.
    let number = unsafe { lend!(lomsakeun_listing(in input, mut out, &mut length)) };
    answer(number, length)
}
