//! Safe calls of the Lomsakeun decoder, whose proved archive this crate links: chroma QP tables, neighbour availability, mode ranks,
//! gathering, intra prediction, residual addition, the split tree with its edges, the block driver, deblocking, of a picture at once or by bands,
//! maps of edge rows, pictures as YUV4MPEG2 streams, and the ward's screen.
//!
//! Every call accepts every input. A bad one answers a [`Refusal`] and leaves every lent slice as it was; nothing is trusted, and each
//! slice's length goes with it. Places and sizes are in luma samples unless a call says units (4x4 luma samples); planes and maps are flat,
//! row by row. Each function is a thin wrapper and marked `inline`, so that a call is one call of the archive.
//!
//! ```
//! use lomsakeun::{ipred_b, list_edges, recon, Refusal};
//!
//! // A block of 4x4: predicted from its neighbours (left downwards, the corner, up rightwards), then its residual added.
//! let mut run = [100u16; 17];
//! run[9..].fill(101);
//! let mut block = [0u16; 16];
//! ipred_b(0, 4, &run, &mut block)?;
//! assert_eq!(block, [101; 16]);
//! let mut rec = [0u16; 16];
//! recon(true, 4, &block, &[-1; 16], &mut rec)?;
//! assert_eq!(rec, [100; 16]);
//!
//! // A sample over 1023 is refused, and nothing is written.
//! run[0] = 1024;
//! assert_eq!(ipred_b(0, 4, &run, &mut block), Err(Refusal::Sample));
//! assert_eq!(block, [101; 16]);
//!
//! // The edges of a picture of 16 by 8: its blocks of 64, 32 and 16 at the corner are cut, and so is the left block of 8.
//! let mut splits = [0u8; 1024];
//! splits[136] = 1;
//! splits[256 + 68] = 1;
//! splits[512 + 34] = 1;
//! splits[768 + 17] = 1;
//! let (mut vertical, mut horizontal) = ([0u16; 16], [0u16; 16]);
//! assert_eq!(list_edges(16, 8, &splits, 6, &mut vertical, &mut horizontal), Ok((4, 2)));
//! assert_eq!(vertical[..8], [4, 0, 4, 4, 8, 0, 8, 4]);
//! assert_eq!(horizontal[..4], [0, 4, 4, 4]);
//! # Ok::<(), Refusal>(())
//! ```
//!
//! # What is lent
//!
//! How many elements each slice has. w and h are the sides of the picture, or of what a call says it is lent of one.
//!
//! | | colour | grey |
//! |---|---|---|
//! | y of [`Planes`] | w*h | w*h |
//! | chroma of [`Planes`] | two of (w/2)*(h/2) | `None` |
//! | the chroma QP tables | two of 70, the chroma QP of QP q at 12 + q | `None` |
//! | chroma offsets | -12..=12 | 0 |
//! | a leaf's mask | 0..=7 | 0 or 1 |
//!
//! | in both formats | |
//! |---|---|
//! | words | (w/4)*(h/4), a word a unit, row by row: bit 15 intra, 16..=22 QP, 24 luma-coded, 31 done |
//! | modes | (w/4)*(h/4), a byte a unit: 0 DC, 1 horizontal, 2 vertical, 3 UL, 4 UR, 255 none |
//! | keep | (w/4)*(h/4), a byte a unit: 1 where deblocking moves no sample, else 0 |
//! | rows | (w/4)*(h/4), a byte a unit |
//! | motion, refs | four numbers a unit, list 0 x, y, list 1 x, y; and two |
//! | splits | 1024 a root of 64x64, roots row by row. The byte of a block of 64, 32, 16 or 8 is at 256*level + 16*row + column, level 0 to 3, with the row and column of the unit at its centre, in its root. It is 1 where the block is cut and else 0; bytes that no such block has may be anything |
//! | strengths | 4*52: four rows, an entry a QP |
//! | leaves, residual | 4 bytes a leaf, and the samples of the blocks that the masks name |
//! | run | 4*n + 1, n being the block's side in its component: left downwards, the corner, up rightwards |
//!
//! What a call only writes may hold anything at entry: so the planes, the words, the modes and the keep bytes of [`reconstruct`].
#![deny(missing_docs)]

mod bands;
mod blocks;
mod chroma;
mod deblock;
mod driver;
mod lend;
mod mend;
mod neighbours;
mod pack;
mod picture;
mod refusal;
mod rows;
mod screen;
mod streams;
pub mod sys;
mod tree;

pub use bands::Bands;
pub use blocks::{get_nbr, ipred_b, recon, recon_plane, Component};
pub use chroma::{derived_chroma_qp_mapping_tables, Points};
pub use deblock::{deblock, deblock_by_rows, Maps, Settings};
pub use driver::{reconstruct, Blocks};
pub use mend::{changes, mend, Change, CHANGES_LENGTH};
pub use neighbours::{get_avail_inter, get_avail_intra, get_mpm, Neighbours};
pub use pack::{get_map, put_map, Reader, Writer};
pub use picture::{Picture, Planes};
pub use refusal::Refusal;
pub use rows::{fill_rows, set_flag, set_motion, Flag, Motion};
pub use screen::{Run, Shown, Turn, Window};
pub use streams::{
    frame_length, import_frame, read_frame, read_header, write_frame, write_header, Header, Misread, HEADER_LENGTH,
};
pub use tree::{check, leaves, list_edges, listing, visiting_rank, LEAVES_LENGTH, LISTING_LENGTH};
