//! YUV4MPEG2 streams of 10 bits, `C420p10`: a header, a frame, and the first frame of a stream.
use crate::lend;
use crate::picture::Planes;
use crate::refusal::{answer, Refusal};

/// The length of the buffer that a header is written to.
pub const HEADER_LENGTH: usize = 256;

/// The bytes of the frame of a picture of w by h: its line, and two a sample.
pub const fn frame_length(w: usize, h: usize) -> usize {
    6 + 2 * (w * h + 2 * (w / 2) * (h / 2))
}

/// What a header says.
#[derive(Clone, Copy, Debug, PartialEq, Eq)]
pub struct Header {
    /// The picture's width.
    pub w: usize,
    /// The picture's height.
    pub h: usize,
    /// Frames a second, as a fraction: (0, 0) where the header has none.
    pub rate: (usize, usize),
    /// The aspect of a sample, as a fraction: (0, 0) where the header has none.
    pub aspect: (usize, usize),
}

/// Why a stream was refused.
#[derive(Clone, Copy, Debug, PartialEq, Eq)]
pub struct Misread {
    /// The refusal.
    pub refusal: Refusal,
    /// For [`Stream`](Refusal::Stream) the place of the byte that offends, counted from the stream's first; else 0.
    pub at: usize,
}

impl std::fmt::Display for Misread {
    fn fmt(&self, f: &mut std::fmt::Formatter<'_>) -> std::fmt::Result {
        match self.refusal {
            Refusal::Stream => write!(f, "{} at byte {}", self.refusal, self.at),
            _ => self.refusal.fmt(f),
        }
    }
}

impl std::error::Error for Misread {}

/// What a call says that reads a header.
#[derive(Default)]
struct Told {
    w: usize,
    h: usize,
    rate: (usize, usize),
    aspect: (usize, usize),
    next: usize,
    at: usize,
}

impl Told {
    #[inline]
    fn answer(self, number: u8) -> Result<(Header, usize), Misread> {
        let Told { w, h, rate, aspect, next, at } = self;
        answer(number, (Header { w, h, rate, aspect }, next)).map_err(|refusal| Misread { refusal, at })
    }
}

/// The header at the start of a stream, of which at most 256 bytes are read, and the place after it. Refusals: [`Stream`](Refusal::Stream),
/// [`Size`](Refusal::Size).
#[inline]
pub fn read_header(stream: &[u8]) -> Result<(Header, usize), Misread> {
    let mut told = Told::default();
    let Told { w, h, rate: (f, g), aspect: (a, b), next, at } = &mut told;
    // The pointer comes from a slice that lives through the call, with its own length; the others are locals.
    let number = unsafe { lend!(lomsakeun_read_header(in stream, w, h, f, g, a, b, next, at)) };
    told.answer(number)
}

/// The header of a picture's stream, at the start of [`HEADER_LENGTH`] bytes; answers how many it has. `colour`: the picture has chroma. Refusals:
/// [`Size`](Refusal::Size), [`Length`](Refusal::Length), [`Setting`](Refusal::Setting).
#[inline]
pub fn write_header(colour: bool, header: Header, out: &mut [u8]) -> Result<usize, Refusal> {
    let mut count = 0;
    let Header { w, h, rate: (f, g), aspect: (a, b) } = header;
    // As above, and a local.
    let number = unsafe { lend!(lomsakeun_write_header(colour, w, h, f, g, a, b, mut out, &mut count)) };
    answer(number, count)
}

/// The frame at a place of a stream, into the planes of a picture of w by h; answers the place after it. A frame has colour: that no chroma is lent
/// for it is a length. Refusals: [`Size`](Refusal::Size),
/// [`Length`](Refusal::Length), [`Stream`](Refusal::Stream), [`Short`](Refusal::Short), [`Sample`](Refusal::Sample).
#[inline]
pub fn read_frame(
    stream: &[u8],
    place: usize,
    w: usize,
    h: usize,
    planes: Planes<&mut [u16]>,
) -> Result<usize, Misread> {
    let (mut next, mut at) = (0, 0);
    let (_, [y, u, v]) = planes.lent();
    // As above: the planes are three slices that are borrowed as mutable, so that none overlaps another.
    let number =
        unsafe { lend!(lomsakeun_read_frame(in stream, place, w, h, mut y, mut u, mut v, &mut next, &mut at)) };
    answer(number, next).map_err(|refusal| Misread { refusal, at })
}

/// A picture's frame, into exactly its [`frame_length`] bytes. Refusals: [`Size`](Refusal::Size), [`Length`](Refusal::Length),
/// [`Setting`](Refusal::Setting) for a grey picture, [`Sample`](Refusal::Sample).
#[inline]
pub fn write_frame(w: usize, h: usize, planes: Planes<&[u16]>, out: &mut [u8]) -> Result<(), Refusal> {
    let (colour, [y, u, v]) = planes.lent();
    // As above.
    let number = unsafe { lend!(lomsakeun_write_frame(colour, w, h, in y, in u, in v, mut out)) };
    answer(number, ())
}

/// The first frame of a stream, into planes of the lengths of its header's picture; answers what the header says, and the place after the frame.
/// Refusals: those of [`read_header`], and then those of [`read_frame`].
#[inline]
pub fn import_frame(stream: &[u8], planes: Planes<&mut [u16]>) -> Result<(Header, usize), Misread> {
    let (_, [y, u, v]) = planes.lent();
    let mut told = Told::default();
    let Told { w, h, rate: (f, g), aspect: (a, b), next, at } = &mut told;
    // As above.
    let number = unsafe { lend!(lomsakeun_import_frame(in stream, mut y, mut u, mut v, w, h, f, g, a, b, next, at)) };
    told.answer(number)
}
