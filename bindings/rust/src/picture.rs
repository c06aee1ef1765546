//! A picture's planes, and a picture that a call writes.
/// A picture's planes, each a slice `S` that is read, `&[u16]`, or written, `&mut [u16]`. Whether a picture has colour is said here and nowhere
/// else: a grey one has no chroma.
#[derive(Clone, Copy, Debug, PartialEq, Eq)]
pub struct Planes<S> {
    /// Y, w*h samples.
    pub y: S,
    /// U and V, (w/2)*(h/2) samples each; `None` in a grey picture.
    pub chroma: Option<[S; 2]>,
}

impl<S> Planes<S> {
    /// Those of a picture in colour.
    #[inline]
    pub fn colour(y: S, u: S, v: S) -> Planes<S> {
        Planes { y, chroma: Some([u, v]) }
    }

    /// That of a grey picture.
    #[inline]
    pub fn grey(y: S) -> Planes<S> {
        Planes { y, chroma: None }
    }
}

impl<S: Default> Planes<S> {
    /// Whether there is colour, and the planes as the archive is lent them: those that a grey picture has not are of length 0.
    #[inline]
    pub(crate) fn lent(self) -> (bool, [S; 3]) {
        let colour = self.chroma.is_some();
        let [u, v] = self.chroma.unwrap_or_default();
        (colour, [self.y, u, v])
    }
}

/// A picture: its sides, its planes and its unit words.
#[derive(Debug)]
pub struct Picture<'a> {
    /// The luma plane's width.
    pub w: usize,
    /// The luma plane's height.
    pub h: usize,
    /// Its planes.
    pub planes: Planes<&'a mut [u16]>,
    /// A word a unit: intra bit 15, QP bits 16 to 22, luma-coded bit 24, done bit 31.
    pub words: &'a mut [u32],
}
