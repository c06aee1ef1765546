//! Speed of the block driver. The Rust has no such call: beside it stand its own availability, gathering, modes and residual addition, called
//! for each leaf of a list that is made before.
use crate::bench::best;
use crate::bench_blocks::{blank, residuals};
use crate::cases::deblock::split_bytes;
use crate::cases::trees::{self, Taste};
use crate::model::walk::{self, Leaf};
use crate::rng::Rng;
use lomsakeun::Planes;
use oracle::driver::Prepared;

const QP: u8 = 37;

/// A picture's leaves, all intra with each component coded, the five modes by turns, and the list of residuals that both sides read. In grey the
/// product has Y alone; the Rust has all three components.
pub struct Work {
    size: usize,
    colour: bool,
    splits: Vec<u8>,
    leaves: Vec<Leaf>,
    records: Vec<u8>,
    list: Vec<i16>,
    lent: [Vec<u16>; 3],
}

/// What the product writes: planes, words, modes and keep bytes.
pub struct Made {
    pub planes: [Vec<u16>; 3],
    words: Vec<u32>,
    modes: Vec<u8>,
    keep: Vec<u8>,
}

fn mode(k: usize) -> u8 {
    (k % 5) as u8
}

impl Work {
    pub fn new(rng: &mut Rng, size: usize, taste: Taste) -> Work {
        let tree = trees::tree(rng, size, size, taste);
        let splits = split_bytes(rng, size, size, &tree);
        let leaves = walk::leaves(size, size, walk::cut_by(&splits, size)).expect("a tree that is accepted");
        let records = (0..leaves.len()).flat_map(|k| [mode(k), QP, 7, 0]).collect();
        let list = residuals(rng, size * size * 3 / 2, 60);
        Work { size, colour: true, splits, leaves, records, list, lent: blank(size) }
    }

    /// The same without its colour.
    pub fn grey(mut self) -> Work {
        self.records.chunks_exact_mut(4).for_each(|record| record[2] = 1);
        Work { colour: false, ..self }
    }

    pub fn their_room(&self) -> Prepared {
        Prepared::new((self.size, self.size))
    }

    /// The Rust's calls.
    pub fn theirs(&self, rust: &mut Prepared) {
        rust.clear();
        let mut at = 0;
        for (k, leaf) in self.leaves.iter().enumerate() {
            rust.leaf((leaf.x, leaf.y, leaf.wide), mode(k), QP, &self.list[at..]);
            at += leaf.wide * leaf.high * 3 / 2;
        }
    }

    pub fn our_room(&self) -> Made {
        let units = self.size / 4 * (self.size / 4);
        Made { planes: blank(self.size), words: vec![0; units], modes: vec![0; units], keep: vec![0; units] }
    }

    /// The product's call.
    pub fn ours(&self, made: &mut Made) {
        let (luma, [y, u, v]) = (self.size * self.size, &mut made.planes);
        let planes = Planes { y: &mut y[..], chroma: self.colour.then_some([u, v]) };
        let [y, u, v] = &self.lent;
        let blocks = lomsakeun::Blocks {
            splits: &self.splits,
            leaves: &self.records,
            residual: &self.list[..if self.colour { luma * 3 / 2 } else { luma }],
            predictions: Planes { y, chroma: self.colour.then_some([u, v]) },
            constrained: false,
        };
        let picture = lomsakeun::Picture { w: self.size, h: self.size, planes, words: &mut made.words };
        lomsakeun::reconstruct(blocks, picture, &mut made.modes, &mut made.keep).unwrap();
    }

    /// Both sides made the same picture, as far as the product's has colour.
    pub fn agreed(&self, rust: &Prepared, made: &Made) -> bool {
        let mut planes = blank(self.size);
        rust.read(&mut planes);
        planes[0] == made.planes[0] && (!self.colour || planes == made.planes)
    }

    /// Both sides' nanoseconds a luma sample.
    fn timed(&self) -> (f64, f64) {
        let (mut rust, mut made) = (self.their_room(), self.our_room());
        let theirs = best(&mut rust, |_| {}, |rust| self.theirs(rust));
        let ours = best(&mut made, |_| {}, |made| self.ours(made));
        assert!(self.agreed(&rust, &made), "the two sides made another picture");
        let count = (self.size * self.size) as f64;
        (theirs / count, ours / count)
    }
}

/// Both sides' nanoseconds a luma sample, in colour or in grey.
pub fn driven(rng: &mut Rng, size: usize, taste: Taste, colour: bool) -> (f64, f64) {
    let work = Work::new(rng, size, taste);
    if colour { work } else { work.grey() }.timed()
}
