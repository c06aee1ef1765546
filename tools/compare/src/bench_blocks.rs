//! Speed of the calls over blocks, and of the chroma QP tables.
use crate::bench::best;
use crate::rng::Rng;
use lomsakeun::Component;
use oracle::{chroma, gather, predict, residual};
use std::hint::black_box;

/// Blocks of these sides are gathered around and predicted.
pub const SIDES: [usize; 5] = [4, 8, 16, 32, 64];

pub fn samples(rng: &mut Rng, count: usize) -> Vec<u16> {
    (0..count).map(|_| rng.below(1024) as u16).collect()
}

/// A list of residuals, four by turns. Both sides read it: the product has U and V of a block right behind its Y, the Rust at fixed places, and as
/// all of these places are multiples of four, both find the same there. The Rust looks that far past the last block too.
pub fn residuals(rng: &mut Rng, count: usize, high: i64) -> Vec<i16> {
    let four: [i16; 4] = std::array::from_fn(|_| rng.range(-high, high) as i16);
    (0..count + residual::reach()).map(|i| four[i % 4]).collect()
}

/// The planes of a picture, blank.
pub fn blank(size: usize) -> [Vec<u16>; 3] {
    let luma = size * size;
    [luma, luma / 4, luma / 4].map(|n| vec![0; n])
}

/// The places of a picture's blocks of this side.
fn blocks(size: usize, side: usize) -> impl Iterator<Item = (usize, usize)> {
    let across = size / side;
    (0..across * across).map(move |i| (i % across * side, i / across * side))
}

/// Every luma block of a picture, gathered around and predicted, the five modes by turns.
pub struct Predicted {
    size: usize,
    side: usize,
    plane: Vec<u16>,
    words: Vec<u32>,
    rust: gather::Prepared,
}

impl Predicted {
    pub fn new(rng: &mut Rng, size: usize, side: usize) -> Predicted {
        let plane = samples(rng, size * size);
        let words = vec![1u32 << 31 | 1 << 15; (size / 4) * (size / 4)];
        let rust = gather::Prepared::new((size, size), &plane, &words);
        Predicted { size, side, plane, words, rust }
    }

    /// A run and a block.
    pub fn room(&self) -> (Vec<u16>, Vec<u16>) {
        (vec![0; 4 * self.side + 1], vec![0; self.side * self.side])
    }

    fn mode(&self, x: usize, y: usize) -> u8 {
        ((x + y) / self.side % 5) as u8
    }

    pub fn theirs(&self, (run, block): &mut (Vec<u16>, Vec<u16>)) {
        for (x, y) in blocks(self.size, self.side) {
            self.rust.gather(x, y, self.side, run);
            predict::bare(self.mode(x, y), self.side, run, block);
            black_box(&mut *block);
        }
    }

    pub fn ours(&self, (run, block): &mut (Vec<u16>, Vec<u16>)) {
        let (component, n, side) = (Component::Luma, self.size, self.side);
        for (x, y) in blocks(n, side) {
            let gathered = lomsakeun::get_nbr(component, n, n, &self.plane, &self.words, x, y, side, false, run);
            gathered.and_then(|_| lomsakeun::ipred_b(self.mode(x, y), side, run, block)).unwrap();
            black_box(&mut *block);
        }
    }
}

/// Both sides' nanoseconds a luma sample.
pub fn predicted(rng: &mut Rng, size: usize, side: usize) -> (f64, f64) {
    let work = Predicted::new(rng, size, side);
    let (mut theirs, mut ours) = (work.room(), work.room());
    let rust = best(&mut theirs, |_| {}, |room| work.theirs(room));
    let product = best(&mut ours, |_| {}, |room| work.ours(room));
    assert!(theirs == ours, "the two sides predicted another block");
    let count = (size * size) as f64;
    (rust / count, product / count)
}

/// Gathering with prediction alone, at two sizes: for two archives, one run after the other. Nanoseconds a luma sample, the Rust's and the product's.
pub fn gathering() -> bool {
    for side in SIDES {
        let rng = &mut Rng::new(1);
        let line = [256, 1024].map(|size| {
            let (rust, ours) = predicted(rng, size, side);
            format!("{size}: {rust:.3}, {ours:.3}")
        });
        println!("blocks of {side:>2}   {}", line.join("   "));
    }
    true
}

/// The residual of every block of a picture, added into its three planes.
pub struct Added {
    size: usize,
    side: usize,
    pred: Vec<u16>,
    list: Vec<i16>,
}

impl Added {
    pub fn new(rng: &mut Rng, size: usize, side: usize) -> Added {
        let pred = samples(rng, residual::reach());
        Added { size, side, pred, list: residuals(rng, size * size * 3 / 2, 300) }
    }

    pub fn their_room(&self) -> residual::Prepared {
        residual::Prepared::new((self.size, self.size))
    }

    pub fn theirs(&self, rust: &mut residual::Prepared) {
        let own = self.side * self.side * 3 / 2;
        for (k, (x, y)) in blocks(self.size, self.side).enumerate() {
            rust.add((x, y, self.side), &self.pred, &self.list[k * own..]);
        }
    }

    pub fn ours(&self, planes: &mut [Vec<u16>; 3]) {
        let (n, side, count) = (self.size, self.side, self.side * self.side);
        let at = residual::offsets();
        for (k, (x, y)) in blocks(n, side).enumerate() {
            let own = &self.list[k * count * 3 / 2..][..count * 3 / 2];
            let parts = [&own[..count], &own[count..count * 5 / 4], &own[count * 5 / 4..]];
            for (i, (plane, coef)) in planes.iter_mut().zip(parts).enumerate() {
                let component = if i == 0 { Component::Luma } else { Component::Chroma };
                let pred = &self.pred[at[i]..][..coef.len()];
                lomsakeun::recon_plane(component, n, n, x, y, side, true, pred, coef, plane).unwrap();
            }
        }
    }

    pub fn agreed(&self, rust: &residual::Prepared, planes: &[Vec<u16>; 3]) -> bool {
        let mut made = blank(self.size);
        rust.read(&mut made);
        made == *planes
    }
}

/// Both sides' nanoseconds a sample of the three planes.
pub fn added(rng: &mut Rng, size: usize, side: usize) -> (f64, f64) {
    let work = Added::new(rng, size, side);
    let (mut rust, mut planes) = (work.their_room(), blank(size));
    let theirs = best(&mut rust, |_| {}, |rust| work.theirs(rust));
    let ours = best(&mut planes, |_| {}, |planes| work.ours(planes));
    assert!(work.agreed(&rust, &planes), "the two sides made another picture");
    let count = 1.5 * (size * size) as f64;
    (theirs / count, ours / count)
}

/// A copy of the three planes: what any pass over them costs at least.
pub fn copied(rng: &mut Rng, size: usize) -> f64 {
    let from = samples(rng, size * size * 3 / 2);
    let mut to = vec![0u16; from.len()];
    best(&mut to, |_| {}, |to| to.copy_from_slice(black_box(&from))) / from.len() as f64
}

/// Both sides' nanoseconds for one derivation of both chroma tables, of few points and of many.
pub fn tables(points: usize) -> (f64, f64) {
    let (a, b) = ([0i8; 58], [0i8; 58]);
    let rust = chroma::Prepared::new(false, false, (points, &a, &b), (points, &a, &b));
    const TIMES: usize = 1000;
    let mut sum = 0;
    let theirs = best(&mut sum, |_| {}, |sum| (0..TIMES).for_each(|_| *sum ^= black_box(&rust).derive()));
    let given = lomsakeun::Points { count: points, a: &a, b: &b };
    let mut room = ([0i8; 70], [0i8; 70]);
    let ours = best(
        &mut room,
        |_| {},
        |(t0, t1)| {
            for _ in 0..TIMES {
                lomsakeun::derived_chroma_qp_mapping_tables(false, false, black_box(given), given, t0, t1).unwrap();
            }
        },
    );
    (theirs / TIMES as f64, ours / TIMES as f64)
}
