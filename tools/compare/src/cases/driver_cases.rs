//! Which pictures are recorded for the block driver, and what is compared beside them.
use super::data::size;
use super::deblock_cases::{square, strip};
use super::driver::{of, picture, Driver, KINDS, MASKS};
use super::driver_refusals;
use super::tape::{Case, Tape};
use super::trees;
use crate::rng::Rng;

pub fn record(tape: &mut Tape) {
    let rng = &mut Rng::new(0xd41e4);
    each(tape, rng);
    for _ in 0..160 {
        let most = rng.pick(&[4, 8, 16, 24]);
        let size = square(rng, most);
        tape.record(&any(rng, size));
    }
    for _ in 0..16 {
        let size = strip(rng);
        tape.record(&any(rng, size));
    }
    roots(tape, rng);
    longest(tape, rng);
    super::driver_refusals::record(tape, rng);
    greys(tape, rng);
    super::driver_refusals::greys(tape, rng);
    tape.say("recorded pictures compared");
    for _ in 0..1500 {
        let most = rng.pick(&[8, 16, 36, 72, 140]);
        let size = square(rng, most);
        let case = any(rng, size);
        tape.compare(&case);
        tape.compare(&grey(&case));
    }
    tape.say("further pictures up to 140 by 140 compared");
}

/// An accepted picture with any tree.
fn any(rng: &mut Rng, (w, h): (usize, usize)) -> Driver {
    let taste = trees::taste(rng);
    picture(rng, w, h, taste)
}

pub fn draw(rng: &mut Rng) -> Box<dyn Case> {
    let most = rng.pick(&[8, 16, 36, 72, 140]);
    let size = (size(rng, most), size(rng, most));
    let case = any(rng, size);
    Box::new(if rng.one_in(3) { grey(&case) } else { case })
}

pub fn damaged(rng: &mut Rng) -> Box<dyn Case> {
    Box::new(driver_refusals::damaged(rng))
}

/// A picture without its colour: its luma plane, its words, its modes and its keep bytes must be those of the run in colour.
fn grey(case: &Driver) -> Driver {
    let grey = case.grey();
    assert!(
        grey.luma() == case.luma(),
        "a grey picture has another luma plane, word, mode or keep byte than the one in colour"
    );
    grey
}

/// Grey pictures: the smallest and one of the longest, each kind, each mask, and any.
fn greys(tape: &mut Tape, rng: &mut Rng) {
    tape.record(&grey(&of(rng, (4, 4), trees::FINEST, &KINDS, &[7])));
    let mut long = of(rng, (4, 4096), trees::FINEST, &KINDS, &[0, 0, 0, 2, 4]);
    digits(rng, &mut long);
    tape.record(&grey(&long));
    for kind in KINDS {
        tape.record(&grey(&of(rng, (12, 12), trees::FINE, &[kind], &MASKS)));
    }
    for mask in MASKS {
        tape.record(&grey(&of(rng, (12, 8), trees::FINE, &KINDS, &[mask])));
    }
    for _ in 0..24 {
        let size = square(rng, 16);
        tape.record(&grey(&any(rng, size)));
    }
}

/// Each kind on leaves of each side, beside and below others, and each mask, constrained and not.
fn each(tape: &mut Tape, rng: &mut Rng) {
    for kind in KINDS {
        for (side, taste) in [(4, trees::FINEST), (8, [10, 10, 10, 0]), (16, [10, 10, 0, 0])] {
            tape.record(&of(rng, (2 * side + 4, 2 * side + 4), taste, &[kind], &MASKS));
        }
    }
    for kinds in [[5, 1, 2, 0], [0, 5, 3, 1], [3, 4, 5, 2], [2, 0, 4, 3], [1, 3, 0, 4]] {
        let case = of(rng, (64, 68), [10, 0, 0, 0], &KINDS, &MASKS);
        tape.record(&four(case, [0, 1, 2, 3], kinds));
    }
    // Beside each pair of leaves of 64 lies a root that is 4 wide: the first has 16 leaves.
    for kinds in [[1, 2, 3, 4], [4, 5, 0, 3], [5, 4, 1, 0]] {
        let mut case = of(rng, (132, 132), trees::UNCUT, &KINDS, &[0, 2, 4]);
        digits(rng, &mut case);
        tape.record(&four(case, [0, 1, 18, 19], kinds));
    }
    for mask in MASKS {
        for constrained in [false, true] {
            tape.record(&Driver { constrained, ..of(rng, (12, 8), trees::FINE, &KINDS, &[mask]) });
        }
    }
}

/// Gives the four leaves of these numbers, which lie two by two, these kinds.
fn four(mut case: Driver, leaves: [usize; 4], kinds: [u8; 4]) -> Driver {
    leaves.into_iter().zip(kinds).for_each(|(leaf, kind)| case.records[4 * leaf] = kind);
    case
}

/// Lends samples of one digit, which keep the recording short.
fn digits(rng: &mut Rng, case: &mut Driver) {
    case.predictions.iter_mut().flatten().for_each(|sample| *sample = rng.range(0, 9) as u16);
}

/// Several roots in a row and in a column, most of them cut off by the picture's end.
fn roots(tape: &mut Tape, rng: &mut Rng) {
    for (w, h, taste) in
        [(68, 64, trees::UNCUT), (64, 72, trees::UNCUT), (68, 68, trees::MIXED), (260, 20, trees::MIXED)]
    {
        tape.record(&picture(rng, w, h, taste));
    }
}

/// The largest side is accepted; four more are refused, and nothing else is wrong with that picture.
fn longest(tape: &mut Tape, rng: &mut Rng) {
    for (w, h) in [(4096, 4), (4, 4096), (4100, 4)] {
        let mut case = of(rng, (w, h), trees::FINEST, &KINDS, &[0, 0, 0, 2, 4]);
        digits(rng, &mut case);
        tape.record(&case);
    }
}
