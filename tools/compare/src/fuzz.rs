//! The exported calls on arbitrary inputs, each slice an allocation of exactly its length: to be run under valgrind, which then sees every
//! read and write outside the lent slices.
use crate::all::{Call, Draw, CALLS, PICTURES};
use crate::model::NUMBERS;
use crate::product::Lending;
use crate::rng::Rng;

/// One call in so many is over a whole picture.
const PICTURE_EACH: usize = 50;

/// How each call's inputs are drawn: one accepted to two damaged.
fn draws(calls: &[Call]) -> Vec<Draw> {
    calls.iter().flat_map(|call| [call.draw, call.damaged, call.damaged]).collect()
}

/// Calls each in turn, accepted and damaged inputs by turns. True if no slice lent to be read was written.
pub fn fuzz(calls: usize, seed: u64) -> bool {
    let (singles, pictures) = (draws(&CALLS), draws(&PICTURES));
    let (mut numbers, mut good) = ([0usize; NUMBERS], true);
    for i in 0..calls {
        let own = Rng::new(seed.wrapping_add(i as u64)).next();
        let draw = if i % PICTURE_EACH == 0 {
            pictures[i / PICTURE_EACH % pictures.len()]
        } else {
            singles[i % singles.len()]
        };
        let case = draw(&mut Rng::new(own));
        match case.product(Lending::Exact) {
            Ok(line) => numbers[line.0[0] as usize] += 1,
            Err(wrote) => {
                println!("case seed {own}: {wrote}");
                good = false;
            }
        }
    }
    println!("seed {seed}: {calls} calls; answers by number, from 0: {numbers:?}");
    good
}
