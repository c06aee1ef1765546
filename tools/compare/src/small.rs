//! Makes a differing input small: what was drawn is drawn again with parts of it left out, set to 0 or lowered, as long as the answers differ.
use crate::all::{judge, Draw};
use crate::cases::tape::Case;
use crate::rng::Rng;

/// How many inputs are tried.
const TRIES: usize = 4000;

/// The smallest input found that still differs, from the case of this seed.
pub fn smallest(draw: Draw, seed: u64) -> Box<dyn Case> {
    let mut noting = Rng::noting(seed);
    let mut best = (draw(&mut noting), noting.noted());
    let mut tries = 0;
    let mut piece = best.1.len().max(1);
    while piece > 0 && tries < TRIES {
        let mut improved = false;
        let mut at = 0;
        while at < best.1.len() && tries < TRIES {
            let end = (at + piece).min(best.1.len());
            let better = changes(&best.1, at, end).into_iter().find_map(|drawn| {
                tries += 1;
                let case = draw(&mut Rng::again(drawn.clone()));
                (size(&*case) < size(&*best.0) && judge(&*case).is_err()).then_some((case, drawn))
            });
            match better {
                Some(better) => {
                    best = better;
                    improved = true;
                }
                None => at = end,
            }
        }
        if !improved {
            piece /= 2;
        }
    }
    best.0
}

/// How many numbers an input has, and how large they are in all.
fn size(case: &dyn Case) -> (usize, u128) {
    let numbers = case.input().0;
    (numbers.len(), numbers.iter().map(|n| n.unsigned_abs() as u128).sum())
}

/// A stretch left out, set to 0, and halved.
fn changes(drawn: &[u64], from: usize, to: usize) -> Vec<Vec<u64>> {
    let without = [&drawn[..from], &drawn[to..]].concat();
    let with = |change: fn(u64) -> u64| {
        let mut drawn = drawn.to_vec();
        drawn[from..to].iter_mut().for_each(|value| *value = change(*value));
        drawn
    };
    vec![without, with(|_| 0), with(|value| value / 2), with(|value| value.saturating_sub(1))]
}
