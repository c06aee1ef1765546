//! Cases of the sheet's listing. There is no Rust to ask here.
use super::data::stretch;
use super::sheet;
use super::tape::{Case, Line};
use crate::model::{sheet as model, LENGTH};
use crate::product::{lend, Answer, Lending, Lent};
use crate::rng::Rng;

/// The length of the buffer.
const ROOM: usize = 81920;

struct Listing {
    input: Vec<u8>,
    out: Vec<u8>,
}

impl Case for Listing {
    fn input(&self) -> Line {
        Line::new().slice(&self.input).num(self.out.len())
    }

    /// The number, the length and the text; what follows the text in the buffer is looked at below.
    fn model(&self) -> Line {
        if self.out.len() != ROOM {
            return Line::new().num(LENGTH).num(0u8);
        }
        let text = model::listing(&self.input);
        Line::new().num(0u8).num(text.len()).all(text.as_bytes())
    }

    fn product(&self, lending: Lending) -> Answer {
        let input = Lent::new(lending, &self.input);
        let mut out = Lent::new(lending, &self.out);
        let mut length = 77;
        let number = unsafe { lend!(lomsakeun_listing(in input, mut out, &mut length)) };
        input.kept(&self.input)?;
        let after = out.after()?;
        if length > after.len() || after[length..] != self.out[length..] {
            return Err("a write past the text".into());
        }
        Ok(Line::new().num(number).num(length).all(&after[..length]))
    }
}

pub fn draw(rng: &mut Rng) -> Box<dyn Case> {
    let most = rng.pick(&[16, 32, 64, 140]);
    let input = sheet::accepted(rng, most).bytes();
    Box::new(Listing { input, out: vec![rng.next() as u8; ROOM] })
}

pub fn damaged(rng: &mut Rng) -> Box<dyn Case> {
    let mut input = sheet::accepted(rng, 48).bytes();
    for _ in 0..1 + rng.below(3) {
        if !input.is_empty() {
            input = sheet::damaged(rng, input);
        }
    }
    if rng.one_in(20) {
        stretch(rng, &mut input);
    }
    let mut out = vec![rng.next() as u8; ROOM];
    if rng.one_in(20) {
        stretch(rng, &mut out);
    }
    Box::new(Listing { input, out })
}
