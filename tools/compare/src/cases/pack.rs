//! Cases of the compact map's calls. The Rust has none of them.
use super::data::*;
use super::deblock::split_bytes;
use super::tape::{Case, Line, Tape};
use super::trees;
use crate::model::pack as model;
#[cfg(feature = "archive")]
use crate::product::{lend, Answer, Lending, Lent};
use crate::rng::Rng;

/// What stood in a slice that is to be written.
fn bytes(rng: &mut Rng, count: usize) -> Vec<u8> {
    (0..count).map(|_| rng.below(256) as u8).collect()
}

// ---- a map into a buffer

#[derive(Clone)]
struct Put {
    w: usize,
    h: usize,
    splits: Vec<u8>,
    buf: Vec<u8>,
    at: usize,
}

impl Case for Put {
    fn input(&self) -> Line {
        Line::new().num(0u8).num(self.w).num(self.h).slice(&self.splits).slice(&self.buf).num(self.at)
    }

    fn model(&self) -> Line {
        let mut buf = self.buf.clone();
        let (number, at) = model::put_map((self.w, self.h), &self.splits, &mut buf, self.at);
        Line::new().num(number).num(at).all(&buf)
    }

    #[cfg(feature = "archive")]
    fn product(&self, lending: Lending) -> Answer {
        let splits = Lent::new(lending, &self.splits);
        let mut buf = Lent::new(lending, &self.buf);
        let mut at = self.at;
        let number = unsafe { lend!(lomsakeun_put_map(self.w, self.h, in splits, mut buf, &mut at)) };
        splits.kept(&self.splits)?;
        Ok(Line::new().num(number).num(at).all(buf.after()?))
    }
}

/// Sometimes exactly enough room, a byte too little, or a position inside a byte.
fn put(rng: &mut Rng, most: usize) -> Put {
    let (w, h) = (size(rng, most), size(rng, most));
    let taste = trees::taste(rng);
    let tree = trees::tree(rng, w, h, taste);
    let splits = split_bytes(rng, w, h, &tree);
    let (at, own) = (rng.below(40), tree.len().div_ceil(8));
    let room = at.div_ceil(8) + own + rng.pick(&[0, 0, 1, 9]);
    Put { w, h, splits, buf: bytes(rng, room), at }
}

pub fn draw_put(rng: &mut Rng) -> Box<dyn Case> {
    let most = rng.pick(&[16, 64, 140]);
    Box::new(put(rng, most))
}

pub fn damaged_put(rng: &mut Rng) -> Box<dyn Case> {
    let mut case = put(rng, 100);
    match rng.below(8) {
        0 => spoil(rng, &mut case.w),
        1 => spoil(rng, &mut case.h),
        2 => stretch(rng, &mut case.splits),
        3 => case.splits.iter_mut().for_each(|byte| *byte = rng.pick(&[0, 1, 1, 1, 2])),
        4 => case.at = rng.pick(&[usize::MAX, usize::MAX - 7, 1 << 62, 8 * case.buf.len(), 8 * case.buf.len() + 1]),
        5 => case.buf.truncate(rng.below(case.buf.len() + 1)),
        6 => {
            case.buf.pop();
        }
        _ => {
            let at = rng.pick(&[136, 256 + 68, 512 + 34, 768 + 17]);
            if let Some(byte) = case.splits.get_mut(at) {
                *byte = rng.pick(&[0, 1, 2, 255]);
            }
        }
    }
    Box::new(case)
}

// ---- a map from a buffer

#[derive(Clone)]
struct Get {
    w: usize,
    h: usize,
    src: Vec<u8>,
    at: usize,
    map: Vec<u8>,
}

impl Case for Get {
    fn input(&self) -> Line {
        Line::new().num(1u8).num(self.w).num(self.h).slice(&self.src).num(self.at).slice(&self.map)
    }

    fn model(&self) -> Line {
        let mut map = self.map.clone();
        let (number, at) = model::get_map((self.w, self.h), &self.src, self.at, &mut map);
        Line::new().num(number).num(at).all(&map)
    }

    #[cfg(feature = "archive")]
    fn product(&self, lending: Lending) -> Answer {
        let src = Lent::new(lending, &self.src);
        let mut map = Lent::new(lending, &self.map);
        let mut at = self.at;
        let number = unsafe { lend!(lomsakeun_get_map(self.w, self.h, in src, &mut at, mut map)) };
        src.kept(&self.src)?;
        Ok(Line::new().num(number).num(at).all(map.after()?))
    }
}

/// A map that was packed, and what lies around it.
fn get(rng: &mut Rng, most: usize) -> Get {
    let Put { w, h, splits, mut buf, at } = put(rng, most);
    let (number, _) = model::put_map((w, h), &splits, &mut buf, at);
    assert_eq!(number, 0);
    let map = bytes(rng, splits.len());
    Get { w, h, src: buf, at, map }
}

pub fn draw_get(rng: &mut Rng) -> Box<dyn Case> {
    let most = rng.pick(&[16, 64, 140]);
    Box::new(get(rng, most))
}

pub fn damaged_get(rng: &mut Rng) -> Box<dyn Case> {
    let mut case = get(rng, 100);
    match rng.below(7) {
        0 => spoil(rng, &mut case.w),
        1 => spoil(rng, &mut case.h),
        2 => stretch(rng, &mut case.map),
        3 => case.at = rng.pick(&[usize::MAX, 1 << 62, case.at + 8, 8 * case.src.len(), 0]),
        4 => case.src.truncate(rng.below(case.src.len() + 1)),
        5 => {
            // a fill bit, or a digit
            if let Some(byte) = case.src.last_mut() {
                *byte ^= 1 << rng.below(8);
            }
        }
        _ => case.src.iter_mut().for_each(|byte| *byte = rng.below(256) as u8),
    }
    Box::new(case)
}

// ---- what is recorded

/// A position behind every buffer.
const FAR: usize = 1 << 59;

pub fn record(tape: &mut Tape) {
    let rng = &mut Rng::new(0x9acc);
    for _ in 0..40 {
        tape.record(&put(rng, 64));
        tape.record(&get(rng, 64));
    }
    for _ in 0..5 {
        tape.record(&put(rng, 128));
        tape.record(&get(rng, 128));
    }
    for (w, h) in [(4, 4), (64, 64), (16, 8)] {
        borders(tape, rng, w, h);
    }
    refusals(tape, rng);
}

/// Two maps one after the other in one buffer, with a byte behind them, read back one after the other; and a byte less, a fill bit, a position too far.
fn borders(tape: &mut Tape, rng: &mut Rng, w: usize, h: usize) {
    let tree = trees::tree(rng, w, h, trees::FINEST);
    let splits = split_bytes(rng, w, h, &tree);
    let own = tree.len().div_ceil(8);
    let first = Put { w, h, splits: splits.clone(), buf: vec![255; 2 * own + 1], at: 0 };
    tape.record(&first);
    let mut buf = first.buf.clone();
    let (_, at) = model::put_map((w, h), &splits, &mut buf, 0);
    let second = Put { buf: buf.clone(), at, ..first.clone() };
    tape.record(&second);
    let (_, end) = model::put_map((w, h), &splits, &mut buf, at);
    for at in [0, at, at - 1, 1, end, end + 8, end + 9, FAR] {
        tape.record(&Get { w, h, src: buf.clone(), at, map: vec![9; 1024] });
        tape.record(&Put { at, ..second.clone() });
    }
    let mut short = Get { w, h, src: buf[..own].to_vec(), at: 0, map: vec![9; 1024] };
    short.src.pop();
    tape.record(&short);
    tape.record(&Put { buf: vec![255; own - 1], ..first });
    for bit in 0..8 {
        let mut turned = Get { src: buf[..own].to_vec(), ..short.clone() };
        turned.src[own - 1] ^= 1 << bit;
        tape.record(&turned);
    }
}

fn refusals(tape: &mut Tape, rng: &mut Rng) {
    let mut torn = put(rng, 8);
    let packed = get(rng, 8);
    for bad in BAD_SIZES {
        tape.record(&Put { w: bad, ..torn.clone() });
        tape.record(&Get { h: bad, ..packed.clone() });
    }
    for splits in wrong_lengths(&torn.splits) {
        tape.record(&Put { splits, ..torn.clone() });
    }
    for map in wrong_lengths(&packed.map) {
        tape.record(&Get { map, ..packed.clone() });
    }
    // 4 and 5 where the walk meets them, in bytes and in bits
    for (place, byte) in [(136, 2), (256 + 68, 255), (136, 0), (512 + 34, 0)] {
        let old = std::mem::replace(&mut torn.splits[place], byte);
        tape.record(&torn);
        torn.splits[place] = old;
    }
    for byte in [0, 0b1000_0000, 0b1100_0000] {
        tape.record(&Get { src: vec![byte], at: 0, ..packed.clone() });
    }
}
