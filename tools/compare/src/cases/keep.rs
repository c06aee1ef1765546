//! Kept units: pictures with keep maps of all kinds by both engines of deblocking, and what a map is refused for.
use super::bands::{Band, Bands};
use super::bands_cases::all_bands;
use super::data::*;
use super::deblock::{picture, Picture};
use super::deblock_cases::{square, varied};
use super::tape::{Case, Line, Tape};
use super::trees;
#[cfg(feature = "archive")]
use crate::product::{Answer, Lending};
use crate::rng::Rng;

/// A map with marks on single units, on few or on most of them, on a block of units, or on all.
fn marks(rng: &mut Rng, w: usize, units: usize) -> Vec<u8> {
    let wide = w / 4;
    let (x, y) = (rng.below(wide), rng.below(units / wide));
    let (right, bottom) = (x + 1 + rng.below(wide - x), y + 1 + rng.below(units / wide - y));
    let most = rng.pick(&[1, 2, 4, 7]);
    let kind = rng.below(4);
    let mark = |rng: &mut Rng, unit: usize| match kind {
        0 | 1 => rng.below(8) < most,
        2 => (x..right).contains(&(unit % wide)) && (y..bottom).contains(&(unit / wide)),
        _ => true,
    };
    (0..units).map(|unit| mark(rng, unit) as u8).collect()
}

pub fn marked(rng: &mut Rng, picture: Picture) -> Picture {
    let keep = marks(rng, picture.w, picture.words.len());
    Picture { keep, ..picture }
}

/// Each set of four units kept: their sides stay, and the others move; and in grey those of one unit or of none.
fn fours(rng: &mut Rng) -> Vec<Picture> {
    let four = Picture { strengths: vec![3; 208], ..picture(rng, 8, 8, trees::FINEST) };
    let maps = (0..16u8).map(|bits| (0..4).map(|unit| bits >> unit & 1).collect::<Vec<u8>>());
    let all: Vec<Picture> = maps.map(|keep| Picture { keep, ..four.clone() }).collect();
    all.iter().cloned().chain(all[..5].iter().map(|picture| picture.clone().grey())).collect()
}

/// Kept units of all kinds, whole.
pub fn record(tape: &mut Tape) {
    let rng = &mut Rng::new(0x4ee9);
    fours(rng).iter().for_each(|case| tape.record(case));
    for i in 0..12 {
        let size = square(rng, 16);
        let case = varied(rng, size, i);
        let case = if i % 4 == 3 { case.grey() } else { case };
        tape.record(&marked(rng, case));
    }
    refusals(rng).iter().for_each(|case| tape.record(case));
    for i in 0..300 {
        let most = rng.pick(&[8, 36, 140]);
        let size = square(rng, most);
        let drawn = varied(rng, size, i);
        tape.compare(&Marked { picture: marked(rng, drawn) });
    }
    tape.say("pictures with kept units compared with their bands and with themselves unkept");
}

/// The bands of such pictures.
pub fn record_bands(tape: &mut Tape) {
    let rng = &mut Rng::new(0x4eea);
    for (w, h) in [(4, 132), (8, 72)] {
        let taste = trees::taste(rng);
        let drawn = picture(rng, w, h, taste);
        all_bands(tape, marked(rng, drawn));
    }
    for lent in refusals(rng) {
        tape.record(&Band { next: 0, band: 0, lent });
    }
    // Band 1 of a picture: the marks of the last row of units above it are judged, those before that row are not.
    let good = picture(rng, 8, 72, trees::FINE);
    for at in [0, 29, 30, 31, 32, 35] {
        let mut lent = super::bands::part(&good, 1);
        lent.keep[at] = 2;
        tape.record(&Band { next: 1, band: 1, lent });
    }
}

/// 15 for each mark that is neither 0 nor 1, on an edge or not; after 4 and 5, before 6 and 7.
fn refusals(rng: &mut Rng) -> Vec<Picture> {
    let good = picture(rng, 12, 8, trees::FINE);
    let mut all = Vec::new();
    for at in 0..6 {
        for mark in [2, 255] {
            let mut bad = good.clone();
            bad.keep[at] = mark;
            all.push(bad);
        }
    }
    for harmed in 0..4 {
        let mut bad = good.clone();
        bad.keep[5] = 2;
        match harmed {
            0 => bad.words[0] |= 127 << 16,
            1 => bad.planes[0][0] = 1024,
            2 => bad.splits[136] = 2,
            _ => bad.limit = 7,
        }
        all.push(bad);
    }
    all
}

/// A picture with a map: by bands it must come out as whole, its kept units must be as they were, and its words and counts must be those of the same
/// picture with nothing kept.
struct Marked {
    picture: Picture,
}

impl Marked {
    fn unkept(&self) -> Picture {
        Picture { keep: vec![0; self.picture.keep.len()], ..self.picture.clone() }
    }

    /// What is wrong about an accepted answer, beside that of the same picture with nothing kept.
    fn wrong(&self, line: &Line, unkept: &Line) -> Option<String> {
        let lens = self.picture.planes.each_ref().map(|plane| plane.len());
        let samples: usize = lens.iter().sum();
        if line.0[..3] != unkept.0[..3] || line.0[3 + samples..] != unkept.0[3 + samples..] {
            return Some("the counts or the words follow the map".into());
        }
        let mut at = 3;
        for (plane, (given, len)) in self.picture.planes.iter().zip(lens).enumerate() {
            let side = if plane == 0 { 4 } else { 2 };
            let wide = side * (self.picture.w / 4);
            let moved = |i: usize| line.0[at + i] != given[i] as i64;
            let kept = |i: usize| self.picture.keep[i / wide / side * (self.picture.w / 4) + i % wide / side] == 1;
            if let Some(i) = (0..len).find(|&i| kept(i) && moved(i)) {
                return Some(format!("sample {i} of plane {plane} is kept and moved"));
            }
            at += len;
        }
        None
    }
}

impl Case for Marked {
    fn input(&self) -> Line {
        self.picture.input()
    }

    fn model(&self) -> Line {
        let line = self.picture.model();
        if line.accepted() {
            assert!(
                line == Bands::new(self.picture.clone()).model(),
                "the model's marked bands are not its marked picture"
            );
            assert_eq!(self.wrong(&line, &self.unkept().model()), None);
        }
        line
    }

    fn asked(&self) -> Option<&dyn Case> {
        Some(&self.picture)
    }

    #[cfg(feature = "archive")]
    fn product(&self, lending: Lending) -> Answer {
        let line = self.picture.product(lending)?;
        if line.accepted() {
            let bands = Bands::new(self.picture.clone()).product(lending)?;
            if line != bands {
                return Err(format!("whole {}\n  bands {}", line.short(), bands.short()));
            }
            if let Some(wrong) = self.wrong(&line, &self.unkept().product(lending)?) {
                return Err(wrong);
            }
        }
        Ok(line)
    }
}

pub fn draw(rng: &mut Rng) -> Box<dyn Case> {
    let most = rng.pick(&[12, 36, 72, 140]);
    let size = (size(rng, most), size(rng, most));
    let i = 1 + rng.below(64);
    let drawn = varied(rng, size, i);
    let drawn = if rng.one_in(4) { drawn.grey() } else { drawn };
    Box::new(Marked { picture: marked(rng, drawn) })
}

/// A mark or two that are neither 0 nor 1, or a map of another length, and now and then a QP, a sample or a split byte beside them.
pub fn damaged(rng: &mut Rng) -> Box<dyn Case> {
    let size = square(rng, 24);
    let drawn = varied(rng, size, 1);
    let mut case = marked(rng, drawn);
    if rng.one_in(4) {
        stretch(rng, &mut case.keep);
    } else {
        let at = rng.below(case.keep.len());
        case.keep[at] = rng.pick(&[2, 3, 127, 128, 254, 255]);
    }
    match rng.below(8) {
        0 => case.words[0] |= 127 << 16,
        1 => case.planes[0][0] = 1024,
        2 => case.splits[136] = 2,
        _ => {}
    }
    Box::new(case)
}
