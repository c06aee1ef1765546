//! Grey pictures: the same luma data in grey and in colour, by both engines of deblocking, and what a grey picture is refused for.
use super::bands::Bands;
use super::bands_cases::all_bands;
use super::data::*;
use super::deblock::{picture, Picture};
use super::deblock_cases::{square, strip, varied};
use super::tape::{Case, Line, Tape};
use super::trees;
#[cfg(feature = "archive")]
use crate::product::{Answer, Lending};
use crate::rng::Rng;

/// Grey pictures of all kinds, the smallest and the longest among them.
pub fn record(tape: &mut Tape) {
    let rng = &mut Rng::new(0x94e7);
    for i in 0..36 {
        let size = if i % 3 == 0 { strip(rng) } else { square(rng, 24) };
        tape.record(&varied(rng, size, i).grey());
    }
    for (w, h) in [(4, 4), (4, 8), (8, 4), (64, 64), (68, 68), (4, 4096), (4, 4100)] {
        let mut case = picture(rng, w, h, trees::FINE).grey();
        if w.max(h) >= 4096 {
            case.planes[0].iter_mut().for_each(|sample| *sample = rng.range(0, 9) as u16);
        }
        tape.record(&case);
    }
    refusals(rng).iter().for_each(|case| tape.record(case));
    for i in 0..400 {
        let most = rng.pick(&[8, 36, 140]);
        let size = square(rng, most);
        tape.compare(&Twice { colour: varied(rng, size, i) });
    }
    tape.say("pictures in grey and in colour compared");
}

/// The bands of grey pictures.
pub fn record_bands(tape: &mut Tape) {
    let rng = &mut Rng::new(0x94e8);
    for (w, h) in [(4, 4), (4, 132), (12, 200), (64, 68)] {
        let taste = trees::taste(rng);
        all_bands(tape, picture(rng, w, h, taste).grey());
    }
    for lent in refusals(rng) {
        tape.record(&super::bands::Band { next: 0, band: 0, lent });
    }
}

/// 2 for each slice of colour that is lent to a grey picture, and for one in colour that is without; 3 for an offset, after 2 and before 4; 7 in luma.
fn refusals(rng: &mut Rng) -> Vec<Picture> {
    let colour = picture(rng, 12, 8, trees::FINE);
    let good = colour.clone().grey();
    let mut all = vec![Picture { colour: true, ..good.clone() }, Picture { colour: false, ..colour.clone() }];
    for i in 0..3 {
        let mut bad = good.clone();
        bad.planes[i] = if i == 0 { vec![] } else { colour.planes[i].clone() };
        all.push(bad);
    }
    for i in 0..2 {
        for table in [colour.tables[i].clone(), vec![0]] {
            let mut bad = good.clone();
            bad.tables[i] = table;
            bad.offsets = [1, 0];
            all.push(bad);
        }
        for offset in [-128, -12, -1, 1, 12, 127] {
            let mut bad = good.clone();
            bad.offsets[i] = offset;
            bad.splits[136] = 2;
            all.push(bad);
        }
    }
    let mut bad = good.clone();
    bad.planes[0][95] = 1024;
    all.push(bad);
    all
}

/// A picture in colour, and the same without: its luma plane, words and counts must be those of the picture in colour, whole and by bands.
struct Twice {
    colour: Picture,
}

impl Twice {
    fn grey(&self) -> Picture {
        self.colour.clone().grey()
    }

    /// The answer to the picture in colour, without its colour.
    fn luma(&self, mut line: Line) -> Line {
        let start = 3 + self.colour.planes[0].len();
        line.0.drain(start..start + 2 * self.colour.planes[1].len());
        line
    }
}

impl Case for Twice {
    fn input(&self) -> Line {
        self.colour.input()
    }

    fn model(&self) -> Line {
        let grey = self.grey().model();
        if self.colour.model().accepted() {
            assert!(grey == self.luma(self.colour.model()), "the model's grey picture is not the model's luma");
            assert!(grey == Bands::new(self.grey()).model(), "the model's grey bands are not its grey picture");
        }
        grey
    }

    /// The Rust's luma of the picture in colour.
    fn rust(&self) -> Option<Line> {
        Some(self.luma(self.colour.rust()?))
    }

    fn in_domain(&self) -> bool {
        self.colour.in_domain()
    }

    #[cfg(feature = "archive")]
    fn product(&self, lending: Lending) -> Answer {
        let grey = self.grey().product(lending)?;
        let colour = self.colour.product(lending)?;
        if colour.accepted() {
            let bands = Bands::new(self.grey()).product(lending)?;
            let luma = self.luma(colour);
            if grey != luma || grey != bands {
                return Err(format!("grey {}\n  bands {}\n  colour {}", grey.short(), bands.short(), luma.short()));
            }
        }
        Ok(grey)
    }
}

pub fn draw(rng: &mut Rng) -> Box<dyn Case> {
    let most = rng.pick(&[12, 36, 72, 140]);
    let (w, h) = (size(rng, most), size(rng, most));
    let i = 1 + rng.below(64);
    Box::new(Twice { colour: varied(rng, (w, h), i) })
}

/// A grey picture that is lent some colour, or has an offset; or whose luma data is damaged.
pub fn damaged(rng: &mut Rng) -> Box<dyn Case> {
    if rng.one_in(2) {
        let mut all = refusals(rng);
        let at = rng.below(all.len());
        return Box::new(all.swap_remove(at));
    }
    let (w, h) = (size(rng, 24), size(rng, 24));
    let mut case = varied(rng, (w, h), 1).grey();
    match rng.below(4) {
        0 => case.limit = 7,
        1 => overdo(rng, &mut case.planes[0]),
        2 => case.words[0] |= 127 << 16,
        _ => stretch(rng, &mut case.planes[0]),
    }
    Box::new(case)
}
