//! Deblocking by bands: one call, and a picture by all its calls.
use super::deblock::Picture;
#[cfg(feature = "archive")]
use super::deblock::Slices;
use super::tape::{Case, Line};
use crate::model::bands as model;
#[cfg(feature = "archive")]
use crate::product::{lend, Answer, Lending};

/// One call: the position, the band, and what is lent for it. The lent picture's sides are those of the whole.
#[derive(Clone)]
pub struct Band {
    pub next: usize,
    pub band: usize,
    pub lent: Picture,
}

impl Band {
    fn answer(number: u32, counts: (usize, usize), next: usize, planes: &[Vec<u16>; 3], words: &[u32]) -> Line {
        let line = Line::new().num(number).num(counts.0).num(counts.1).num(next);
        planes.iter().fold(line, |line, plane| line.all(plane)).all(words)
    }

    /// The answer of a refused call, which leaves everything as it was.
    fn refused(&self, number: u32) -> Line {
        Band::answer(number, (0, 0), self.next, &self.lent.planes, &self.lent.words)
    }
}

impl Case for Band {
    fn input(&self) -> Line {
        let mut line = Line::new().num(self.next).num(self.band);
        line.0.extend(self.lent.listed().0);
        line
    }

    fn model(&self) -> Line {
        let (mut planes, mut words) = (self.lent.planes.clone(), self.lent.words.clone());
        let lent = planes.each_mut().map(|plane| &mut plane[..]);
        let (number, v, h, next) = model::deblock_band(self.next, self.band, &self.lent.given(), lent, &mut words);
        Band::answer(number, (v, h), next, &planes, &words)
    }

    /// The Rust has no bands: it is asked where the picture is one.
    fn rust(&self) -> Option<Line> {
        if self.lent.h > 64 {
            return None;
        }
        let mut line = self.lent.rust()?;
        line.0.insert(3, 1);
        Some(line)
    }

    fn in_domain(&self) -> bool {
        self.lent.h <= 64 && self.lent.in_domain()
    }

    #[cfg(feature = "archive")]
    fn product(&self, lending: Lending) -> Answer {
        let lent = &self.lent;
        let mut own = Slices::new(lending, lent);
        let Slices { planes: [y, u, v], words, splits, motion, refs, keep, tables: [t0, t1], strengths } = &mut own;
        let [u_off, v_off] = lent.offsets.map(|offset| offset as i8);
        let (mut next, mut vertical, mut horizontal) = (self.next, 77, 78);
        let number = unsafe {
            lend!(lomsakeun_deblock_band(
                &mut next, self.band, lent.w, lent.h, mut y, mut u, mut v, mut words, in splits, in motion, in refs,
                in keep, in t0, in t1, in strengths, lent.limit as u8, u_off, v_off, lent.colour, &mut vertical,
                &mut horizontal
            ))
        };
        own.after(lent, Line::new().num(number).num(vertical).num(horizontal).num(next))
    }
}

/// The units that are lent for a band, of the picture's.
fn units(picture: &Picture, band: usize) -> std::ops::Range<usize> {
    let wide = picture.w / 4;
    wide * 16 * band.saturating_sub(1)..wide * (picture.h / 4).min(16 * band + 16)
}

/// The samples of a unit in each plane.
fn samples(colour: bool) -> [usize; 3] {
    if colour {
        [16, 4, 4]
    } else {
        [16, 0, 0]
    }
}

/// What is lent for a band of a picture: the rows of the band above, if any, and its own, and its own split bytes.
pub fn part(picture: &Picture, band: usize) -> Picture {
    let units = units(picture, band);
    let cut = |each: usize| each * units.start..each * units.end;
    let bytes = 1024 * picture.w.div_ceil(64);
    let [y, u, v] = samples(picture.colour);
    let planes = [(0, y), (1, u), (2, v)].map(|(i, each)| picture.planes[i][cut(each)].to_vec());
    Picture {
        w: picture.w,
        h: picture.h,
        planes,
        words: picture.words[units.clone()].to_vec(),
        splits: picture.splits[bytes * band..bytes * (band + 1)].to_vec(),
        motion: picture.motion[cut(4)].to_vec(),
        refs: picture.refs[cut(2)].to_vec(),
        keep: picture.keep[units.clone()].to_vec(),
        tables: picture.tables.clone(),
        strengths: picture.strengths.clone(),
        limit: picture.limit,
        offsets: picture.offsets,
        colour: picture.colour,
    }
}

/// What is wrong with a band's part before it is mended, by the place in what is lent.
#[derive(Clone, Copy)]
pub enum Harm {
    Sample(usize, usize),
    Qp(usize),
    Keep(usize),
    Split(usize),
    Limit,
}

impl Harm {
    fn done_to(self, mut lent: Picture) -> Picture {
        match self {
            Harm::Sample(plane, at) => lent.planes[plane][at] = 1024,
            Harm::Qp(at) => lent.words[at] = lent.words[at] & !(127 << 16) | 52 << 16,
            Harm::Keep(at) => lent.keep[at] = 2,
            Harm::Split(at) => lent.splits[at] = 2,
            Harm::Limit => lent.limit = 7,
        }
        lent
    }

    fn numbers(self) -> [usize; 3] {
        match self {
            Harm::Sample(plane, at) => [7, plane, at],
            Harm::Qp(at) => [6, 0, at],
            Harm::Keep(at) => [15, 0, at],
            Harm::Split(at) => [4, 0, at],
            Harm::Limit => [3, 0, 0],
        }
    }
}

/// A picture by its bands, from the top; a band that is harmed is called so first, and then mended and called again.
pub struct Bands {
    pub picture: Picture,
    pub harms: Vec<(usize, Harm)>,
}

impl Bands {
    pub fn new(picture: Picture) -> Bands {
        Bands { picture, harms: Vec::new() }
    }

    /// Each accepted picture's calls, each lent what the calls before left, by the model.
    pub fn each(&self, mut see: impl FnMut(&Band)) {
        let answer = |band: &Band| {
            see(band);
            Ok(band.model())
        };
        self.run(answer).unwrap();
    }

    /// Each side by its own answers: the first refusal's number, or 0; the sums of the accepted bands' counts; planes and words after the last
    /// of them. Or what is wrong about an answer.
    fn run(&self, mut answer: impl FnMut(&Band) -> Result<Line, String>) -> Result<Line, String> {
        let (mut now, mut number, mut sums) = (self.picture.clone(), 0, [0, 0]);
        let mut finals = Vec::new();
        for band in 0..now.h.div_ceil(64) {
            let call = Band { next: band, band, lent: part(&now, band) };
            for harm in self.harms.iter().filter(|(at, _)| *at == band).map(|(_, harm)| *harm) {
                let harmed = Band { lent: harm.done_to(call.lent.clone()), ..call };
                let line = answer(&harmed)?;
                number = if number == 0 { line.0[0] } else { number };
                if line.accepted() || line != harmed.refused(line.0[0] as u32) {
                    return Err(format!("band {band}, harmed, was not refused or was written"));
                }
            }
            let line = answer(&call)?;
            if !line.accepted() {
                number = if number == 0 { line.0[0] } else { number };
                break;
            }
            if line.0[3] != band as i64 + 1 {
                return Err(format!("the position after band {band} is {}", line.0[3]));
            }
            sums = [sums[0] + line.0[1], sums[1] + line.0[2]];
            put_back(&mut now, band, &line.0[4..]);
            finals.push(final_rows(&now, band));
        }
        if finals.iter().any(|rows| (0..3).any(|i| now.planes[i][..rows[i].len()] != rows[i])) {
            return Err("rows that were final changed".into());
        }
        let line = Line(vec![number, sums[0], sums[1]]);
        Ok(now.planes.iter().fold(line, |line, plane| line.all(plane)).all(&now.words))
    }
}

/// Puts a band's planes and words, as its answer has them, back into the picture.
fn put_back(picture: &mut Picture, band: usize, answer: &[i64]) {
    let units = units(picture, band);
    let mut rest = answer;
    let mut next = |count: usize| {
        let (first, after) = rest.split_at(count);
        rest = after;
        first
    };
    let each = samples(picture.colour);
    for (plane, each) in picture.planes.iter_mut().zip(each) {
        let from = next(each * units.len());
        plane[each * units.start..each * units.end].iter_mut().zip(from).for_each(|(to, from)| *to = *from as u16);
    }
    let from = next(units.len());
    picture.words[units].iter_mut().zip(from).for_each(|(to, from)| *to = *from as u32);
}

/// The rows that are final after a band: all but its last two in each plane, and after the last band all.
fn final_rows(picture: &Picture, band: usize) -> [Vec<u16>; 3] {
    let rows = 64 * band + 64;
    [(0, picture.w, rows), (1, picture.w / 2, rows / 2), (2, picture.w / 2, rows / 2)].map(|(i, w, rows)| {
        let plane = &picture.planes[i];
        plane[..plane.len().min(w * (rows - 2))].to_vec()
    })
}

impl Case for Bands {
    fn input(&self) -> Line {
        let mut line = Line::new().num(self.harms.len());
        for (band, harm) in &self.harms {
            line = harm.numbers().iter().fold(line.num(*band), |line, number| line.num(*number));
        }
        line.0.extend(self.picture.listed().0);
        line
    }

    /// By bands; the whole picture's answer is the same where that is accepted, and where not, a band is refused.
    fn model(&self) -> Line {
        let (bands, whole) = (self.run(|band| Ok(band.model())).unwrap(), self.picture.model());
        if whole.accepted() {
            assert!(bands.0[1..] == whole.0[1..], "the model's bands are not the model's picture");
        } else {
            assert!(!bands.accepted(), "the model's bands are all accepted, the picture is not");
        }
        bands
    }

    /// The whole picture.
    fn asked(&self) -> Option<&dyn Case> {
        Some(&self.picture)
    }

    /// By bands; the whole picture's call must answer the same.
    #[cfg(feature = "archive")]
    fn product(&self, lending: Lending) -> Answer {
        let (bands, whole) = (self.run(|band| band.product(lending))?, self.picture.product(lending)?);
        let same = if whole.accepted() { bands.0[1..] == whole.0[1..] } else { !bands.accepted() };
        if same {
            Ok(bands)
        } else {
            Err(format!("by bands {}\n  whole   {}", bands.short(), whole.short()))
        }
    }
}
