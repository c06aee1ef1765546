//! Cases of the map of edge rows: filled, and kept by edits. The Rust has no such map.
use super::data::*;
use super::deblock::{deblock_words, motion, refs};
use super::tape::{Case, Line, Tape};
use crate::model::rows::{Edit, Held};
#[cfg(feature = "archive")]
use crate::product::{lend, Answer, Lending, Lent};
use crate::rng::Rng;

/// An edit, and the unit that it is of.
type Placed = ((usize, usize), Edit);

// ---- one call: the map filled, or a unit edited

#[derive(Clone)]
struct Rows {
    w: usize,
    h: usize,
    held: Held,
    edit: Option<Placed>,
}

impl Case for Rows {
    fn input(&self) -> Line {
        let line = Line::new();
        let line = match self.edit {
            None => line.num(0u8).num(self.w).num(self.h),
            Some(((x, y), Edit::Motion(motion, refs))) => {
                line.num(1u8).num(self.w).num(self.h).num(x).num(y).all(&motion).all(&refs)
            }
            Some(((x, y), Edit::Flag(bit, on))) => {
                line.num(2u8).num(self.w).num(self.h).num(x).num(y).flag(bit == 24).flag(on)
            }
        };
        let held = &self.held;
        line.slice(&held.words).slice(&held.motion).slice(&held.refs).slice(&held.rows)
    }

    fn model(&self) -> Line {
        let mut held = self.held.clone();
        let number = match self.edit {
            None => held.fill(self.w, self.h),
            Some((place, edit)) => held.edit(self.w, self.h, place, edit),
        };
        let line = Line::new().num(number);
        match self.edit {
            None => line.all(&held.rows),
            Some((_, Edit::Motion(..))) => line.all(&held.motion).all(&held.refs).all(&held.rows),
            Some((_, Edit::Flag(..))) => line.all(&held.words).all(&held.rows),
        }
    }

    #[cfg(feature = "archive")]
    fn product(&self, lending: Lending) -> Answer {
        let held = &self.held;
        let mut words = Lent::new(lending, &held.words);
        let mut motion = Lent::new(lending, &held.motion);
        let mut refs = Lent::new(lending, &held.refs);
        let mut rows = Lent::new(lending, &held.rows);
        let slices = (words.lent(), motion.lent(), refs.lent(), rows.lent());
        let line = Line::new().num(call(self.w, self.h, self.edit, slices));
        match self.edit {
            None => {
                words.kept(&held.words)?;
                motion.kept(&held.motion)?;
                refs.kept(&held.refs)?;
                Ok(line.all(rows.after()?))
            }
            Some((_, Edit::Motion(..))) => {
                words.kept(&held.words)?;
                Ok(line.all(motion.after()?).all(refs.after()?).all(rows.after()?))
            }
            Some((_, Edit::Flag(..))) => {
                motion.kept(&held.motion)?;
                refs.kept(&held.refs)?;
                Ok(line.all(words.after()?).all(rows.after()?))
            }
        }
    }
}

/// Words, motion, references and the map.
#[cfg(feature = "archive")]
type Slices<'a> = (&'a mut [u32], &'a mut [i16], &'a mut [i8], &'a mut [u8]);

#[cfg(feature = "archive")]
fn call(w: usize, h: usize, edit: Option<Placed>, (words, motion, refs, rows): Slices) -> u8 {
    match edit {
        None => unsafe { lend!(lomsakeun_fill_rows(w, h, in words, in motion, in refs, mut rows)) },
        Some(((x, y), Edit::Motion([x0, y0, x1, y1], [r0, r1]))) => unsafe {
            lend!(lomsakeun_set_motion(
                w, h, x, y, x0, y0, x1, y1, r0, r1, in words, mut motion, mut refs, mut rows
            ))
        },
        Some(((x, y), Edit::Flag(bit, on))) => unsafe {
            lend!(lomsakeun_set_flag(w, h, x, y, bit == 24, on, mut words, in motion, in refs, mut rows))
        },
    }
}

/// A picture's maps, and in the map of edge rows any bytes.
fn held(rng: &mut Rng, w: usize, h: usize) -> Held {
    let units = (w / 4) * (h / 4);
    Held {
        words: deblock_words(rng, units, 0, 127),
        motion: motion(rng, units),
        refs: refs(rng, units),
        rows: (0..units).map(|_| rng.next() as u8).collect(),
    }
}

fn edit(rng: &mut Rng) -> Edit {
    if rng.one_in(2) {
        let (motion, refs) = (motion(rng, 1), refs(rng, 1));
        Edit::Motion([motion[0], motion[1], motion[2], motion[3]], [refs[0], refs[1]])
    } else {
        Edit::Flag(rng.pick(&[15, 24]), rng.one_in(2))
    }
}

fn placed(rng: &mut Rng, w: usize, h: usize) -> Placed {
    ((rng.below(w / 4), rng.below(h / 4)), edit(rng))
}

/// Filled one time in three, and else edited; the map right, or anything.
fn rows(rng: &mut Rng, most: usize) -> Rows {
    let (w, h) = (size(rng, most), size(rng, most));
    let mut held = held(rng, w, h);
    if rng.one_in(2) {
        held.fill(w, h);
    }
    let edit = (!rng.one_in(3)).then(|| placed(rng, w, h));
    Rows { w, h, held, edit }
}

#[cfg(feature = "archive")]
pub fn draw(rng: &mut Rng) -> Box<dyn Case> {
    let most = rng.pick(&[4, 8, 16, 40]);
    Box::new(rows(rng, most))
}

#[cfg(feature = "archive")]
pub fn damaged(rng: &mut Rng) -> Box<dyn Case> {
    let mut case = rows(rng, 24);
    match rng.below(8) {
        0 => spoil(rng, &mut case.w),
        1 => spoil(rng, &mut case.h),
        2 => stretch(rng, &mut case.held.words),
        3 => stretch(rng, &mut case.held.motion),
        4 => stretch(rng, &mut case.held.refs),
        5 => stretch(rng, &mut case.held.rows),
        which => {
            let mut placed = placed(rng, case.w, case.h);
            spoil(rng, if which == 6 { &mut placed.0 .0 } else { &mut placed.0 .1 });
            case.edit = Some(placed);
        }
    }
    Box::new(case)
}

// ---- edits one after the other

/// How many edits follow one another.
#[cfg(feature = "archive")]
const EDITS: usize = 50;

/// A map that is filled and then edited; after each edit it must be the map that is filled anew.
#[cfg(feature = "archive")]
struct Series {
    w: usize,
    h: usize,
    held: Held,
    edits: Vec<Placed>,
}

#[cfg(feature = "archive")]
impl Series {
    fn all(held: &Held) -> Line {
        Line::new().num(0u8).all(&held.words).all(&held.motion).all(&held.refs).all(&held.rows)
    }

    fn ask(&self, held: &mut Held, edit: Option<Placed>) -> Result<(), String> {
        let Held { words, motion, refs, rows } = held;
        match call(self.w, self.h, edit, (words, motion, refs, rows)) {
            0 => Ok(()),
            number => Err(format!("refused with {number}")),
        }
    }
}

#[cfg(feature = "archive")]
impl Case for Series {
    fn input(&self) -> Line {
        let line = Line::new().num(self.w).num(self.h).num(self.edits.len());
        let each = |line: Line, &((x, y), edit): &Placed| match edit {
            Edit::Motion(motion, refs) => line.num(1u8).num(x).num(y).all(&motion).all(&refs),
            Edit::Flag(bit, on) => line.num(2u8).num(x).num(y).flag(bit == 24).flag(on),
        };
        let held = &self.held;
        self.edits.iter().fold(line, each).slice(&held.words).slice(&held.motion).slice(&held.refs)
    }

    fn model(&self) -> Line {
        let mut held = self.held.clone();
        for &(place, edit) in &self.edits {
            held.edit(self.w, self.h, place, edit);
        }
        held.fill(self.w, self.h);
        Series::all(&held)
    }

    fn product(&self, _: Lending) -> Answer {
        let mut held = self.held.clone();
        self.ask(&mut held, None)?;
        for (i, &placed) in self.edits.iter().enumerate() {
            self.ask(&mut held, Some(placed))?;
            let mut anew = Held { rows: vec![255; held.rows.len()], ..held.clone() };
            self.ask(&mut anew, None)?;
            if anew.rows != held.rows {
                return Err(format!("after edit {i} the map is not the one filled anew"));
            }
        }
        Ok(Series::all(&held))
    }
}

#[cfg(feature = "archive")]
pub fn draw_series(rng: &mut Rng) -> Box<dyn Case> {
    let most = rng.pick(&[4, 8, 16, 40]);
    let (w, h) = (size(rng, most), size(rng, most));
    let held = held(rng, w, h);
    Box::new(Series { w, h, held, edits: (0..EDITS).map(|_| placed(rng, w, h)).collect() })
}

// ---- the recording

pub fn record(tape: &mut Tape) {
    let rng = &mut Rng::new(0x2095);
    for _ in 0..420 {
        let most = rng.pick(&[4, 8, 12, 20]);
        tape.record(&rows(rng, most));
    }
    corners(tape, rng);
    // the largest sides
    for (w, h) in [(4096, 4), (4, 4096)] {
        tape.record(&Rows { w, h, held: held(rng, w, h), edit: None });
    }
    refusals(tape, rng);
}

/// Every unit of a picture of 3 by 3 units, and of a row and of a column of them, with every bit of the map set or none.
fn corners(tape: &mut Tape, rng: &mut Rng) {
    for (w, h) in [(12, 12), (12, 4), (4, 12)] {
        for unit in 0..(w / 4) * (h / 4) {
            let place = (unit % (w / 4), unit / (w / 4));
            for byte in [0, 255] {
                let mut held = held(rng, w, h);
                held.rows.fill(byte);
                tape.record(&Rows { w, h, held, edit: Some((place, edit(rng))) });
            }
        }
    }
}

/// 1, 2 and 8, each boundary, and their order; of each kind of call.
fn refusals(tape: &mut Tape, rng: &mut Rng) {
    let place = (2, 1);
    let motion = Edit::Motion([1, -1, 32767, -32768], [127, -128]);
    for edit in
        [None, Some((place, motion)), Some((place, Edit::Flag(15, true))), Some((place, Edit::Flag(24, false)))]
    {
        let good = Rows { w: 12, h: 8, held: held(rng, 12, 8), edit };
        tape.record(&good);
        let with = |held: Held| Rows { held, ..good.clone() };
        for bad in BAD_SIZES {
            tape.record(&Rows { w: bad, ..good.clone() });
            tape.record(&Rows { h: bad, ..with(Held { rows: vec![], ..good.held.clone() }) });
        }
        for words in wrong_lengths(&good.held.words) {
            tape.record(&with(Held { words, ..good.held.clone() }));
        }
        for motion in wrong_lengths(&good.held.motion) {
            tape.record(&with(Held { motion, ..good.held.clone() }));
        }
        for refs in wrong_lengths(&good.held.refs) {
            tape.record(&with(Held { refs, ..good.held.clone() }));
        }
        for rows in wrong_lengths(&good.held.rows) {
            tape.record(&with(Held { rows, ..good.held.clone() }));
        }
        let Some((_, edit)) = edit else { continue };
        for (x, y) in [(3, 0), (0, 2), (3, 2), (1 << 32, 0), (0, 1 << 32)] {
            tape.record(&Rows { edit: Some(((x, y), edit)), ..good.clone() });
            tape.record(&Rows { edit: Some(((x, y), edit)), ..with(Held { refs: vec![], ..good.held.clone() }) });
        }
    }
}
