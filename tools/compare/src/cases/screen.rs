//! Cases of the ward screen. There is no Rust to ask here: every answer is the model's.
use super::data::{overdo, samples, size, spoil, stretch};
use super::tape::{Case, Line, Tape};
use crate::model::screen::{self as model, Shown, Turn};
#[cfg(feature = "archive")]
use crate::product::{lend, Answer, Lending, Lent};
use crate::rng::Rng;

#[derive(Clone)]
struct Row {
    turn: Turn,
    asked: (usize, usize),
    shown: Shown,
    out: Vec<u8>,
}

impl Case for Row {
    fn input(&self) -> Line {
        let Row { turn, asked, shown, out } = self;
        let line = Line::new().flag(turn.preview).num(turn.plane).num(turn.row).num(asked.0).num(asked.1);
        let line = line.flag(shown.colour).all(&shown.sides);
        shown.planes.iter().fold(line, |line, plane| line.slice(plane)).all(&shown.window).slice(out)
    }

    fn model(&self) -> Line {
        let mut out = self.out.clone();
        let found = model::row(self.turn, self.asked, &self.shown, &mut out);
        let (turn, written) = found.unwrap_or((self.turn, 0));
        Line::new().num(found.err().unwrap_or(0)).num(turn.plane).num(turn.row).num(written).all(&out)
    }

    #[cfg(feature = "archive")]
    fn product(&self, lending: Lending) -> Answer {
        let Row { turn, asked, shown, out: before } = self;
        let [y, u, v] = shown.planes.each_ref().map(|plane| Lent::new(lending, plane));
        let mut out = Lent::new(lending, before);
        let (mut plane, mut row, mut written) = (turn.plane, turn.row, 0);
        let ([w, h], [left, top, right, bottom]) = (shown.sides, shown.window);
        let number = unsafe {
            lend!(lomsakeun_ward_row(
                turn.preview, &mut plane, &mut row, asked.0, asked.1, shown.colour, w, h, in y, in u, in v, left,
                top, right, bottom, mut out, &mut written
            ))
        };
        for (lent, plane) in [&y, &u, &v].into_iter().zip(&shown.planes) {
            lent.kept(plane)?;
        }
        Ok(Line::new().num(number).num(plane).num(row).num(written).all(out.after()?))
    }
}

// ---- what is drawn

/// Two edges of a window along a side.
fn edges(rng: &mut Rng, side: usize) -> (usize, usize) {
    let low = 4 * rng.below(side / 4);
    (low, low + size(rng, side - low))
}

fn picture(rng: &mut Rng, most: usize) -> Shown {
    let (w, h, colour) = (size(rng, most), size(rng, most), !rng.one_in(3));
    let c = if colour { (w / 2) * (h / 2) } else { 0 };
    let planes = [samples(rng, w * h), samples(rng, c), samples(rng, c)];
    let ((left, right), (top, bottom)) = (edges(rng, w), edges(rng, h));
    Shown { colour, sides: [w, h], planes, window: [left, top, right, bottom] }
}

fn accepted(rng: &mut Rng, most: usize) -> Row {
    let (shown, preview) = (picture(rng, most), rng.one_in(2));
    let order = shown.order(preview);
    // The first row, the last, and the last of luma, each more often than any other.
    let high = (shown.window[3] - shown.window[1]) / if preview { 2 } else { 1 };
    let place = match rng.below(6) {
        0 => 0,
        1 => order.len() - 1,
        2 => high - 1,
        _ => rng.below(order.len()),
    };
    let (plane, row) = order[place];
    let out = (0..shown.sides[0]).map(|_| rng.next() as u8).collect();
    Row { turn: Turn { preview, plane, row }, asked: (plane, row), shown, out }
}

fn damage(rng: &mut Rng, case: &mut Row) {
    let (side, third, edge) = (rng.below(2), rng.below(3), rng.below(4));
    match rng.below(15) {
        0 => spoil(rng, &mut case.shown.sides[side]),
        1 => stretch(rng, &mut case.shown.planes[third]),
        2 => stretch(rng, &mut case.out),
        3 => case.shown.colour = !case.shown.colour,
        4 => spoil(rng, &mut case.shown.window[edge]),
        5 => case.shown.window[edge] = rng.pick(&[0, 1, 2, 1 << 32, (1 << 59) - 4, 1 << 59]),
        6 => case.shown.window.swap(side, side + 2),
        7 => spoil(rng, &mut case.turn.row),
        8 => case.turn.plane = rng.pick(&[0, 1, 2, 3, 1 << 32]),
        9 => spoil(rng, &mut case.asked.1),
        10 => case.asked.0 = rng.below(4),
        11 => overdo(rng, &mut case.shown.planes[third]),
        _ => (0..9).for_each(|_| overdo(rng, &mut case.shown.planes[case.turn.plane.min(2)])),
    }
}

fn damaged_row(rng: &mut Rng, most: usize) -> Row {
    let mut case = accepted(rng, most);
    for _ in 0..1 + rng.below(2) {
        damage(rng, &mut case);
    }
    case
}

// ---- recordings

/// Every row of a picture in turn, and one more.
fn run(tape: &mut Tape, rng: &mut Rng, colour: bool, preview: bool) {
    let c = if colour { 16 } else { 0 };
    let planes = [samples(rng, 64), samples(rng, c), samples(rng, c)];
    let shown = Shown { colour, sides: [8, 8], planes, window: [4, 0, 8, 8] };
    let mut turn = Turn { preview, plane: 0, row: 0 };
    for _ in 0..=shown.order(preview).len() {
        let case =
            Row { turn, asked: (turn.plane, turn.row), shown: shown.clone(), out: vec![rng.next() as u8; 8] };
        tape.record(&case);
        turn = model::row(turn, case.asked, &shown, &mut [0; 8]).map_or(turn, |(next, _)| next);
    }
}

/// The samples on both sides of a rounding and of the hold, a row of 16.
fn borders(tape: &mut Tape) {
    let row: [u16; 16] = [0, 1, 2, 3, 5, 6, 510, 511, 1013, 1014, 1017, 1018, 1020, 1021, 1022, 1023];
    let luma = [row, row, [1023; 16], [1024; 16]].concat();
    for preview in [false, true] {
        for row in 0..4 {
            let shown = Shown {
                colour: false,
                sides: [16, 4],
                planes: [luma.clone(), vec![], vec![]],
                window: [0, 0, 16, 4],
            };
            tape.record(&Row { turn: Turn { preview, plane: 0, row }, asked: (0, row), shown, out: vec![9; 16] });
        }
    }
}

/// The last row of each plane, of pictures up to 128 wide: the product makes the preview sixteen samples at a time, and then the rest; with a sample over
/// 1023 in the last column, too.
fn wide(tape: &mut Tape, rng: &mut Rng) {
    for (w, left) in [(28, 0), (32, 0), (36, 0), (36, 4), (64, 0), (68, 0), (68, 4), (128, 0)] {
        let planes = [samples(rng, 4 * w), samples(rng, w), samples(rng, w)];
        let shown = Shown { colour: true, sides: [w, 4], planes, window: [left, 0, w, 4] };
        for preview in [false, true] {
            for plane in 0..3 {
                let row = shown.order(preview).into_iter().filter(|each| each.0 == plane).count() - 1;
                let out = (0..w).map(|_| rng.next() as u8).collect();
                let mut case =
                    Row { turn: Turn { preview, plane, row }, asked: (plane, row), shown: shown.clone(), out };
                tape.record(&case);
                *case.shown.planes[plane].last_mut().unwrap() = 1024;
                tape.record(&case);
            }
        }
    }
}

pub fn record(tape: &mut Tape) {
    let rng = &mut Rng::new(0x5c4e);
    borders(tape);
    for (colour, preview) in [(false, false), (false, true), (true, false), (true, true)] {
        run(tape, rng, colour, preview);
    }
    for _ in 0..220 {
        tape.record(&accepted(rng, 24));
    }
    for _ in 0..420 {
        tape.record(&damaged_row(rng, 24));
    }
    wide(tape, rng);
}

#[cfg(feature = "archive")]
pub fn draw(rng: &mut Rng) -> Box<dyn Case> {
    let most = rng.pick(&[8, 24, 64, 136]);
    Box::new(accepted(rng, most))
}

#[cfg(feature = "archive")]
pub fn damaged(rng: &mut Rng) -> Box<dyn Case> {
    Box::new(damaged_row(rng, 48))
}
