//! Recorded cases of the derived chroma QP tables.
use super::data::{spoil, stretch, wrong_lengths};
use super::tape::{Case, Line, Tape};
use crate::model::chroma as model;
#[cfg(feature = "archive")]
use crate::product::{lend, Answer, Lending, Lent};
use crate::rng::Rng;
use oracle::chroma as rust;

#[derive(Clone)]
struct Points {
    count: usize,
    a: Vec<i8>,
    b: Vec<i8>,
}

#[derive(Clone)]
struct Derive {
    global: bool,
    same: bool,
    points: [Points; 2],
    tables: [Vec<i8>; 2],
}

impl Derive {
    fn points(&self, i: usize) -> model::Points<'_> {
        (self.points[i].count, &self.points[i].a, &self.points[i].b)
    }
}

impl Case for Derive {
    fn input(&self) -> Line {
        let line = Line::new().flag(self.global).flag(self.same);
        let line = self.points.iter().fold(line, |line, p| line.num(p.count).slice(&p.a).slice(&p.b));
        line.slice(&self.tables[0]).slice(&self.tables[1])
    }

    fn model(&self) -> Line {
        let [mut t0, mut t1] = self.tables.clone();
        let number = model::derive(self.global, self.same, self.points(0), self.points(1), &mut t0, &mut t1);
        Line::new().num(number).all(&t0).all(&t1)
    }

    fn rust(&self) -> Option<Line> {
        let [mut t0, mut t1] = self.tables.clone();
        rust::derive(self.global, self.same, self.points(0), self.points(1), &mut t0, &mut t1)?;
        Some(Line::new().num(0u8).all(&t0).all(&t1))
    }

    fn in_domain(&self) -> bool {
        model::fits(self.global, self.same, self.points(0), self.points(1))
    }

    #[cfg(feature = "archive")]
    fn product(&self, lending: Lending) -> Answer {
        let [p0, p1] = &self.points;
        let (a0, b0) = (Lent::new(lending, &p0.a), Lent::new(lending, &p0.b));
        let (a1, b1) = (Lent::new(lending, &p1.a), Lent::new(lending, &p1.b));
        let [mut t0, mut t1] = self.tables.each_ref().map(|table| Lent::new(lending, table));
        let number = unsafe {
            lend!(lomsakeun_derived_chroma_qp_mapping_tables(
                self.global, self.same, p0.count, in a0, in b0, p1.count, in a1, in b1, mut t0, mut t1
            ))
        };
        a0.kept(&p0.a)?;
        b0.kept(&p0.b)?;
        a1.kept(&p1.a)?;
        b1.kept(&p1.b)?;
        Ok(Line::new().num(number).all(t0.after()?).all(t1.after()?))
    }
}

pub fn record(tape: &mut Tape) {
    let rng = &mut Rng::new(0xc11);
    worked(tape, rng);
    products(tape, rng);
    for _ in 0..330 {
        tape.record(&accepted(rng, true));
    }
    for _ in 0..60 {
        tape.record(&accepted(rng, false));
    }
    lengths(tape, rng);
    counts(tape, rng);
    pivots(tape, rng);
    for i in 0..40_000 {
        tape.compare(&accepted(rng, i % 4 != 0));
    }
}

fn byte(rng: &mut Rng) -> i8 {
    rng.next() as i8
}

fn bytes(rng: &mut Rng, count: usize) -> Vec<i8> {
    (0..count).map(|_| byte(rng)).collect()
}

/// Points with these a and b, anything after them.
fn points(rng: &mut Rng, a: &[i8], b: &[i8]) -> Points {
    let mut p = Points { count: a.len(), a: bytes(rng, 58), b: bytes(rng, 58) };
    p.a[..a.len()].copy_from_slice(a);
    p.b[..b.len()].copy_from_slice(b);
    p
}

fn case(rng: &mut Rng, global: bool, same: bool, p0: Points, p1: Points) -> Derive {
    Derive { global, same, points: [p0, p1], tables: [bytes(rng, 70), bytes(rng, 70)] }
}

/// The paper's own two tables, and the plainest ones.
fn worked(tape: &mut Tape, rng: &mut Rng) {
    let five = (&[0, 5][..], &[0, -2][..]);
    let three = (&[0, 3][..], &[0, -6][..]);
    let one = (&[0][..], &[0][..]);
    for same in [false, true] {
        for global in [false, true] {
            for (first, second) in [(five, three), (three, five), (one, five), (three, one)] {
                let (p0, p1) = (points(rng, first.0, first.1), points(rng, second.0, second.1));
                let case = case(rng, global, same, p0, p1);
                // Started at -12 the second part of `three` would end below the range: that is 11.
                tape.record(&case);
            }
        }
    }
}

/// Products just inside and just outside the Rust's eight bits, in a part of two and of three steps.
fn products(tape: &mut Tape, rng: &mut Rng) {
    for (gap, rise) in [(2, 63), (2, 64), (2, -64), (2, -65), (3, 42), (3, 43), (3, -42), (3, -43)] {
        for global in [false, true] {
            let start = if global { 16 } else { -12 };
            let first = if rise > 0 { -12 } else { 57 };
            let p = points(rng, &[0, gap - 1], &[first - start, rise - gap]);
            let wild = wild_points(rng);
            tape.record(&case(rng, global, true, p, wild));
        }
    }
}

/// Accepted points. Near ones keep most products small, as the Rust's eight bits ask; far ones do not.
fn accepted_points(rng: &mut Rng, global: bool, near: bool) -> Points {
    let start = if global { 16 } else { -12 };
    let most = *[1, 2, 3, 5, 8, 20, 58].get(rng.below(7)).unwrap();
    let first = rng.range(0, if most == 58 { 2 } else { 20 });
    let (mut a, mut b) = (vec![first as i8], vec![]);
    let (mut i, mut o) = (start + first, rng.range(-12, 57));
    b.push((o - i) as i8);
    while a.len() < most && i < 57 {
        let widest = if most > 8 {
            1
        } else if near {
            9
        } else {
            50
        };
        let gap = rng.range(1, widest.min(57 - i));
        let reach = if near { 110 / gap } else { 69 };
        let next = rng.range((o - reach).max(-12), (o + reach).min(57));
        a.push((gap - 1) as i8);
        b.push((next - o - gap) as i8);
        (i, o) = (i + gap, next);
    }
    points(rng, &a, &b)
}

fn accepted(rng: &mut Rng, near: bool) -> Derive {
    let (global, same) = (rng.one_in(2), rng.one_in(3));
    let p0 = accepted_points(rng, global, near);
    let p1 = if same { wild_points(rng) } else { accepted_points(rng, global, near) };
    case(rng, global, same, p0, p1)
}

/// Points that no table would accept; with the one-table flag they do not matter.
fn wild_points(rng: &mut Rng) -> Points {
    Points { count: rng.pick(&[0, 1, 58, 59, 1000]), a: bytes(rng, 58), b: bytes(rng, 58) }
}

/// 2: each of the six slices, also the second points' with the one-table flag, also beside a 10.
fn lengths(tape: &mut Tape, rng: &mut Rng) {
    for same in [false, true] {
        let (p0, p1) = (points(rng, &[0, 5], &[0, -2]), points(rng, &[3], &[0]));
        let good = case(rng, true, same, p0, p1);
        for i in 0..2 {
            for a in wrong_lengths(&good.points[i].a) {
                let mut bad = good.clone();
                bad.points[i].a = a;
                tape.record(&bad);
            }
            for b in wrong_lengths(&good.points[i].b) {
                let mut bad = good.clone();
                bad.points[i].b = b;
                bad.points[0].count = rng.pick(&[0, 2]);
                tape.record(&bad);
            }
            for t in wrong_lengths(&good.tables[i]) {
                let mut bad = good.clone();
                bad.tables[i] = t;
                bad.points[0].a[0] = rng.pick(&[-1, 0, 100]);
                tape.record(&bad);
            }
        }
    }
}

/// 10 and its boundary: counts 0, 1, 58, 59; an a below 0 inside and just past the points counted; before 11.
fn counts(tape: &mut Tape, rng: &mut Rng) {
    let plain = points(rng, &[0; 58], &[0; 58]);
    for (i, same) in [(0, false), (0, true), (1, false), (1, true)] {
        for count in [0, 1, 57, 58, 59, 60, 70, 1 << 32, (1 << 32) + 1] {
            let mut bad = case(rng, false, same, plain.clone(), plain.clone());
            bad.points[i].count = count;
            tape.record(&bad);
        }
        for (count, at) in [(1, 0), (5, 0), (5, 2), (5, 4), (5, 5), (58, 57), (57, 57)] {
            let mut bad = case(rng, false, same, plain.clone(), plain.clone());
            bad.points[i].count = count;
            bad.points[i].a[at] = rng.pick(&[-1, -1, -2, -128]);
            tape.record(&bad);
            bad.points[1 - i].b[0] = 100;
            tape.record(&bad);
        }
    }
}

/// 11 and its boundary: a pivot's in or out just inside and just outside, first, middle and last, either table.
fn pivots(tape: &mut Tape, rng: &mut Rng) {
    for (i, same) in [(0, false), (0, true), (1, false), (1, true)] {
        for global in [false, true] {
            let start: i64 = if global { 16 } else { -12 };
            let fine = points(rng, &[0, 1, 1], &[10, 0, 0]);
            for last in [56, 57, 58, 59, 100] {
                let a = [0, 1, (last - start - 3) as i8];
                let p = points(rng, &a, &[10, 0, -5 - a[2] - 1]);
                record_at(tape, rng, (global, same, i), &fine, p);
            }
            for first in [57, 58, 90, 127] {
                let p = points(rng, &[(first - start).min(127) as i8], &[-20]);
                record_at(tape, rng, (global, same, i), &fine, p);
            }
            for (at, out) in [(0, -12), (0, -13), (0, 57), (0, 58), (1, -12), (1, -13), (2, 57), (2, 58), (2, -13)]
            {
                let p = points_through(rng, start, at, out);
                record_at(tape, rng, (global, same, i), &fine, p);
            }
        }
    }
}

/// Three pivots, in start, start+2, start+4, whose outs are 20 but for one.
fn points_through(rng: &mut Rng, start: i64, at: usize, out: i64) -> Points {
    let mut outs = [20, 20, 20];
    outs[at] = out;
    let b = [outs[0] - start, outs[1] - outs[0] - 2, outs[2] - outs[1] - 2];
    points(rng, &[0, 1, 1], &b.map(|v| v as i8))
}

fn record_at(tape: &mut Tape, rng: &mut Rng, (global, same, i): (bool, bool, usize), fine: &Points, p: Points) {
    let mut bad = case(rng, global, same, fine.clone(), fine.clone());
    bad.points[i] = p;
    tape.record(&bad);
}

pub fn draw(rng: &mut Rng) -> Box<dyn Case> {
    let near = !rng.one_in(8);
    Box::new(accepted(rng, near))
}

pub fn damaged(rng: &mut Rng) -> Box<dyn Case> {
    let mut case = accepted(rng, true);
    for _ in 0..1 + rng.below(2) {
        let i = rng.below(2);
        match rng.below(7) {
            0 => spoil(rng, &mut case.points[i].count),
            1 => stretch(rng, &mut case.points[i].a),
            2 => stretch(rng, &mut case.points[i].b),
            3 => stretch(rng, &mut case.tables[i]),
            4 => case.points[i] = wild_points(rng),
            5 => change(rng, &mut case.points[i].a),
            _ => change(rng, &mut case.points[i].b),
        }
    }
    Box::new(case)
}

/// One of the first few bytes is anything.
fn change(rng: &mut Rng, values: &mut [i8]) {
    if !values.is_empty() {
        let at = rng.below(values.len().min(4));
        values[at] = byte(rng);
    }
}
