//! Derived chroma QP tables.
use super::*;

/// Count, a, b.
pub type Points<'a> = (usize, &'a [i8], &'a [i8]);

pub fn derive(global: bool, same: bool, p0: Points, p1: Points, t0: &mut [i8], t1: &mut [i8]) -> u32 {
    let points_long = [p0, p1].iter().all(|(_, a, b)| a.len() == 58 && b.len() == 58);
    if !points_long || t0.len() != 70 || t1.len() != 70 {
        return LENGTH;
    }
    let used = if same { vec![p0] } else { vec![p0, p1] };
    if !used.iter().all(counted_ok) {
        return POINTS;
    }
    if !used.iter().all(|&points| pivots(global, points).iter().all(|&(i, o)| in_range(i) && in_range(o))) {
        return PIVOT;
    }
    write(&table(global, p0), t0);
    write(&table(global, *used.last().unwrap()), t1);
    DONE
}

/// Whether every sum and product of an accepted derivation fits eight signed bits: the Rust's domain.
pub fn fits(global: bool, same: bool, p0: Points, p1: Points) -> bool {
    let used = if same { vec![p0] } else { vec![p0, p1] };
    used.iter().all(|&points| {
        let pivots = pivots(global, points);
        pivots.windows(2).all(|pair| {
            let (n, rise) = (pair[1].0 - pair[0].0, pair[1].1 - pair[0].1);
            (1..=n).all(|m| fits_byte(rise * m) && fits_byte(rise * m + n / 2))
        })
    })
}

fn fits_byte(v: i64) -> bool {
    (-128..=127).contains(&v)
}

fn in_range(v: i64) -> bool {
    (-12..=57).contains(&v)
}

fn counted_ok(&(count, a, _): &Points) -> bool {
    (1..=58).contains(&count) && a[..count].iter().all(|&a| a >= 0)
}

/// Each pivot, in and out.
fn pivots(global: bool, (count, a, b): Points) -> Vec<(i64, i64)> {
    let start = if global { 16 } else { -12 };
    let (a, b) = (|j: usize| a[j] as i64, |j: usize| b[j] as i64);
    let mut list = vec![(start + a(0), start + a(0) + b(0))];
    for j in 1..count {
        let (i, o) = list[j - 1];
        list.push((i + a(j) + 1, o + a(j) + 1 + b(j)));
    }
    list
}

/// The 70 values, that of QP q at 12 + q.
fn table(global: bool, points: Points) -> [i64; 70] {
    let pivots = pivots(global, points);
    let at = |q: i64| (12 + q) as usize;
    let mut t = [0; 70];
    let (first, out) = pivots[0];
    t[at(first)] = out;
    for q in (-12..first).rev() {
        t[at(q)] = (t[at(q + 1)] - 1).clamp(-12, 57);
    }
    for pair in pivots.windows(2) {
        let ((i0, o0), (i1, o1)) = (pair[0], pair[1]);
        let n = i1 - i0;
        for m in 1..=n {
            t[at(i0 + m)] = t[at(i0)] + ((o1 - o0) * m + n / 2) / n;
        }
    }
    for q in pivots.last().unwrap().0 + 1..=57 {
        t[at(q)] = (t[at(q - 1)] + 1).clamp(-12, 57);
    }
    t
}

fn write(values: &[i64; 70], t: &mut [i8]) {
    for (place, &value) in t.iter_mut().zip(values) {
        *place = i8::try_from(value).expect("a chroma table value fits a signed byte");
    }
}
