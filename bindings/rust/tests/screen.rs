//! The ward screen: whole runs against the rule written out again, and each refusal.
use lomsakeun::{Planes, Refusal, Run, Shown, Turn, Window};

/// A picture of numbers that are no pattern, with 1021, 1022 and 1023 among them.
fn plane(n: usize, seed: usize) -> Vec<u16> {
    let number = |i: usize| (i * 2654435761 + seed * 40503) / 7 % 1024;
    (0..n).map(|i| if i % 11 < 3 { 1021 + (i % 11) as u16 } else { number(i) as u16 }).collect()
}

fn planes(w: usize, h: usize, colour: bool) -> [Vec<u16>; 3] {
    let chroma = if colour { w / 2 * (h / 2) } else { 0 };
    [plane(w * h, 1), plane(chroma, 2), plane(chroma, 3)]
}

fn shown(p: &[Vec<u16>; 3], w: usize, h: usize, colour: bool) -> Shown<'_> {
    Shown { w, h, planes: Planes { y: &p[0], chroma: colour.then(|| [&p[1][..], &p[2]]) } }
}

fn window(left: usize, top: usize, right: usize, bottom: usize) -> Window {
    Window { left, top, right, bottom }
}

/// The rule: each sample (v + 2) / 4 held at 255; in the preview (sum + 2) / 4 of four of those.
fn rows(run: Run, plane: &[u16], w: usize, s: usize, c: Window) -> Vec<Vec<u8>> {
    let (left, top, right, bottom) = (c.left / s, c.top / s, c.right / s, c.bottom / s);
    let byte = |x: usize, y: usize| ((plane[y * (w / s) + x] as usize + 2) / 4).min(255);
    let full = || (top..bottom).map(|y| (left..right).map(|x| byte(x, y) as u8).collect()).collect();
    let four = |x: usize, y: usize| (byte(x, y) + byte(x + 1, y) + byte(x, y + 1) + byte(x + 1, y + 1) + 2) / 4;
    match run {
        Run::Full => full(),
        Run::Preview => {
            (top..bottom).step_by(2).map(|y| (left..right).step_by(2).map(|x| four(x, y) as u8).collect()).collect()
        }
    }
}

#[test]
fn whole_runs() {
    let mut compared = 0;
    for (w, h) in [(4, 4), (8, 4), (16, 12), (36, 20)] {
        for colour in [false, true] {
            let p = planes(w, h, colour);
            for run in [Run::Full, Run::Preview] {
                for left in (0..w).step_by(4) {
                    for right in (left + 4..=w).step_by(4) {
                        let c = window(left, (h - 4) / 8 * 4, right, h);
                        let mut turn = Turn::first(run);
                        for k in 0..if colour { 3 } else { 1 } {
                            for (r, expected) in rows(run, &p[k], w, if k == 0 { 1 } else { 2 }, c).iter().enumerate() {
                                let mut out = vec![77u8; w];
                                let (next, n) = turn.row(k, r, shown(&p, w, h, colour), c, &mut out).unwrap();
                                assert_eq!(&out[..n], expected.as_slice());
                                assert!(out[n..].iter().all(|&b| b == 77));
                                turn = next;
                                compared += 1;
                            }
                        }
                        let mut out = vec![77u8; w];
                        let (plane, row) = (turn.plane(), turn.row_number());
                        let (refusal, _) = turn.row(plane, row, shown(&p, w, h, colour), c, &mut out).unwrap_err();
                        assert_eq!(refusal, Refusal::Turn);
                        assert_eq!(out, vec![77u8; w]);
                    }
                }
            }
        }
    }
    assert!(1000 < compared, "{compared} rows");
}

/// The turn comes back as it was, and nothing is written.
fn refused(refusal: Refusal, run: Run, (plane, row): (usize, usize), s: Shown<'_>, c: Window, room: usize) {
    let mut out = vec![77u8; room];
    assert_eq!(Turn::first(run).row(plane, row, s, c, &mut out), Err((refusal, Turn::first(run))));
    assert_eq!(out, vec![77u8; room]);
}

#[test]
fn refusals_in_order() {
    let p = planes(16, 8, true);
    let good = shown(&p, 16, 8, true);
    let all = window(0, 0, 16, 8);
    let off = window(0, 0, 16, 9);
    let mut over = p.clone();
    over[0][16 * 7 + 15] = 1024;
    over[0][3] = 1024;
    let bad = shown(&over, 16, 8, true);
    for run in [Run::Full, Run::Preview] {
        refused(Refusal::Size, run, (1, 0), Shown { w: 18, ..bad }, off, 3);
        refused(Refusal::Length, run, (1, 0), bad, off, 15);
        refused(Refusal::Length, run, (1, 0), bad, off, 17);
        let lent = |y, u, v| Shown { planes: Planes::colour(y, u, v), ..bad };
        refused(Refusal::Length, run, (1, 0), lent(&p[0][1..], &p[1], &p[2]), off, 16);
        refused(Refusal::Length, run, (1, 0), lent(&p[0], &p[1][1..], &p[2]), off, 16);
        refused(Refusal::Length, run, (1, 0), lent(&p[0], &p[1], &[]), off, 16);
        refused(Refusal::Window, run, (1, 0), bad, off, 16);
        refused(Refusal::Turn, run, (1, 0), bad, all, 16);
        refused(Refusal::Turn, run, (0, 1), bad, all, 16);
        refused(Refusal::Sample, run, (0, 0), bad, all, 16);
        let max = usize::MAX;
        for c in [
            window(2, 0, 16, 8),
            window(0, 2, 16, 8),
            window(0, 0, 14, 8),
            window(0, 0, 16, 6),
            window(4, 0, 4, 8),
            window(0, 4, 16, 4),
            window(8, 0, 4, 8),
            window(0, 8, 16, 4),
            window(0, 0, 20, 8),
            window(0, 0, 16, 12),
            window(max, max, max, max),
            window(0, 0, max - 3, 8),
            window(0, 0, 16, max - 3),
            window(max - 3, 0, 16, 8),
        ] {
            refused(Refusal::Window, run, (0, 0), good, c, 16);
        }
        // A sample outside the window, or of another row, is not judged.
        let mut out = [0u8; 16];
        assert!(Turn::first(run).row(0, 0, bad, window(4, 0, 12, 8), &mut out).is_ok());
    }
}
