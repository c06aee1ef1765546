//! Recorded cases of YUV4MPEG2 streams. There is no Rust to ask here: every answer is the model's.
use super::data::{samples, size, spoil, stale, stretch};
use super::tape::{Case, Line, Tape};
use crate::model::streams::{self as model, Planes};
#[cfg(feature = "archive")]
use crate::product::{lend, Answer, Lending, Lent};
use crate::rng::Rng;

/// A call. On a tape each has its number, the first of its line.
#[derive(Clone)]
enum Call {
    /// 0: a stream
    ReadHeader(Vec<u8>),
    /// 1: colour, w, h, F and A, the buffer
    WriteHeader(bool, [usize; 2], [usize; 4], Vec<u8>),
    /// 2: a stream, a place, w, h, the planes
    ReadFrame(Vec<u8>, usize, [usize; 2], Planes),
    /// 3: colour, w, h, the planes, the bytes
    WriteFrame(bool, [usize; 2], Planes, Vec<u8>),
    /// 4: a stream, the planes
    Import(Vec<u8>, Planes),
}

fn with_planes(line: Line, planes: &Planes) -> Line {
    planes.iter().fold(line, |line, plane| line.slice(plane))
}

/// The number, and what a header's reading answers: its place, the seven numbers.
fn said(found: Result<model::Said, model::Refused>) -> Line {
    match found {
        Ok(said) => Line::new().num(0u8).num(0u8).all(&said),
        Err((number, at)) => Line::new().num(number).num(at).all(&[0usize; 7]),
    }
}

impl Case for Call {
    fn input(&self) -> Line {
        match self {
            Call::ReadHeader(stream) => Line::new().num(0u8).slice(stream),
            Call::WriteHeader(colour, sides, numbers, out) => {
                Line::new().num(1u8).flag(*colour).all(sides).all(numbers).slice(out)
            }
            Call::ReadFrame(stream, at, sides, planes) => {
                with_planes(Line::new().num(2u8).slice(stream).num(*at).all(sides), planes)
            }
            Call::WriteFrame(colour, sides, planes, out) => {
                with_planes(Line::new().num(3u8).flag(*colour).all(sides), planes).slice(out)
            }
            Call::Import(stream, planes) => with_planes(Line::new().num(4u8).slice(stream), planes),
        }
    }

    fn model(&self) -> Line {
        match self.clone() {
            Call::ReadHeader(stream) => said(model::read_header(&stream)),
            Call::WriteHeader(colour, sides, numbers, mut out) => {
                let found = model::write_header(colour, sides, numbers, &mut out);
                let line = Line::new().num(found.err().unwrap_or(0)).num(found.unwrap_or(0));
                line.all(&out)
            }
            Call::ReadFrame(stream, at, [w, h], mut planes) => {
                let found = model::read_frame(&stream, at, w, h, &mut planes);
                let (number, place) = found.err().unwrap_or((0, 0));
                let line = Line::new().num(number).num(place).num(found.unwrap_or(0));
                line.all(&planes.concat())
            }
            Call::WriteFrame(colour, [w, h], planes, mut out) => {
                let found = model::write_frame(colour, w, h, &planes, &mut out);
                Line::new().num(found.err().unwrap_or(0)).all(&out)
            }
            Call::Import(stream, mut planes) => {
                said(model::import_frame(&stream, &mut planes)).all(&planes.concat())
            }
        }
    }

    #[cfg(feature = "archive")]
    fn product(&self, lending: Lending) -> Answer {
        match self {
            Call::ReadHeader(stream) => {
                let lent = Lent::new(lending, stream);
                let mut n = [0usize; 8];
                let [w, h, f, g, a, b, next, at] = &mut n;
                let number = unsafe { lend!(lomsakeun_read_header(in lent, w, h, f, g, a, b, next, at)) };
                lent.kept(stream)?;
                Ok(Line::new().num(number).num(n[7]).all(&n[..7]))
            }
            Call::WriteHeader(colour, [w, h], [f, g, a, b], before) => {
                let mut out = Lent::new(lending, before);
                let mut count = 0;
                let number =
                    unsafe { lend!(lomsakeun_write_header(*colour, *w, *h, *f, *g, *a, *b, mut out, &mut count)) };
                Ok(Line::new().num(number).num(count).all(out.after()?))
            }
            Call::ReadFrame(stream, place, [w, h], planes) => {
                let lent = Lent::new(lending, stream);
                let [mut y, mut u, mut v] = planes.each_ref().map(|plane| Lent::new(lending, plane));
                let (mut next, mut at) = (0, 0);
                let number = unsafe {
                    lend!(lomsakeun_read_frame(in lent, *place, *w, *h, mut y, mut u, mut v, &mut next, &mut at))
                };
                lent.kept(stream)?;
                let line = Line::new().num(number).num(at).num(next);
                Ok(line.all(y.after()?).all(u.after()?).all(v.after()?))
            }
            Call::WriteFrame(colour, [w, h], planes, before) => {
                let [y, u, v] = planes.each_ref().map(|plane| Lent::new(lending, plane));
                let mut out = Lent::new(lending, before);
                let number = unsafe { lend!(lomsakeun_write_frame(*colour, *w, *h, in y, in u, in v, mut out)) };
                for (lent, plane) in [&y, &u, &v].into_iter().zip(planes) {
                    lent.kept(plane)?;
                }
                Ok(Line::new().num(number).all(out.after()?))
            }
            Call::Import(stream, planes) => {
                let lent = Lent::new(lending, stream);
                let [mut y, mut u, mut v] = planes.each_ref().map(|plane| Lent::new(lending, plane));
                let mut n = [0usize; 8];
                let [w, h, f, g, a, b, next, at] = &mut n;
                let number = unsafe {
                    lend!(lomsakeun_import_frame(in lent, mut y, mut u, mut v, w, h, f, g, a, b, next, at))
                };
                lent.kept(stream)?;
                let line = Line::new().num(number).num(n[7]).all(&n[..7]);
                Ok(line.all(y.after()?).all(u.after()?).all(v.after()?))
            }
        }
    }
}

// ---- what is drawn

/// A number of F or A, often at an end of its range.
fn term(rng: &mut Rng) -> usize {
    match rng.below(4) {
        0 => rng.pick(&[1, 9, 10, 99, 100, 9999, 10000, 65534, 65535]),
        _ => 1 + rng.below(65535),
    }
}

/// The words of a header of a picture of w by h, in some order, with words that start with X among them.
fn words(rng: &mut Rng, w: usize, h: usize) -> Vec<String> {
    let mut all = vec![format!("W{w}"), format!("H{h}"), "C420p10".to_string()];
    if !rng.one_in(4) {
        all.push(format!("F{}:{}", term(rng), term(rng)));
    }
    if !rng.one_in(4) {
        all.push("Ip".to_string());
    }
    if !rng.one_in(4) {
        all.push(format!("A{}:{}", term(rng), term(rng)));
    }
    for _ in 0..rng.below(3) {
        all.push(rng.pick(&["X", "XYSCSS=420P10", "XCOLORRANGE=LIMITED", "XX", "XW4", "X:1"]).to_string());
    }
    for i in (1..all.len()).rev() {
        all.swap(i, rng.below(i + 1));
    }
    all
}

fn joined(words: &[String]) -> Vec<u8> {
    format!("YUV4MPEG2 {}\n", words.join(" ")).into_bytes()
}

fn header(rng: &mut Rng) -> Vec<u8> {
    let (w, h) = match rng.below(3) {
        0 => (4096, 4 * (1 + rng.below(1024))),
        _ => (size(rng, 64), size(rng, 64)),
    };
    joined(&words(rng, w, h))
}

fn bad_word(rng: &mut Rng) -> String {
    let words = [
        "", "W", "H", "F", "I", "A", "C", "Z", "x", "W0", "W04", "W100000", "W99999", "W5000", "H6", "H-4", "F25",
        "F25:", "F:1", "F0:1", "F1:0", "F65536:1", "F1:65536", "F1:1:1", "F01:1", "A0:0", "A1:01", "It", "I?",
        "Ipp", "C420", "C420p12", "C420p10 ", "C444p10", "Cmono10", "W4", "H4", "F1:1", "Ip", "A1:1", "C420p10",
        "w4", "W4\r", "W 4", "XA",
    ];
    rng.pick(&words).to_string()
}

/// A header with one or two things wrong with it: a word, a byte, its end, its length.
fn damaged_header(rng: &mut Rng) -> Vec<u8> {
    let (w, h) = (size(rng, 64), size(rng, 64));
    let mut all = words(rng, w, h);
    if rng.one_in(2) {
        for _ in 0..1 + rng.below(2) {
            let at = rng.below(all.len());
            match rng.below(4) {
                0 => all[at] = bad_word(rng),
                1 => all.insert(at, bad_word(rng)),
                2 if all.len() > 1 => drop(all.remove(at)),
                _ => all.push(all[at].clone()),
            }
        }
        return joined(&all);
    }
    if rng.one_in(8) {
        let long = rng.pick(&[200, 230, 240, 250, 255, 256, 257, 300]);
        all.push(format!("X{}", "x".repeat(long.max(joined(&all).len() + 2) - joined(&all).len() - 2)));
        return joined(&all);
    }
    let mut text = joined(&all);
    for _ in 0..1 + rng.below(2) {
        let at = rng.below(text.len());
        match rng.below(6) {
            0 => text[at] = rng.next() as u8,
            1 => text[at] = rng.pick(b" \n\r0123456789:XWHFIACp\0"),
            2 => drop(text.remove(at)),
            3 => text.insert(at, rng.pick(b" \n0159:XWHFIACp")),
            4 => text.truncate(at + 1),
            _ => text.swap(at, rng.below(at + 1)),
        }
        if text.is_empty() {
            return text;
        }
    }
    text
}

fn planes(rng: &mut Rng, w: usize, h: usize) -> Planes {
    let c = (w / 2) * (h / 2);
    [samples(rng, w * h), samples(rng, c), samples(rng, c)]
}

fn lent(rng: &mut Rng, w: usize, h: usize) -> Planes {
    let c = (w / 2) * (h / 2);
    [stale(rng, w * h), stale(rng, c), stale(rng, c)]
}

fn frame(rng: &mut Rng, w: usize, h: usize) -> Vec<u8> {
    let mut bytes = b"FRAME\n".to_vec();
    bytes.extend(planes(rng, w, h).concat().iter().flat_map(|sample| sample.to_le_bytes()));
    bytes
}

/// A stream of one frame or two, of a small picture.
fn stream(rng: &mut Rng, w: usize, h: usize) -> Vec<u8> {
    let mut bytes = joined(&words(rng, w, h));
    for _ in 0..1 + rng.below(2) {
        bytes.extend(frame(rng, w, h));
    }
    bytes
}

fn accepted(rng: &mut Rng) -> Call {
    let (w, h) = (size(rng, 12), size(rng, 12));
    match rng.below(5) {
        0 => Call::ReadHeader(header(rng)),
        1 => {
            let numbers = [term(rng), term(rng), term(rng), term(rng)];
            Call::WriteHeader(true, [size(rng, 4096), size(rng, 4096)], numbers, vec![rng.next() as u8; 256])
        }
        2 => {
            let mut bytes = vec![rng.next() as u8; rng.below(9)];
            let at = bytes.len();
            bytes.extend(frame(rng, w, h));
            bytes.extend(vec![rng.next() as u8; rng.below(9)]);
            Call::ReadFrame(bytes, at, [w, h], lent(rng, w, h))
        }
        3 => {
            let planes = planes(rng, w, h);
            let n = 6 + 2 * planes.concat().len();
            Call::WriteFrame(true, [w, h], planes, vec![rng.next() as u8; n])
        }
        _ => Call::Import(stream(rng, w, h), lent(rng, w, h)),
    }
}

/// A frame's line, a byte of it, its end, or a sample.
fn spoil_bytes(rng: &mut Rng, bytes: &mut Vec<u8>) {
    let at = rng.below(bytes.len());
    match rng.below(5) {
        0 => bytes[at] = rng.next() as u8,
        1 => bytes.truncate(at),
        2 => bytes.insert(at, rng.pick(b" \nF\x04")),
        3 => drop(bytes.remove(at)),
        _ => {
            let line = bytes.windows(6).position(|six| six == b"FRAME\n").unwrap_or(0);
            let to = (line + 6).min(bytes.len());
            let other = rng.pick(&["FRAME Ip\n", "FRAME \n", "FRAMES\n", "FRAM\n", "\n", "FRAME\r\n"]);
            bytes.splice(line..to, other.bytes());
        }
    }
}

fn damaged_call(rng: &mut Rng) -> Call {
    let mut case = accepted(rng);
    for _ in 0..1 + rng.below(2) {
        let (side, third) = (rng.below(2), rng.below(3));
        match &mut case {
            Call::ReadHeader(text) => *text = damaged_header(rng),
            Call::WriteHeader(colour, sides, numbers, out) => match rng.below(4) {
                0 => *colour = false,
                1 => spoil(rng, &mut sides[side]),
                2 => numbers[side + third] = rng.pick(&[0, 65536, 100000, usize::MAX >> 1]),
                _ => stretch(rng, out),
            },
            Call::ReadFrame(bytes, at, sides, planes) => match rng.below(5) {
                0 => spoil(rng, &mut sides[side]),
                1 => stretch(rng, &mut planes[third]),
                2 => *at = rng.pick(&[0, 1, bytes.len(), bytes.len() + 1, 1 << 40]),
                _ if !bytes.is_empty() => spoil_bytes(rng, bytes),
                _ => {}
            },
            Call::WriteFrame(colour, sides, planes, out) => match rng.below(6) {
                0 => *colour = false,
                1 => {
                    *colour = false;
                    planes[1].clear();
                    planes[2].clear();
                    out.truncate(6 + 2 * planes[0].len());
                }
                2 => spoil(rng, &mut sides[side]),
                3 => stretch(rng, &mut planes[third]),
                4 => stretch(rng, out),
                _ => {
                    let plane = &mut planes[third];
                    if !plane.is_empty() {
                        let at = rng.below(plane.len());
                        plane[at] = rng.pick(&[1023, 1024, 65535]);
                    }
                }
            },
            Call::Import(bytes, planes) => match rng.below(4) {
                0 => stretch(rng, &mut planes[third]),
                _ if !bytes.is_empty() => spoil_bytes(rng, bytes),
                _ => {}
            },
        }
    }
    case
}

// ---- recordings

pub fn record(tape: &mut Tape) {
    let rng = &mut Rng::new(0x9434);
    for _ in 0..200 {
        tape.record(&accepted(rng));
    }
    for _ in 0..420 {
        tape.record(&damaged_call(rng));
    }
    cut(tape, rng);
    long_headers(tape);
    sizes(tape, rng);
    lines(tape, rng);
    ends(tape, rng);
    two_frames(tape, rng);
}

/// Headers alone, accepted and damaged.
pub fn headers(tape: &mut Tape, count: usize, seed: u64) {
    let rng = &mut Rng::new(seed);
    for i in 0..count {
        let text = if i % 10 == 0 { header(rng) } else { damaged_header(rng) };
        tape.record(&Call::ReadHeader(text));
    }
}

/// A stream of 4 by 4, cut at every byte.
fn cut(tape: &mut Tape, rng: &mut Rng) {
    let bytes = [b"YUV4MPEG2 W4 H4 F25:1 Ip A1:1 C420p10\n".to_vec(), frame(rng, 4, 4)].concat();
    for n in 0..=bytes.len() {
        tape.record(&Call::Import(bytes[..n].to_vec(), lent(rng, 4, 4)));
    }
}

/// Headers of 255, 256 and 257 bytes with their newline.
fn long_headers(tape: &mut Tape) {
    for n in 255..258 {
        let mut text = b"YUV4MPEG2 W4 H4 C420p10 X".to_vec();
        text.resize(n - 1, b'x');
        text.push(b'\n');
        tape.record(&Call::ReadHeader(text));
    }
}

/// Sizes that are not taken, and words that are no size, read alone and as the header of a frame.
fn sizes(tape: &mut Tape, rng: &mut Rng) {
    for words in ["W0 H4", "W4 H0", "W4 H6", "W4100 H4", "W5000 H4", "W99999 H4", "W100000 H4", "W04 H4", "W4 H"] {
        let text = format!("YUV4MPEG2 {words} C420p10\n").into_bytes();
        tape.record(&Call::ReadHeader(text.clone()));
        tape.record(&Call::Import([text, frame(rng, 4, 4)].concat(), lent(rng, 4, 4)));
    }
}

/// Frame lines, at a place and after a header.
fn lines(tape: &mut Tape, rng: &mut Rng) {
    let head = b"YUV4MPEG2 W4 H4 C420p10\n".to_vec();
    for line in ["FRAME\n", "FRAME Ip\n", "FRAME \n", "FRAMES\n", "FRAME\r\n", "FRAM\n", "frame\n"] {
        let bytes = [head.clone(), line.into(), frame(rng, 4, 4)[6..].to_vec()].concat();
        tape.record(&Call::ReadFrame(bytes.clone(), head.len(), [4, 4], lent(rng, 4, 4)));
        tape.record(&Call::Import(bytes, lent(rng, 4, 4)));
    }
}

/// 1023 and 1024 as the first and the last sample of each plane, read and written.
fn ends(tape: &mut Tape, rng: &mut Rng) {
    for value in [1023, 1024] {
        for (third, last) in [(0, 15), (1, 3), (2, 3)] {
            for at in [0, last] {
                let mut planes = planes(rng, 4, 4);
                planes[third][at] = value;
                let mut bytes = b"FRAME\n".to_vec();
                bytes.extend(planes.concat().iter().flat_map(|sample| sample.to_le_bytes()));
                tape.record(&Call::WriteFrame(true, [4, 4], planes, vec![rng.next() as u8; bytes.len()]));
                tape.record(&Call::ReadFrame(bytes, 0, [4, 4], lent(rng, 4, 4)));
            }
        }
    }
}

/// Two frames, each read where the one before it ends; and where the second ends.
fn two_frames(tape: &mut Tape, rng: &mut Rng) {
    let bytes = [frame(rng, 4, 8), frame(rng, 4, 8)].concat();
    for at in [0, bytes.len() / 2, bytes.len()] {
        tape.record(&Call::ReadFrame(bytes.clone(), at, [4, 8], lent(rng, 4, 8)));
    }
}

#[cfg(feature = "archive")]
pub fn draw(rng: &mut Rng) -> Box<dyn Case> {
    Box::new(accepted(rng))
}

#[cfg(feature = "archive")]
pub fn damaged(rng: &mut Rng) -> Box<dyn Case> {
    Box::new(damaged_call(rng))
}
