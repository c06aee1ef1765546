//! YUV4MPEG2 streams, as text and bytes: a header read and written, a frame read and written, and the first frame of a stream.
use super::{plane_len, samples_ok, size_ok, LENGTH, SAMPLE, SETTING, SHORT, SIZE, STREAM};
use std::collections::BTreeMap;

const MOST_BYTES: usize = 256;
const MOST: usize = 65535;

/// A refusal's number, and for 17 its place.
pub type Refused = (u32, usize);

/// What a header says: w, h, F and A, each 0 and 0 where it has none, and the place after it.
pub type Said = [usize; 7];

pub type Planes = [Vec<u16>; 3];

/// One to five digits, without leading zeros.
fn number(text: &[u8]) -> Option<usize> {
    let digits = (1..=5).contains(&text.len()) && text.iter().all(u8::is_ascii_digit);
    (digits && (text.len() == 1 || text[0] != b'0')).then(|| String::from_utf8_lossy(text).parse().unwrap())
}

fn ratio(text: &[u8]) -> Option<(usize, usize)> {
    let mut halves = text.split(|b| *b == b':').map(|half| number(half).filter(|n| (1..=MOST).contains(n)));
    let both = (halves.next()??, halves.next()??);
    halves.next().is_none().then_some(both)
}

/// What the value of a letter says, if it has its form.
fn value(letter: u8, text: &[u8]) -> Option<(usize, usize)> {
    match letter {
        b'W' | b'H' => number(text).map(|n| (n, 0)),
        b'F' | b'A' => ratio(text),
        b'I' => (text == b"p").then_some((0, 0)),
        b'C' => (text == b"420p10").then_some((0, 0)),
        _ => None,
    }
}

pub fn read_header(stream: &[u8]) -> Result<Said, Refused> {
    let head = &stream[..stream.len().min(MOST_BYTES)];
    let newline = head.iter().position(|b| *b == b'\n');
    let end = newline.unwrap_or(head.len());
    let mut said = BTreeMap::new();
    let mut place = 0;
    for word in head[..end].split(|b| *b == b' ') {
        let good = match word {
            _ if place == 0 => word == b"YUV4MPEG2",
            [] => false,
            [b'X', ..] => true,
            [letter, rest @ ..] => value(*letter, rest).is_some_and(|found| said.insert(*letter, found).is_none()),
        };
        if !good {
            return Err((STREAM, place));
        }
        place += word.len() + 1;
    }
    if newline.is_none() || !b"WHC".iter().all(|letter| said.contains_key(letter)) {
        return Err((STREAM, end));
    }
    let of = |letter: u8| said.get(&letter).copied().unwrap_or((0, 0));
    let (w, h) = (of(b'W').0, of(b'H').0);
    if !size_ok(w, h) {
        return Err((SIZE, 0));
    }
    Ok([w, h, of(b'F').0, of(b'F').1, of(b'A').0, of(b'A').1, end + 1])
}

/// How many bytes were written.
pub fn write_header(colour: bool, sides: [usize; 2], numbers: [usize; 4], out: &mut [u8]) -> Result<usize, u32> {
    let ([w, h], [f, g, a, b]) = (sides, numbers);
    if !size_ok(w, h) {
        return Err(SIZE);
    }
    if out.len() != MOST_BYTES {
        return Err(LENGTH);
    }
    if !colour || !numbers.iter().all(|n| (1..=MOST).contains(n)) {
        return Err(SETTING);
    }
    let text = format!("YUV4MPEG2 W{w} H{h} F{f}:{g} Ip A{a}:{b} C420p10\n");
    out[..text.len()].copy_from_slice(text.as_bytes());
    Ok(text.len())
}

/// The place after the frame.
pub fn read_frame(stream: &[u8], at: usize, w: usize, h: usize, planes: &mut Planes) -> Result<usize, Refused> {
    if !size_ok(w, h) {
        return Err((SIZE, 0));
    }
    if (0..3).any(|i| planes[i].len() != plane_len(i > 0, w, h)) {
        return Err((LENGTH, 0));
    }
    let rest = stream.get(at..).unwrap_or(&[]);
    let line = b"FRAME\n";
    if rest.iter().zip(line).any(|(a, b)| a != b) {
        return Err((STREAM, if rest.starts_with(b"FRAME ") { at + 6 } else { at }));
    }
    let size = 6 + 2 * planes.iter().map(Vec::len).sum::<usize>();
    if rest.len() < size {
        return Err((SHORT, 0));
    }
    let samples: Vec<u16> = rest[6..size].chunks(2).map(|pair| u16::from_le_bytes([pair[0], pair[1]])).collect();
    if !samples_ok(&samples) {
        return Err((SAMPLE, 0));
    }
    let mut samples = samples.into_iter();
    for plane in planes {
        for sample in plane {
            *sample = samples.next().unwrap();
        }
    }
    Ok(at + size)
}

pub fn write_frame(colour: bool, w: usize, h: usize, planes: &Planes, out: &mut [u8]) -> Result<(), u32> {
    if !size_ok(w, h) {
        return Err(SIZE);
    }
    let chroma = if colour { plane_len(true, w, h) } else { 0 };
    let samples = planes.concat();
    let lengths = planes[0].len() == w * h && planes[1].len() == chroma && planes[2].len() == chroma;
    if !lengths || out.len() != 6 + 2 * samples.len() {
        return Err(LENGTH);
    }
    if !colour {
        return Err(SETTING);
    }
    if !samples_ok(&samples) {
        return Err(SAMPLE);
    }
    out[..6].copy_from_slice(b"FRAME\n");
    for (pair, sample) in out[6..].chunks_mut(2).zip(samples) {
        pair.copy_from_slice(&sample.to_le_bytes());
    }
    Ok(())
}

/// What the header says, with the place after the frame.
pub fn import_frame(stream: &[u8], planes: &mut Planes) -> Result<Said, Refused> {
    let mut said = read_header(stream)?;
    said[6] = read_frame(stream, said[6], said[0], said[1], planes)?;
    Ok(said)
}
