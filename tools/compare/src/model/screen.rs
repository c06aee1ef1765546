//! The ward screen: a row of a crop window as 8-bit samples, at full size or half, by its turn.
use super::{plane_len, samples_ok, size_ok, LENGTH, SAMPLE, SIZE, TURN, WINDOW};

/// A run, at half the size or not, and the row of it whose turn it is.
#[derive(Clone, Copy)]
pub struct Turn {
    pub preview: bool,
    pub plane: usize,
    pub row: usize,
}

/// A picture and a window: left, top, right, bottom.
#[derive(Clone)]
pub struct Shown {
    pub colour: bool,
    pub sides: [usize; 2],
    pub planes: [Vec<u16>; 3],
    pub window: [usize; 4],
}

impl Shown {
    pub fn planes_there(&self) -> usize {
        if self.colour {
            3
        } else {
            1
        }
    }

    /// The rows of the window in a plane.
    fn cropped(&self, plane: usize) -> Vec<&[u16]> {
        let by = if plane == 0 { 1 } else { 2 };
        let [left, top, right, bottom] = self.window.map(|edge| edge / by);
        self.planes[plane].chunks(self.sides[0] / by).take(bottom).skip(top).map(|row| &row[left..right]).collect()
    }

    /// The rows of a run, each by its plane and its number, in their order.
    pub fn order(&self, preview: bool) -> Vec<(usize, usize)> {
        let rows = |plane| self.cropped(plane).len() / if preview { 2 } else { 1 };
        (0..self.planes_there()).flat_map(|plane| (0..rows(plane)).map(move |row| (plane, row))).collect()
    }
}

/// 1, 2 and 21.
pub fn picture(shown: &Shown, room: usize) -> Result<(), u32> {
    let ([w, h], [left, top, right, bottom]) = (shown.sides, shown.window);
    if !size_ok(w, h) {
        return Err(SIZE);
    }
    let long = |plane| if plane < shown.planes_there() { plane_len(plane > 0, w, h) } else { 0 };
    if (0..3).any(|plane| shown.planes[plane].len() != long(plane)) || room != w {
        return Err(LENGTH);
    }
    if shown.window.iter().any(|edge| edge % 4 != 0) || left >= right || right > w || top >= bottom || bottom > h {
        return Err(WINDOW);
    }
    Ok(())
}

fn converted(row: &[u16]) -> Vec<u32> {
    row.iter().map(|&sample| ((sample as u32 + 2) / 4).min(255)).collect()
}

/// The next turn, and how many samples were written.
pub fn row(turn: Turn, asked: (usize, usize), shown: &Shown, out: &mut [u8]) -> Result<(Turn, usize), u32> {
    picture(shown, out.len())?;
    let order = shown.order(turn.preview);
    let place =
        order.iter().position(|&each| each == (turn.plane, turn.row)).filter(|&place| order[place] == asked);
    let place = place.ok_or(TURN)?;
    let high = if turn.preview { 2 } else { 1 };
    let made_of = &shown.cropped(turn.plane)[turn.row * high..][..high];
    if !made_of.iter().all(|row| samples_ok(row)) {
        return Err(SAMPLE);
    }
    let rows: Vec<Vec<u32>> = made_of.iter().map(|row| converted(row)).collect();
    let samples: Vec<u32> = match &rows[..] {
        [upper, lower] => {
            upper.chunks(2).zip(lower.chunks(2)).map(|(a, b)| (a[0] + a[1] + b[0] + b[1] + 2) / 4).collect()
        }
        _ => rows.concat(),
    };
    for (byte, sample) in out.iter_mut().zip(&samples) {
        *byte = *sample as u8;
    }
    let (plane, row) = order.get(place + 1).copied().unwrap_or((shown.planes_there(), 0));
    Ok((Turn { plane, row, ..turn }, samples.len()))
}
