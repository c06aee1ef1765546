//! Residual addition, into a block and into a plane.
use super::*;

pub fn block(coded: bool, side: usize, prediction: &[u16], residual: &[i16], block: &mut [u16]) -> u32 {
    if !side_ok(side) {
        return PLACE;
    }
    if [prediction.len(), residual.len(), block.len()] != [side * side; 3] {
        return LENGTH;
    }
    if !samples_ok(prediction) {
        return SAMPLE;
    }
    for (place, sample) in block.iter_mut().enumerate() {
        *sample = added(coded, prediction[place], residual[place]);
    }
    DONE
}

pub fn plane(
    chroma: bool,
    (w, h): (usize, usize),
    (x, y, side): (usize, usize, usize),
    coded: bool,
    prediction: &[u16],
    residual: &[i16],
    plane: &mut [u16],
) -> u32 {
    if !size_ok(w, h) {
        return SIZE;
    }
    if plane.len() != plane_len(chroma, w, h) {
        return LENGTH;
    }
    if !block_ok(w, h, x, y, side) {
        return PLACE;
    }
    let step = if chroma { 2 } else { 1 };
    let (w, x, y, side) = (w / step, x / step, y / step, side / step);
    if [prediction.len(), residual.len()] != [side * side; 2] {
        return LENGTH;
    }
    if !samples_ok(prediction) {
        return SAMPLE;
    }
    for place in 0..side * side {
        plane[(y + place / side) * w + x + place % side] = added(coded, prediction[place], residual[place]);
    }
    DONE
}

fn added(coded: bool, prediction: u16, residual: i16) -> u16 {
    if coded {
        (prediction as i32 + residual as i32).clamp(0, 1023) as u16
    } else {
        prediction
    }
}
