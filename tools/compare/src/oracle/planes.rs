//! Flat planes into the Rust's padded ones, and back.
use crate::api::frame::Frame;
use crate::def::pel;
use crate::plane::Plane;

/// Writes w*h samples, row by row, into the plane.
pub(crate) fn fill(plane: &mut Plane<pel>, w: usize, samples: &[u16]) {
    let mut region = plane.as_region_mut();
    for (y, row) in samples.chunks_exact(w).enumerate() {
        region[y][..w].copy_from_slice(row);
    }
}

/// Reads w*h samples, row by row, from the plane.
pub(crate) fn read(plane: &Plane<pel>, w: usize, samples: &mut [u16]) {
    let region = plane.as_region();
    for (y, row) in samples.chunks_exact_mut(w).enumerate() {
        row.copy_from_slice(&region[y][..w]);
    }
}

/// Reads the three planes of a picture that is w wide.
pub(crate) fn read_all(frame: &Frame<pel>, w: usize, into: &mut [Vec<u16>; 3]) {
    for (i, (plane, samples)) in frame.planes.iter().zip(into).enumerate() {
        read(plane, w >> (i > 0) as usize, samples);
    }
}
