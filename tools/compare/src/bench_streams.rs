//! Speed of frames as YUV4MPEG2 streams, beside a plain copy of a frame's bytes. No Rust stands beside them.
use crate::bench::best;
use crate::rng::Rng;
use lomsakeun::{frame_length, read_frame, write_frame, Planes};
use std::hint::black_box;

/// Square pictures of these sides.
const SIZES: [usize; 3] = [256, 1024, 4096];

/// Prints nanoseconds a sample for each size: a copy of the frame's bytes, the frame read, and the frame written.
pub fn streams() -> bool {
    for size in SIZES {
        let rng = &mut Rng::new(1);
        let lengths = [size * size, size * size / 4, size * size / 4];
        let mut planes = lengths.map(|n| (0..n).map(|_| rng.below(1024) as u16).collect::<Vec<u16>>());
        let made = planes.clone();
        let count = lengths.iter().sum::<usize>() as f64;
        let mut bytes = vec![0u8; frame_length(size, size)];
        let written = best(
            &mut bytes,
            |_| {},
            |bytes| write_frame(size, size, Planes::colour(&planes[0], &planes[1], &planes[2]), bytes).unwrap(),
        );
        planes.iter_mut().for_each(|plane| plane.fill(1));
        let read = best(
            &mut planes,
            |_| {},
            |[y, u, v]| {
                read_frame(&bytes, 0, size, size, Planes::colour(y, u, v)).unwrap();
            },
        );
        assert!(planes == made, "{size}: the frame that is read is not the one that was written");
        let mut to = vec![0u8; bytes.len()];
        let copied = best(&mut to, |_| {}, |to| to.copy_from_slice(black_box(&bytes)));
        println!("{size}: copy {:.3}, read {:.3}, written {:.3}", copied / count, read / count, written / count);
    }
    true
}
