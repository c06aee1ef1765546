//! A torn split map, mended: the walk goes on as if each byte that it meets were one that it takes.
use super::pack::place;
use super::*;

/// The number and how many changes; the mended map goes to `out`, and five numbers for each change to the front of `list`.
pub fn mend((w, h): (usize, usize), splits: &[u8], out: &mut [u8], list: &mut [u16]) -> (u32, usize) {
    if !size_ok(w, h) {
        return (SIZE, 0);
    }
    let roots = w.div_ceil(64) * h.div_ceil(64);
    if [splits.len(), out.len()] != [1024 * roots; 2] || list.len() != 5 * 85 * roots {
        return (LENGTH, 0);
    }
    out.copy_from_slice(splits);
    let mut count = 0;
    let walked = walk::leaves(w, h, |x, y, side| {
        let at = place(w, x, y, side);
        let old = splits[at];
        let new = match old {
            _ if x + side > w || y + side > h => 1,
            2.. => 0,
            _ => old,
        };
        if new != old {
            out[at] = new;
            let change = [at / 1024, at % 1024 / 256, at % 256, old.into(), new.into()];
            list[5 * count..].iter_mut().zip(change).for_each(|(place, number)| *place = number as u16);
            count += 1;
        }
        Ok(new == 1)
    });
    assert!(walked.is_ok());
    (DONE, count)
}
