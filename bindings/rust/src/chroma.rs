//! The derived chroma QP tables.
use crate::lend;
use crate::refusal::{answer, Refusal};

/// A table's points: how many count, and a and b of each, 58 numbers each.
#[derive(Clone, Copy, Debug)]
pub struct Points<'a> {
    /// How many of the points count, 1 to 58.
    pub count: usize,
    /// Each point's a, `delta_qp_in_val_minus1`.
    pub a: &'a [i8],
    /// Each point's b, `delta_qp_out_val`.
    pub b: &'a [i8],
}

/// Derives both chroma QP tables, 70 entries each, that of QP q at 12 + q. With `same_table` the second is a copy, and the second points are
/// not read. Refusals: [`Length`](Refusal::Length), [`Points`](Refusal::Points), [`Pivot`](Refusal::Pivot).
#[inline]
pub fn derived_chroma_qp_mapping_tables(
    global_offset: bool,
    same_table: bool,
    first: Points,
    second: Points,
    t0: &mut [i8],
    t1: &mut [i8],
) -> Result<(), Refusal> {
    // Each pointer comes from a slice that lives through the call, with its own length.
    let number = unsafe {
        lend!(lomsakeun_derived_chroma_qp_mapping_tables(
            global_offset, same_table, first.count, in first.a, in first.b, second.count, in second.a, in second.b,
            mut t0, mut t1
        ))
    };
    answer(number, ())
}
