//! evc_derived_chroma_qp_mapping_tables.
use crate::api::*;
use crate::{caught, util};

/// Derives both tables; a count is the number of points, one more than the Rust's own field.
pub fn derive(
    global: bool,
    same: bool,
    (n0, a0, b0): (usize, &[i8], &[i8]),
    (n1, a1, b1): (usize, &[i8], &[i8]),
    t0: &mut [i8],
    t1: &mut [i8],
) -> Option<()> {
    let given = given(global, same, (n0, a0, b0), (n1, a1, b1));
    let tables = caught(|| util::evc_derived_chroma_qp_mapping_tables(&given))?;
    t0.copy_from_slice(&tables[0]);
    t1.copy_from_slice(&tables[1]);
    Some(())
}

type Points<'a> = (usize, &'a [i8], &'a [i8]);

fn given(global: bool, same: bool, (n0, a0, b0): Points, (n1, a1, b1): Points) -> EvcChromaTable {
    let mut given = EvcChromaTable::default();
    given.chroma_qp_table_present_flag = true;
    given.global_offset_flag = global;
    given.same_qp_table_for_chroma = same;
    for (i, &(n, a, b)) in [(n0, a0, b0), (n1, a1, b1)].iter().enumerate() {
        given.num_points_in_qp_table_minus1[i] = n.wrapping_sub(1);
        given.delta_qp_in_val_minus1[i].copy_from_slice(a);
        given.delta_qp_out_val[i].copy_from_slice(b);
    }
    given
}

/// Points in the Rust's own shape, so that a call can be measured without the conversion.
pub struct Prepared(EvcChromaTable);

impl Prepared {
    pub fn new(global: bool, same: bool, first: Points, second: Points) -> Prepared {
        Prepared(given(global, same, first, second))
    }

    /// The first entry of the tables that the call makes.
    pub fn derive(&self) -> i8 {
        util::evc_derived_chroma_qp_mapping_tables(&self.0)[0][0]
    }
}
