// Stands for revc's src/tracer.rs in the packages oracle_visits and oracle_visits_tr5 alone: it notes where each
// deblocked window lies. It cannot change what the wanted functions compute: it is handed the window to read
// after it was written, and answers nothing.
use super::def::*;
use super::region::*;

/// Component, whether the edge is horizontal, and the window's first sample in that component.
pub(crate) type Tracer = Vec<(usize, bool, isize, isize)>;

pub(crate) fn TRACE_DBF(
    tracer: &mut Option<Tracer>,
    ch_type: usize,
    _size: usize,
    hor: bool,
    dbf: &PlaneRegionMut<'_, pel>,
) {
    if let Some(seen) = tracer {
        seen.push((ch_type, hor, dbf.rect().x, dbf.rect().y));
    }
}

pub(crate) fn TRACE_RECO_PLANE_REGION(
    _: &mut Option<Tracer>,
    _: usize,
    _: usize,
    _: usize,
    _: usize,
    _: usize,
    _: &PlaneRegionMut<'_, pel>,
) {
}

pub(crate) fn TRACE_RECO(_: &mut Option<Tracer>, _: usize, _: usize, _: usize, _: &[pel]) {}
