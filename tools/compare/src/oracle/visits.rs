//! The edges that evc_deblock visits, in its order, seen through the traced windows.
use crate::caught;
use crate::deblock::Picture;
use crate::def::*;

/// An intra unit of QP 51: its strength is never 0, so that each window it filters is traced.
const STRONG: u32 = 1 << 15 | 51 << 16;

/// The first luma sample of Q of every edge, the vertical pass's and then the horizontal pass's.
pub fn edges((w, h): (usize, usize), splits: &[u8]) -> Option<[Vec<(usize, usize)>; 2]> {
    let units = (w / 4) * (h / 4);
    let mut picture = Picture::new((w, h), &vec![STRONG; units], splits, &vec![0; 4 * units], &vec![0; 2 * units]);
    let mut seen = Some(Vec::new());
    let tables = vec![vec![51; 70]; 2];
    caught(|| picture.run_traced(&mut seen, &tables, [0, 0]))?;
    let mut lists = [Vec::new(), Vec::new()];
    for windows in seen.unwrap().chunks(3) {
        let &(component, horizontal, x, y) = &windows[0];
        let (qx, qy) = if horizontal { (x, y + 2) } else { (x + 2, y) };
        assert_eq!(component, Y_C);
        let chroma = if horizontal { (qx / 2, qy / 2 - 2) } else { (qx / 2 - 2, qy / 2) };
        assert_eq!(windows[1..], [(U_C, horizontal, chroma.0, chroma.1), (V_C, horizontal, chroma.0, chroma.1)]);
        assert!(horizontal || lists[1].is_empty(), "a vertical edge after a horizontal one");
        lists[horizontal as usize].push((qx as usize, qy as usize));
    }
    Some(lists)
}
