//! A map of edge rows: a byte a unit, its left edge's row in bits 0..1 and its top edge's in bits 2..3, 0 where no unit lies on that side.
use super::*;

/// A picture's maps, with their map of edge rows.
#[derive(Clone, Default)]
pub struct Held {
    pub words: Vec<u32>,
    pub motion: Vec<i16>,
    pub refs: Vec<i8>,
    pub rows: Vec<u8>,
}

/// What is done to the unit at (x, y): its four numbers and two references, or the bit 15 or 24 of its word.
#[derive(Clone, Copy)]
pub enum Edit {
    Motion([i16; 4], [i8; 2]),
    Flag(u32, bool),
}

impl Held {
    fn check(&self, w: usize, h: usize) -> u32 {
        if !size_ok(w, h) {
            return SIZE;
        }
        let units = (w / 4) * (h / 4);
        let lengths = [self.words.len(), self.motion.len() / 4, self.refs.len() / 2, self.rows.len()];
        if lengths.iter().any(|&n| n != units) || self.motion.len() % 4 != 0 || self.refs.len() % 2 != 0 {
            return LENGTH;
        }
        DONE
    }

    /// The rows of a unit's left edge and of its top edge.
    fn rule(&self, wide: usize, unit: usize) -> [u8; 2] {
        let row = |p: usize| deblock::row((&self.motion, &self.refs), &self.words, unit, p) as u8;
        [if unit % wide > 0 { row(unit - 1) } else { 0 }, if unit >= wide { row(unit - wide) } else { 0 }]
    }

    /// The number; the map filled.
    pub fn fill(&mut self, w: usize, h: usize) -> u32 {
        let number = self.check(w, h);
        if number == DONE {
            let bytes = (0..self.words.len()).map(|unit| self.rule(w / 4, unit));
            self.rows = bytes.map(|[left, top]| left | top << 2).collect();
        }
        number
    }

    /// The number; the unit edited, and the rows of its four edges.
    pub fn edit(&mut self, w: usize, h: usize, (x, y): (usize, usize), edit: Edit) -> u32 {
        let number = self.check(w, h);
        if number != DONE {
            return number;
        }
        let (wide, high) = (w / 4, h / 4);
        if x >= wide || y >= high {
            return PLACE;
        }
        let unit = y * wide + x;
        match edit {
            Edit::Motion(motion, refs) => {
                self.motion[4 * unit..4 * unit + 4].copy_from_slice(&motion);
                self.refs[2 * unit..2 * unit + 2].copy_from_slice(&refs);
            }
            Edit::Flag(bit, on) => self.words[unit] = self.words[unit] & !(1 << bit) | (on as u32) << bit,
        }
        let [left, top] = self.rule(wide, unit);
        self.rows[unit] = self.rows[unit] & 0xf0 | left | top << 2;
        if x + 1 < wide {
            self.rows[unit + 1] = self.rows[unit + 1] & !3 | self.rule(wide, unit + 1)[0];
        }
        if y + 1 < high {
            self.rows[unit + wide] = self.rows[unit + wide] & !12 | self.rule(wide, unit + wide)[1] << 2;
        }
        DONE
    }
}
