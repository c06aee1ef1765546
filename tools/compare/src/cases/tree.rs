//! Cases of the split tree's calls. The Rust has no call of these; its lists of edges are what deblocking is seen to visit.
use super::data::*;
use super::deblock::split_bytes;
use super::tape::{Case, Line};
use super::trees;
use crate::model::tree as model;
use crate::product::{lend, Answer, Lending, Lent};
use crate::rng::Rng;

/// A picture's size and its split bytes.
#[derive(Clone)]
struct Tree {
    w: usize,
    h: usize,
    splits: Vec<u8>,
}

fn tree(rng: &mut Rng, most: usize) -> Tree {
    let (w, h) = (size(rng, most), size(rng, most));
    let taste = trees::taste(rng);
    let tree = trees::tree(rng, w, h, taste);
    Tree { w, h, splits: split_bytes(rng, w, h, &tree) }
}

fn damage(rng: &mut Rng, tree: &mut Tree) {
    match rng.below(6) {
        0 => spoil(rng, &mut tree.w),
        1 => spoil(rng, &mut tree.h),
        2 => stretch(rng, &mut tree.splits),
        3 => tree.splits.iter_mut().for_each(|byte| *byte = rng.pick(&[0, 1, 1, 1, 2])),
        _ => {
            // the byte of a block near the first root's corner
            let at = rng.pick(&[136, 256 + 68, 512 + 34, 768 + 17, 768 + 19, 512 + 38, 256 + 76]);
            if let Some(byte) = tree.splits.get_mut(at) {
                *byte = rng.pick(&[0, 1, 2, 255]);
            }
        }
    }
}

// ---- check

struct Check(Tree);

impl Case for Check {
    fn input(&self) -> Line {
        Line::new().num(self.0.w).num(self.0.h).slice(&self.0.splits)
    }

    fn model(&self) -> Line {
        Line::new().num(model::check(self.0.w, self.0.h, &self.0.splits))
    }

    fn product(&self, lending: Lending) -> Answer {
        let splits = Lent::new(lending, &self.0.splits);
        let number = unsafe { lend!(lomsakeun_check(self.0.w, self.0.h, in splits)) };
        splits.kept(&self.0.splits)?;
        Ok(Line::new().num(number))
    }
}

pub fn draw_check(rng: &mut Rng) -> Box<dyn Case> {
    let most = rng.pick(&[16, 64, 140]);
    Box::new(Check(tree(rng, most)))
}

pub fn damaged_check(rng: &mut Rng) -> Box<dyn Case> {
    let mut case = tree(rng, 100);
    damage(rng, &mut case);
    Box::new(Check(case))
}

// ---- the leaves of a root

struct Leaves {
    tree: Tree,
    x: usize,
    y: usize,
    out: Vec<u16>,
}

impl Case for Leaves {
    fn input(&self) -> Line {
        let line = Line::new().num(self.tree.w).num(self.tree.h).slice(&self.tree.splits);
        line.num(self.x).num(self.y).slice(&self.out)
    }

    fn model(&self) -> Line {
        let mut out = self.out.clone();
        let tree = &self.tree;
        let (number, count) = model::leaves(tree.w, tree.h, &tree.splits, (self.x, self.y), &mut out);
        Line::new().num(number).num(count).all(&out)
    }

    fn product(&self, lending: Lending) -> Answer {
        let splits = Lent::new(lending, &self.tree.splits);
        let mut out = Lent::new(lending, &self.out);
        let mut count = 77;
        let number = unsafe {
            lend!(lomsakeun_leaves(self.tree.w, self.tree.h, in splits, self.x, self.y, mut out, &mut count))
        };
        splits.kept(&self.tree.splits)?;
        Ok(Line::new().num(number).num(count).all(out.after()?))
    }
}

fn accepted_leaves(rng: &mut Rng, most: usize) -> Leaves {
    let tree = tree(rng, most);
    let (x, y) = (64 * rng.below(tree.w.div_ceil(64)), 64 * rng.below(tree.h.div_ceil(64)));
    Leaves { tree, x, y, out: stale(rng, 768) }
}

pub fn draw_leaves(rng: &mut Rng) -> Box<dyn Case> {
    let most = rng.pick(&[16, 64, 140]);
    Box::new(accepted_leaves(rng, most))
}

pub fn damaged_leaves(rng: &mut Rng) -> Box<dyn Case> {
    let mut case = accepted_leaves(rng, 100);
    match rng.below(6) {
        0 => spoil(rng, &mut case.x),
        1 => spoil(rng, &mut case.y),
        2 => stretch(rng, &mut case.out),
        _ => damage(rng, &mut case.tree),
    }
    Box::new(case)
}

// ---- visiting ranks

struct Rank {
    x: usize,
    y: usize,
}

impl Case for Rank {
    fn input(&self) -> Line {
        Line::new().num(self.x).num(self.y)
    }

    fn model(&self) -> Line {
        let (number, rank) = model::rank(self.x, self.y);
        Line::new().num(number).num(rank)
    }

    fn product(&self, _: Lending) -> Answer {
        let mut rank = 77;
        let number = unsafe { lend!(lomsakeun_visiting_rank(self.x, self.y, &mut rank)) };
        Ok(Line::new().num(number).num(rank))
    }
}

pub fn draw_rank(rng: &mut Rng) -> Box<dyn Case> {
    Box::new(Rank { x: rng.below(16), y: rng.below(16) })
}

pub fn damaged_rank(rng: &mut Rng) -> Box<dyn Case> {
    let mut case = Rank { x: rng.below(16), y: rng.below(16) };
    spoil(rng, &mut case.x);
    if rng.one_in(2) {
        spoil(rng, &mut case.y);
    }
    Box::new(case)
}

// ---- lists of edges

struct Lists {
    tree: Tree,
    limit: usize,
    buffers: [Vec<u16>; 2],
}

impl Case for Lists {
    fn input(&self) -> Line {
        let line = Line::new().num(self.tree.w).num(self.tree.h).slice(&self.tree.splits).num(self.limit);
        line.slice(&self.buffers[0]).slice(&self.buffers[1])
    }

    fn model(&self) -> Line {
        let [mut vertical, mut horizontal] = self.buffers.clone();
        let size = (self.tree.w, self.tree.h);
        let (number, m, n) = model::list_edges(size, &self.tree.splits, self.limit, &mut vertical, &mut horizontal);
        Line::new().num(number).num(m).num(n).all(&vertical).all(&horizontal)
    }

    /// The windows that evc_deblock is seen to filter, in its order.
    fn rust(&self) -> Option<Line> {
        let edges = if self.limit == 6 { oracle_visits::visits::edges } else { oracle_visits_tr5::visits::edges };
        let lists = edges((self.tree.w, self.tree.h), &self.tree.splits)?;
        let mut buffers = self.buffers.clone();
        for (buffer, list) in buffers.iter_mut().zip(&lists) {
            let numbers = list.iter().flat_map(|&(x, y)| [x, y]);
            buffer.iter_mut().zip(numbers).for_each(|(place, number)| *place = number as u16);
        }
        let line = Line::new().num(0u8).num(lists[0].len()).num(lists[1].len());
        Some(line.all(&buffers[0]).all(&buffers[1]))
    }

    fn in_domain(&self) -> bool {
        (self.tree.w / 4) * (self.tree.h / 4) <= 65536
    }

    fn product(&self, lending: Lending) -> Answer {
        let splits = Lent::new(lending, &self.tree.splits);
        let [mut vertical, mut horizontal] = self.buffers.each_ref().map(|buffer| Lent::new(lending, buffer));
        let (mut m, mut n) = (77, 78);
        let number = unsafe {
            lend!(lomsakeun_list_edges(
                self.tree.w, self.tree.h, in splits, self.limit as u8, mut vertical, mut horizontal, &mut m, &mut n
            ))
        };
        splits.kept(&self.tree.splits)?;
        let line = Line::new().num(number).num(m).num(n);
        Ok(line.all(vertical.after()?).all(horizontal.after()?))
    }
}

fn accepted_lists(rng: &mut Rng, most: usize) -> Lists {
    let tree = tree(rng, most);
    let room = 2 * (tree.w / 4) * (tree.h / 4);
    Lists { tree, limit: rng.pick(&[5, 6]), buffers: [stale(rng, room), stale(rng, room)] }
}

pub fn draw_lists(rng: &mut Rng) -> Box<dyn Case> {
    let most = rng.pick(&[16, 64, 140]);
    Box::new(accepted_lists(rng, most))
}

pub fn damaged_lists(rng: &mut Rng) -> Box<dyn Case> {
    let mut case = accepted_lists(rng, 100);
    match rng.below(6) {
        0 => case.limit = rng.below(256),
        1 => stretch(rng, &mut case.buffers[0]),
        2 => stretch(rng, &mut case.buffers[1]),
        _ => damage(rng, &mut case.tree),
    }
    Box::new(case)
}
