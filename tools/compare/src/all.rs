//! The product, the Rust and the model on random inputs, at scale: every call, inside the Rust's domain, outside it and damaged.
use crate::cases::tape::{Case, Line};
use crate::cases::*;
use crate::model::NUMBERS;
use crate::product::Lending;
use crate::rng::Rng;
use crate::small;
use std::time::Instant;

pub type Draw = fn(&mut Rng) -> Box<dyn Case>;

/// A call: how its accepted and its damaged inputs are drawn, and its share of the calls of a run, in thousandths.
pub struct Call {
    pub name: &'static str,
    pub draw: Draw,
    pub damaged: Draw,
    pub share: usize,
}

const fn call(name: &'static str, draw: Draw, damaged: Draw, share: usize) -> Call {
    Call { name, draw, damaged, share }
}

/// The single calls; the shares of those that the Rust has add up to 1000.
pub const CALLS: [Call; 19] = [
    call("chroma_qp", chroma_qp::draw, chroma_qp::damaged, 100),
    call("avail", avail::draw, avail::damaged, 200),
    call("ranks", ranks::draw, ranks::damaged, 200),
    call("gather", gather::draw, gather::damaged, 100),
    call("predict", predict::draw, predict::damaged, 180),
    call("recon_block", recon::draw_block, recon::damaged_block, 160),
    call("recon_plane", recon::draw_plane, recon::damaged_plane, 50),
    call("list_edges", tree::draw_lists, tree::damaged_lists, 10),
    call("check", tree::draw_check, tree::damaged_check, 10),
    call("leaves", tree::draw_leaves, tree::damaged_leaves, 10),
    call("visiting_rank", tree::draw_rank, tree::damaged_rank, 10),
    call("put_map", pack::draw_put, pack::damaged_put, 50),
    call("get_map", pack::draw_get, pack::damaged_get, 50),
    call("mend", mend::draw, mend::damaged, 10),
    call("rows", rows::draw, rows::damaged, 100),
    call("rows_edits", rows::draw_series, rows::draw_series, 20),
    call("listing", listing::draw, listing::damaged, 2),
    call("streams", streams::draw, streams::damaged, 50),
    call("ward_row", screen::draw, screen::damaged, 50),
];

/// The calls over whole pictures: each has all of a run's pictures.
pub const PICTURES: [Call; 8] = [
    call("deblock", deblock_cases::draw, deblock_cases::damaged, 1000),
    call("deblock_by_rows", by_rows::draw, by_rows::damaged, 1000),
    call("deblock_quiet", deblock_cases::draw_quiet, deblock_cases::damaged_quiet, 1000),
    call("driver", driver_cases::draw, driver_cases::damaged, 1000),
    call("deblock_band", bands_cases::draw, bands_cases::damaged, 1000),
    call("deblock_bands", bands_cases::draw_all, bands_cases::damaged_all, 1000),
    call("deblock_grey", grey::draw, grey::damaged, 1000),
    call("deblock_keep", keep::draw, keep::damaged, 1000),
];

/// Two answers to one input that are not the same.
pub struct Difference {
    pub from: &'static str,
    pub product: String,
    pub other: String,
}

/// What a case came to: the number, and whether the Rust was asked.
pub struct Same {
    number: i64,
    rust: bool,
}

/// Asks the product and the model, and, where the input lies in its domain, the Rust.
pub fn judge(case: &dyn Case) -> Result<Same, Difference> {
    let model = case.model();
    let product = match case.product(Lending::Padded) {
        Ok(line) => line,
        Err(wrote) => return Err(Difference { from: "model", product: wrote, other: model.short() }),
    };
    let differs = |from, other: String| Err(Difference { from, product: product.short(), other });
    if product != model {
        return differs("model", model.short());
    }
    let rust = model.accepted() && case.in_domain();
    if rust {
        match case.rust() {
            Some(line) if line == product => {}
            other => return differs("Rust", other.as_ref().map_or("a panic".into(), Line::short)),
        }
    }
    Ok(Same { number: model.0[0], rust })
}

/// The counts of a call's run.
#[derive(Default)]
struct Tally {
    rust: usize,
    accepted: usize,
    refused: [usize; NUMBERS],
    differences: usize,
}

impl Tally {
    fn run(&mut self, name: &str, draw: Draw, seed: u64, count: usize) {
        for i in 0..count as u64 {
            // splitmix64 started anywhere: the cases' own seeds are drawn from the run's.
            let own = Rng::new(seed.wrapping_add(i)).next();
            let case = draw(&mut Rng::new(own));
            match judge(&*case) {
                Ok(Same { number: 0, rust: true }) => self.rust += 1,
                Ok(Same { number: 0, rust: false }) => self.accepted += 1,
                Ok(Same { number, .. }) => self.refused[number as usize] += 1,
                Err(_) => {
                    self.differences += 1;
                    if self.differences == 1 {
                        say(name, draw, own);
                    }
                }
            }
        }
    }
}

/// A difference, with an input made as small as it gets.
fn say(name: &str, draw: Draw, own: u64) {
    let case = small::smallest(draw, own);
    if let Err(difference) = judge(&*case) {
        println!("{name}: DIFFERENCE from the {} (case seed {own})", difference.from);
        println!("  input   {}", case.input().short());
        println!("  product {}", difference.product);
        println!("  {:7} {}", difference.from, difference.other);
    }
}

fn refusals(refused: &[usize; NUMBERS]) -> String {
    let each = |(number, &times): (usize, &usize)| (times > 0).then(|| format!("{number}: {times}"));
    refused.iter().enumerate().filter_map(each).collect::<Vec<_>>().join(", ")
}

/// Runs every call: this many single calls and pictures, and a tenth as many damaged ones. True if nothing ever differed.
pub fn all(calls: usize, pictures: usize, seed: u64) -> bool {
    println!("seed {seed}; {calls} single calls and {pictures} pictures drawn, and a tenth as many damaged");
    println!(
        "{:14} {:>10} {:>10} {:>10} {:>6}  refused, by number",
        "call", "with Rust", "model only", "refused", "s"
    );
    let (mut good, mut total) = (true, [0; 3]);
    let singles = CALLS.iter().map(|call| (call, calls * call.share / 1000));
    let whole = PICTURES.iter().map(|call| (call, pictures));
    for (i, (call, count)) in singles.chain(whole).enumerate() {
        let (start, mut tally) = (Instant::now(), Tally::default());
        let own = Rng::new(seed.wrapping_mul(64).wrapping_add(i as u64)).next();
        tally.run(call.name, call.draw, own, count);
        tally.run(call.name, call.damaged, !own, count / 10 + 100);
        let refused: usize = tally.refused.iter().sum();
        println!(
            "{:14} {:10} {:10} {:10} {:6.0}  {}",
            call.name,
            tally.rust,
            tally.accepted,
            refused,
            start.elapsed().as_secs_f64(),
            refusals(&tally.refused)
        );
        if tally.differences > 0 {
            println!("{:14} {} differences", call.name, tally.differences);
            good = false;
        }
        for (sum, count) in total.iter_mut().zip([tally.rust, tally.accepted, refused]) {
            *sum += count;
        }
    }
    println!("{:14} {:10} {:10} {:10}", "all", total[0], total[1], total[2]);
    println!("{}", if good { "no difference" } else { "DIFFERENCES" });
    good
}
