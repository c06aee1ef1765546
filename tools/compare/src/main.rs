//! The comparison tool's commands. Without the product's archive `record` alone is built.
#![cfg_attr(not(feature = "archive"), allow(dead_code))]
#[cfg(feature = "archive")]
mod all;
#[cfg(feature = "archive")]
mod bench;
#[cfg(feature = "archive")]
mod bench_blocks;
#[cfg(feature = "archive")]
mod bench_deblock;
#[cfg(feature = "archive")]
mod bench_driver;
#[cfg(feature = "archive")]
mod bench_streams;
mod cases;
#[cfg(feature = "archive")]
mod chart;
#[cfg(feature = "archive")]
mod count;
#[cfg(feature = "archive")]
mod fuzz;
mod model;
#[cfg(feature = "archive")]
mod product;
mod record;
mod rng;
#[cfg(feature = "archive")]
mod small;

use std::path::Path;
use std::process::exit;

const USAGE: &str =
    "usage: record NAME OUTDIR | record all CRATESDIR | record headers COUNT SEED OUTDIR | all CALLS PICTURES SEED | fuzz CALLS SEED | bench OUTDIR | gather | streams | deblock SIDE | count [WORK [SIDE [PAGE]]]";

fn main() {
    // A panic of the Rust is an answer here, not a message: one of revc's files, or of the library below them.
    std::panic::set_hook(Box::new(|info| {
        let file = info.location().map_or("", |place| place.file());
        if !file.contains("/out/src/") && !file.starts_with("/rustc/") {
            eprintln!("{info}");
        }
    }));
    let args: Vec<String> = std::env::args().skip(1).collect();
    let args: Vec<&str> = args.iter().map(String::as_str).collect();
    let good = match args[..] {
        ["record", "headers", count, seed, dir] => {
            record::headers(number(count), number(seed) as u64, Path::new(dir)).expect("writing the recording")
        }
        ["record", name, dir] => record::record(name, Path::new(dir)).expect("writing the recording"),
        #[cfg(feature = "archive")]
        ["all", calls, pictures, seed] => all::all(number(calls), number(pictures), number(seed) as u64),
        #[cfg(feature = "archive")]
        ["fuzz", calls, seed] => fuzz::fuzz(number(calls), number(seed) as u64),
        #[cfg(feature = "archive")]
        ["bench", dir] => bench::bench(Path::new(dir)).expect("writing the table"),
        #[cfg(feature = "archive")]
        ["gather"] => bench_blocks::gathering(),
        #[cfg(feature = "archive")]
        ["streams"] => bench_streams::streams(),
        #[cfg(feature = "archive")]
        ["deblock", side] => bench_deblock::deblocking_at(number(side)),
        #[cfg(feature = "archive")]
        ["count"] => count::tables("all", 1024, None),
        #[cfg(feature = "archive")]
        ["count", work] => count::tables(work, 1024, None),
        #[cfg(feature = "archive")]
        ["count", work, side] => count::tables(work, number(side), None),
        #[cfg(feature = "archive")]
        ["count", work, side, page] => count::tables(work, number(side), Some(page)),
        #[cfg(feature = "archive")]
        ["counted", work, side] => count::counted(work, number(side)),
        _ => {
            eprintln!("{USAGE}");
            exit(2);
        }
    };
    exit(!good as i32);
}

fn number(text: &str) -> usize {
    text.parse().unwrap_or_else(|_| {
        eprintln!("{USAGE}");
        exit(2);
    })
}
