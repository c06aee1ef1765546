//! Speed of both sides in one run, on the same inputs: the best of many rounds. The product's refusal scans are counted; the Rust has none.
use crate::bench_blocks::{added, copied, predicted, tables, SIDES};
use crate::bench_deblock::{deblocked, drawn, in_grey, kinds, LEAVES};
use crate::bench_driver::driven;
use crate::chart::{self, Series};
use crate::rng::Rng;
use std::fmt::Write as _;
use std::path::Path;
use std::time::{Duration, Instant};
use std::{fs, io};

/// Square pictures of these sides.
const SIZES: [usize; 5] = [256, 512, 1024, 2048, 4096];
/// A measurement goes on for at least so many rounds and so long.
const ROUNDS: usize = 5;
const LONG: Duration = Duration::from_millis(400);

/// Seconds and nanoseconds, as the C library has them.
#[repr(C)]
struct Time {
    seconds: i64,
    nanoseconds: i64,
}

extern "C" {
    fn clock_gettime(clock: i32, time: *mut Time) -> i32;
}

/// The processor time that this thread has had, in nanoseconds: while another program has the processor it stands still.
fn processor_time() -> f64 {
    // Linux's CLOCK_THREAD_CPUTIME_ID.
    const OWN: i32 = 3;
    let mut time = Time { seconds: 0, nanoseconds: 0 };
    // The pointer is that of a local.
    assert_eq!(unsafe { clock_gettime(OWN, &mut time) }, 0, "no clock");
    time.seconds as f64 * 1e9 + time.nanoseconds as f64
}

/// The best round of a call, in nanoseconds; what comes before each call is not counted. A round over a millisecond is told by its processor time, since
/// other programs interrupt it; a shorter one by the clock on the wall, which is the finer one.
pub fn best<T>(state: &mut T, mut before: impl FnMut(&mut T), mut call: impl FnMut(&mut T)) -> f64 {
    let (begun, mut rounds, mut least) = (Instant::now(), 0, f64::INFINITY);
    while rounds < ROUNDS || begun.elapsed() < LONG {
        before(state);
        let (start, had) = (Instant::now(), processor_time());
        call(state);
        let (taken, own) = (start.elapsed().as_nanos() as f64, processor_time() - had);
        least = least.min(if own > 1e6 { own } else { taken });
        rounds += 1;
    }
    least
}

fn series(what: &str, mut measure: impl FnMut(usize) -> (f64, f64)) -> Series {
    eprintln!("{what}");
    let points = SIZES.map(|size| {
        let (rust, ours) = measure(size);
        (size, rust, ours)
    });
    Series { what: what.into(), points: points.to_vec() }
}

/// Each kind of picture in colour, and then each without it.
fn deblocking(rng: &mut Rng) -> [Vec<Series>; 2] {
    let (mut colour, mut grey) = (Vec::new(), Vec::new());
    for kind in kinds() {
        let mut without = Vec::new();
        colour.push(series(&format!("deblocking, {}", kind.what), |size| {
            let given = drawn(rng, &kind, size);
            let (rust, ours) = deblocked(&given);
            without.push((size, rust, in_grey(given)));
            (rust, ours)
        }));
        grey.push(Series { what: format!("deblocking in grey, {}", kind.what), points: without });
    }
    [colour, grey]
}

fn driver(rng: &mut Rng, colour: bool) -> Vec<Series> {
    let name = if colour { "block driver" } else { "block driver in grey" };
    let each = |(leaves, taste)| {
        series(&format!("{name}, intra, leaves {leaves}"), |size| driven(rng, size, taste, colour))
    };
    LEAVES.into_iter().map(each).collect()
}

/// Measures everything, and writes OUTDIR/SPEED.md and OUTDIR/speed.svg.
pub fn bench(dir: &Path) -> io::Result<bool> {
    let rng = &mut Rng::new(1);
    let [mut colour, mut grey] = deblocking(rng);
    colour.extend(driver(rng, true));
    grey.extend(driver(rng, false));
    for side in SIDES {
        colour.push(series(&format!("gathering and prediction, blocks of {side}"), |size| {
            predicted(rng, size, side)
        }));
    }
    for side in [4, 16, 64] {
        colour.push(series(&format!("residual addition, blocks of {side}"), |size| added(rng, size, side)));
    }
    let floor: Vec<f64> = SIZES.map(|size| copied(rng, size)).to_vec();
    let derived = [1, 8, 58].map(|points| (points, tables(points)));
    let shown = |series: &&Series| !series.what.starts_with("deblocking") || series.what.contains("noise");
    let drawn: Vec<&Series> = colour.iter().filter(shown).collect();
    fs::write(dir.join("speed.svg"), chart::draw(&drawn, &SIZES, &floor))?;
    let path = dir.join("SPEED.md");
    let below = notes(&path);
    fs::write(path, page(&colour, &grey, &floor, &derived) + &below)?;
    Ok(true)
}

/// What stands below the tables of the page that is there, from its first heading on: it was written by hand, and stays.
fn notes(path: &Path) -> String {
    let old = fs::read_to_string(path).unwrap_or_default();
    old.find("\n## ").map_or(String::new(), |at| old[at..].to_string())
}

const TEXT: &str = "# Speed

Written by `tools/compare/run FOLDER bench docs`, where FOLDER holds revc's `src/`: both sides in one run, on the same inputs, each built for release, the Rust without overflow checks. A number is the best of at least 5 rounds and 0.4 seconds, in processor time where a round takes over a millisecond. What the Rust needs to take its own shapes is made before and not counted. The product's tests for refusals are counted; the Rust has none.

";

const READING: &str = "Nanoseconds a sample, square pictures of these sides: the Rust, the product, and how many times as fast the product is. Deblocking and residual addition count the samples of all three planes, the rest those of luma.

The Rust has no block driver: beside it stand the Rust's own calls for each leaf, all three components, the list of leaves made before. In its rows and in those of residual addition both sides read one list of residuals, as long as the picture, and write planes whose rows lie equally far apart: the Rust's are made without their margin there. In gathering and deblocking they have it, 80 samples on each side of luma, as the Rust makes them.

Of the pictures that are deblocked, \"noise\" is samples at random around a middle grey, \"blocky\" a smooth picture at one sample for each 8 by 8, and \"ramp\" goes from corner to corner. \"Inter\" has motion at random in every unit, as no station has it. In \"moving\" motion is alike inside a leaf and at random from leaf to leaf, as an encoder writes it: motion belongs to a leaf. \"Still\" has one motion everywhere. \"Quiet\" is still but for one leaf in eight, which moves, is intra or is coded; only there are units coded. The QP is 37 where none is named.

Deblocking over 1024 by 1024 the Rust's 16-bit unit index wraps, so it does about as much work, but not on the right units; its numbers there only show the growth.

";

const GREY: &str = "The same pictures without their colour. The Rust has no grey pictures: its numbers are those in colour, chroma and all, so that a grey picture is to be held to two thirds of them too, which the last number does. All count the samples of a picture in colour, so that the two tables can be compared.

";

fn machine() -> String {
    let info = fs::read_to_string("/proc/cpuinfo").unwrap_or_default();
    let name = info
        .lines()
        .find_map(|line| line.strip_prefix("model name"))
        .map_or("", |rest| rest.trim_start_matches([' ', '\t', ':']));
    let output = |program: &str, args: &[&str]| {
        let run = std::process::Command::new(program).args(args).output();
        run.map_or(String::new(), |run| String::from_utf8_lossy(&run.stdout).trim().into())
    };
    let processors = info.matches("processor\t").count();
    let load = fs::read_to_string("/proc/loadavg").unwrap_or_default();
    let load = load.split(' ').next().unwrap_or_default();
    format!(
        "Run on {} ({name}, {processors} processors, load {load}, {}).\n\n",
        output("date", &["-u", "+%F"]),
        output("rustc", &["--version"])
    )
}

/// A table of series: how a size's two times are told is given.
fn table(all: &[Series], told: impl Fn(f64, f64) -> String) -> String {
    let mut text = String::from("|");
    SIZES.iter().for_each(|size| write!(text, " | {size}").unwrap());
    text += " |\n|---|";
    text += &"---|".repeat(SIZES.len());
    for series in all {
        write!(text, "\n| {}", series.what).unwrap();
        series.points.iter().for_each(|&(_, rust, ours)| write!(text, " | {}", told(rust, ours)).unwrap());
        text += " |";
    }
    text
}

fn page(colour: &[Series], grey: &[Series], floor: &[f64], derived: &[(usize, (f64, f64))]) -> String {
    let mut text = TEXT.to_string() + &machine() + READING;
    text += &table(colour, |rust, ours| format!("{rust:.2}, {ours:.2}: {:.1}", rust / ours));
    text += "\n| a copy of the three planes";
    floor.iter().for_each(|ns| write!(text, " | {ns:.2}").unwrap());
    text += " |\n\n![nanoseconds a sample over the sizes](speed.svg)\n\n";
    text += GREY;
    text += &table(grey, |rust, ours| {
        let times = rust / ours;
        format!("{rust:.2}, {ours:.2}: {times:.1}, {:.1}", times * 2.0 / 3.0)
    });
    text += "\n\nBoth chroma QP tables, nanoseconds a derivation:\n\n| points | Rust | product | times |\n|---|---|---|---|\n";
    for &(points, (rust, ours)) in derived {
        writeln!(text, "| {points} | {rust:.0} | {ours:.0} | {:.1} |", rust / ours).unwrap();
    }
    text
}
