//! Instructions of calls, by callgrind: counts do not depend on what else a machine does. The tool runs itself under valgrind, which dumps what each
//! piece of work took, and prints the tables of docs/SPEED.md that are counts, or writes them into it.
use crate::bench_blocks::{blank, Added, Predicted, SIDES};
use crate::bench_deblock::{self as deblock, LEAVES};
use crate::bench_driver::Work;
use crate::cases::deblock::split_bytes;
use crate::cases::trees;
use crate::rng::Rng;
use std::collections::HashMap;
use std::hint::black_box;
use std::path::Path;
use std::process::{Command, Stdio};
use std::{env, fs};

/// What is counted, by name; deblocking gives three tables.
const WORKS: [(&str, fn(usize)); 5] = [
    ("deblock", of_deblocking),
    ("driver", of_driver),
    ("blocks", of_blocks),
    ("maps", of_maps),
    ("edits", of_edits),
];

// ---- under valgrind

/// Callgrind counts what is done between the call of this function and its return.
#[no_mangle]
#[inline(never)]
pub fn counted_work(work: &mut dyn FnMut()) {
    work();
    black_box(());
}

/// Says what is counted, by a row and a column, and does it.
fn count(row: &str, column: &str, mut work: impl FnMut()) {
    println!("{row}\t{column}");
    counted_work(&mut work);
}

/// Deblocking of each kind of picture: the Rust's, the product's in both formats, by bands, by a map of edge rows, and that map filled.
fn of_deblocking(side: usize) {
    for kind in deblock::kinds() {
        let (row, picture) = (&kind.what[..], deblock::drawn(&mut Rng::new(1), &kind, side));
        let mut rust = deblock::Theirs::new(&picture);
        count(row, "Rust", || rust.run());
        let mut rows = vec![0; picture.words.len()];
        count(row, "map", || deblock::fill(&picture, &mut rows));
        let grey = picture.clone().grey();
        for (given, colour) in [(&picture, "colour"), (&grey, "grey")] {
            let fresh = (given.planes.clone(), given.words.clone());
            let (mut whole, mut by_bands, mut by_rows) = (fresh.clone(), fresh.clone(), fresh);
            let (mut edges, mut banded, mut mapped) = (0, 0, 0);
            count(row, colour, || edges = deblock::finish(given, &[], &mut whole));
            count(row, &format!("{colour}, bands"), || banded = deblock::finish_by_bands(given, &mut by_bands));
            count(row, &format!("{colour}, rows"), || mapped = deblock::finish(given, &rows, &mut by_rows));
            assert!(edges == banded && edges == mapped && whole == by_bands && whole == by_rows);
            assert!(rust.agreed(&picture, &whole), "the two sides made another picture");
        }
    }
}

/// The block driver over each kind of leaves: the Rust's calls in colour, the product's in colour and in grey.
fn of_driver(side: usize) {
    for (leaves, taste) in LEAVES {
        let work = Work::new(&mut Rng::new(1), side, taste);
        let (mut rust, mut made) = (work.their_room(), work.our_room());
        count(leaves, "Rust", || work.theirs(&mut rust));
        count(leaves, "colour", || work.ours(&mut made));
        assert!(work.agreed(&rust, &made));
        let (work, mut made) = (work.grey(), Work::new(&mut Rng::new(1), side, taste).our_room());
        count(leaves, "grey", || work.ours(&mut made));
        assert!(work.agreed(&rust, &made));
    }
}

/// Gathering with prediction, and residual addition, of every block of a picture, for each side of a block.
fn of_blocks(size: usize) {
    for side in SIDES {
        let row = &side.to_string();
        let work = Predicted::new(&mut Rng::new(1), size, side);
        let (mut rust, mut ours) = (work.room(), work.room());
        count(row, "Rust, predicted", || work.theirs(&mut rust));
        count(row, "predicted", || work.ours(&mut ours));
        let work = Added::new(&mut Rng::new(1), size, side);
        let (mut rust, mut planes) = (work.their_room(), blank(size));
        count(row, "Rust, added", || work.theirs(&mut rust));
        count(row, "added", || work.ours(&mut planes));
        assert!(work.agreed(&rust, &planes));
    }
}

/// Each call over a split map once, for each kind of leaves: the walk's verdict, the map packed, read back and mended.
fn of_maps(side: usize) {
    for (leaves, taste) in LEAVES {
        let rng = &mut Rng::new(1);
        let tree = trees::tree(rng, side, side, taste);
        let splits = split_bytes(rng, side, side, &tree);
        let mut digits = vec![0; tree.len().div_ceil(8)];
        let (mut back, mut mended) = (vec![0; splits.len()], vec![0; splits.len()]);
        let mut list = vec![0; lomsakeun::CHANGES_LENGTH * splits.len() / 1024];
        let mut changes = 1;
        let row = &format!("{leaves}: {} blocks of 8 or more", grouped(tree.len() as u64));
        count(row, "check", || lomsakeun::check(side, side, &splits).unwrap());
        count(row, "put_map", || lomsakeun::Writer::new(&mut digits).write(side, side, &splits).unwrap());
        count(row, "get_map", || lomsakeun::Reader::new(&digits).read(side, side, &mut back).unwrap());
        count(row, "mend", || changes = lomsakeun::mend(side, side, &splits, &mut mended, &mut list).unwrap());
        assert!(changes == 0 && mended == splits);
    }
}

/// An edit of a map of edge rows, in pictures of several sides: of a unit inside.
fn of_edits(_: usize) {
    use lomsakeun::{set_flag, set_motion, Flag, Motion};
    for side in [12, 256, 1024, 4096] {
        let units = side / 4 * (side / 4);
        let (mut words, mut motion, mut refs) = (vec![0; units], vec![0; 4 * units], vec![0; 2 * units]);
        let mut rows = vec![0; units];
        lomsakeun::fill_rows(side, side, &words, &motion, &refs, &mut rows).unwrap();
        let at = side / 8;
        let moved = Motion { x0: 4, ..Motion::default() };
        count(&side.to_string(), "set_motion", || {
            set_motion(side, side, at, at, moved, &words, &mut motion, &mut refs, &mut rows).unwrap();
        });
        count(&side.to_string(), "set_flag", || {
            set_flag(side, side, at, at, Flag::Coded, true, &mut words, &motion, &refs, &mut rows).unwrap();
        });
    }
}

/// Does the work of this name.
pub fn counted(name: &str, side: usize) -> bool {
    WORKS.iter().filter(|(known, _)| name == *known).for_each(|(_, work)| work(side));
    true
}

// ---- the tables

/// A column of counts, and the column that each is given as a share of, if any.
type Column = (&'static str, Option<&'static str>);

/// A table: the work that it counts, its name, its head and its columns.
struct Layout {
    work: &'static str,
    table: &'static str,
    head: &'static str,
    columns: &'static [Column],
}

const OF_COLOUR: Option<&str> = Some("colour");
const OF_GREY: Option<&str> = Some("grey");
const OF_CHECK: Option<&str> = Some("check");

const LAYOUTS: [Layout; 7] = [
    Layout {
        work: "deblock",
        table: "deblock",
        head: "picture | the Rust | colour, of the Rust's | grey, of colour",
        columns: &[("Rust", None), ("colour", Some("Rust")), ("grey", OF_COLOUR)],
    },
    Layout {
        work: "deblock",
        table: "bands",
        head: "picture | colour, one call | by bands | grey, one call | by bands",
        columns: &[("colour", None), ("colour, bands", OF_COLOUR), ("grey", None), ("grey, bands", OF_GREY)],
    },
    Layout {
        work: "deblock",
        table: "rows",
        head: "picture | colour, no map | by its map | grey, no map | by its map | the map filled",
        columns: &[
            ("colour", None),
            ("colour, rows", OF_COLOUR),
            ("grey", None),
            ("grey, rows", OF_GREY),
            ("map", None),
        ],
    },
    Layout {
        work: "driver",
        table: "driver",
        head: "leaves | the Rust's calls | colour, of the Rust's | grey, of colour",
        columns: &[("Rust", None), ("colour", Some("Rust")), ("grey", OF_COLOUR)],
    },
    Layout {
        work: "blocks",
        table: "blocks",
        head: "blocks of | gathered and predicted: the Rust | the product | residual added: the Rust | the product",
        columns: &[
            ("Rust, predicted", None),
            ("predicted", Some("Rust, predicted")),
            ("Rust, added", None),
            ("added", Some("Rust, added")),
        ],
    },
    Layout {
        work: "maps",
        table: "maps",
        head: "leaves | `check` | `put_map`, of `check`'s | `get_map` | `mend`",
        columns: &[("check", None), ("put_map", OF_CHECK), ("get_map", OF_CHECK), ("mend", OF_CHECK)],
    },
    Layout {
        work: "edits",
        table: "edits",
        head: "side of the picture | `set_motion` | `set_flag`",
        columns: &[("set_motion", None), ("set_flag", None)],
    },
];

/// What each piece of work took, by its row and its column, and the rows in their order.
#[derive(Default)]
struct Counts {
    rows: Vec<String>,
    of: HashMap<(String, String), u64>,
}

impl Counts {
    fn get(&self, row: &str, column: &str) -> u64 {
        self.of[&(row.to_string(), column.to_string())]
    }

    /// A row of a table: each cell a count, or a count and its share of another.
    fn row(&self, row: &str, columns: &[Column]) -> String {
        let cell = |&(column, of): &Column| {
            let own = self.get(row, column);
            let share = of.map(|of| format!(": {:.3}", own as f64 / self.get(row, of) as f64));
            format!(" {}{} |", grouped(own), share.unwrap_or_default())
        };
        format!("\n| {row} |{}", columns.iter().map(cell).collect::<String>())
    }

    fn table(&self, layout: &Layout) -> String {
        let rows: String = self.rows.iter().map(|row| self.row(row, layout.columns)).collect();
        format!("| {} |\n|{}{rows}", layout.head, "---|".repeat(1 + layout.columns.len()))
    }
}

/// A number with a comma before every three digits.
fn grouped(n: u64) -> String {
    let digits = n.to_string();
    let first = (digits.len() + 2) % 3 + 1;
    let mut text = digits[..first].to_string();
    for three in digits.as_bytes()[first..].chunks(3) {
        text.push(',');
        text.push_str(std::str::from_utf8(three).unwrap());
    }
    text
}

/// Does work under valgrind; each piece of work leaves one dump, whose totals are what it took.
fn run(name: &str, side: usize) -> Counts {
    let dir = env::temp_dir().join(format!("compare-count-{}", std::process::id()));
    fs::create_dir_all(&dir).expect("a folder for the dumps");
    let out = format!("--callgrind-out-file={}", dir.join("dump").display());
    let tool = env::current_exe().expect("the tool's own path");
    let watch = ["--toggle-collect=counted_work", "--dump-after=counted_work", &out];
    let run = Command::new("valgrind")
        .args(["--quiet", "--tool=callgrind"])
        .args(watch)
        .arg(tool)
        .args(["counted", name, &side.to_string()])
        .env("LD_BIND_NOW", "1")
        .stderr(Stdio::inherit())
        .output()
        .expect("valgrind");
    assert!(run.status.success(), "the run under valgrind failed");
    let counts = read(&String::from_utf8_lossy(&run.stdout), &dir);
    fs::remove_dir_all(&dir).expect("the folder of the dumps, removed");
    counts
}

/// A line for each dump, in their order.
fn read(said: &str, dir: &Path) -> Counts {
    let mut counts = Counts::default();
    for (i, line) in said.lines().enumerate() {
        let (row, column) = line.split_once('\t').expect("a row and a column");
        if !counts.rows.iter().any(|known| known == row) {
            counts.rows.push(row.to_string());
        }
        let dump = fs::read_to_string(dir.join(format!("dump.{}", i + 1))).expect("a dump for each piece of work");
        let total = dump.lines().find_map(|line| line.strip_prefix("totals: ")).expect("its totals");
        let total = total.trim().parse().expect("a number");
        assert!(total > 0, "nothing was counted for {line}");
        counts.of.insert((row.to_string(), column.to_string()), total);
    }
    counts
}

/// Counts one work or all of them, and prints the tables, or puts each where a page has its mark. False for a name that is no work's, and for a page that
/// lacks a mark.
pub fn tables(name: &str, side: usize, page: Option<&str>) -> bool {
    let works = WORKS.map(|(work, _)| work);
    if name != "all" && !works.contains(&name) {
        eprintln!("no work is called {name}: there are {} and all", works.join(", "));
        return false;
    }
    let mut good = true;
    for work in works.into_iter().filter(|work| name == "all" || name == *work) {
        let counts = run(work, side);
        for layout in LAYOUTS.iter().filter(|layout| layout.work == work) {
            let text = counts.table(layout);
            match page {
                Some(page) => good &= put(page, layout.table, &text),
                None => println!("{}\n\n{text}\n", mark(layout.table)),
            }
        }
    }
    good
}

/// The line above a counted table.
fn mark(table: &str) -> String {
    format!("<!-- count {table} -->")
}

/// Puts a table into a page: in the place of the one that follows its mark. False where there is no mark.
fn put(page: &str, table: &str, text: &str) -> bool {
    let old = fs::read_to_string(page).expect("the page");
    let Some(at) = old.find(&mark(table)).map(|at| at + mark(table).len()) else {
        eprintln!("{page} has no line {} for its table", mark(table));
        return false;
    };
    let rest = old[at..].trim_start_matches('\n');
    let after: Vec<&str> = rest.split('\n').skip_while(|line| line.starts_with('|')).collect();
    fs::write(page, format!("{}\n\n{text}\n{}", &old[..at], after.join("\n"))).expect("the page, written");
    true
}
