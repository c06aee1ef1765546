//! A recording: the lines of inputs and of expected answers, and where each answer came from.
#[cfg(feature = "archive")]
use crate::product::{Answer, Lending};
use std::fmt::{self, Display};
use std::{fs, io, path::Path};

/// The record separator, which ends each sheet among the cases.
const SHEET_END: u8 = 30;

/// A number that a line may hold.
pub trait Wide {
    fn wide(self) -> i64;
}

/// An element of a lent slice.
pub trait Number: Wide + Copy + PartialEq {
    /// What stands beside a lent slice, i places from where it begins.
    fn mark(i: usize) -> Self;
}

macro_rules! numbers {
    ($($type:ty)*) => {$(
        impl Wide for $type {
            fn wide(self) -> i64 {
                self as i64
            }
        }
        impl Wide for &$type {
            fn wide(self) -> i64 {
                *self as i64
            }
        }
        impl Number for $type {
            fn mark(i: usize) -> $type {
                (0x5a5a_5a5a_a5a5_a5a5_u64 ^ (i as u64).wrapping_mul(0x0101_0101_0101_0101)) as $type
            }
        }
    )*};
}
numbers!(u8 i8 u16 i16 u32 usize i64);

/// Numbers; written with single spaces between them.
#[derive(Default, Clone, PartialEq)]
pub struct Line(pub Vec<i64>);

impl Line {
    pub fn new() -> Line {
        Line::default()
    }

    pub fn num(mut self, v: impl Wide) -> Line {
        self.0.push(v.wide());
        self
    }

    pub fn flag(self, v: bool) -> Line {
        self.num(v as u8)
    }

    /// The elements alone.
    pub fn all<T: Number>(mut self, values: &[T]) -> Line {
        self.0.extend(values.iter().map(|v| v.wide()));
        self
    }

    /// The length and then the elements.
    pub fn slice<T: Number>(self, values: &[T]) -> Line {
        self.num(values.len()).all(values)
    }

    /// Whether the number, which comes first, is 0.
    pub fn accepted(&self) -> bool {
        self.0[0] == 0
    }
}

impl Line {
    /// For a reader: a run of one number is written once, with its length.
    #[cfg(feature = "archive")]
    pub fn short(&self) -> String {
        let each = |run: &[i64]| {
            if run.len() < 4 {
                Line(run.to_vec()).to_string()
            } else {
                format!("{}*{}", run[0], run.len())
            }
        };
        self.0.chunk_by(|a, b| a == b).map(each).collect::<Vec<_>>().join(" ")
    }
}

impl Display for Line {
    fn fmt(&self, f: &mut fmt::Formatter<'_>) -> fmt::Result {
        let numbers: Vec<String> = self.0.iter().map(i64::to_string).collect();
        f.write_str(&numbers.join(" "))
    }
}

/// One input of a call, and the ways to answer it.
pub trait Case {
    fn input(&self) -> Line;
    /// The model's answer: the number, the values, every lent slice afterwards.
    fn model(&self) -> Line;
    /// The case that the Rust is asked in this one's place; none where it has no such call, unless `rust` and `in_domain` say otherwise.
    fn asked(&self) -> Option<&dyn Case> {
        None
    }
    /// The Rust's answer in the same form; None where it panics, or has no such call.
    fn rust(&self) -> Option<Line> {
        self.asked()?.rust()
    }
    /// Whether an accepted input lies in the Rust's domain.
    fn in_domain(&self) -> bool {
        self.asked().is_some_and(|case| case.in_domain())
    }
    /// The product's answer in the same form, or what was written that must not be.
    #[cfg(feature = "archive")]
    fn product(&self, lending: Lending) -> Answer;
}

#[derive(Default)]
pub struct Tape {
    name: &'static str,
    cases: Vec<u8>,
    stdout: String,
    from_rust: usize,
    refused: usize,
    from_model: usize,
    compared: usize,
    said: usize,
    differences: usize,
    outside: Outside,
}

/// What the Rust did on accepted inputs outside its domain.
#[derive(Default)]
struct Outside {
    panics: usize,
    same: usize,
    other: usize,
}

impl Tape {
    pub fn new(name: &'static str) -> Tape {
        Tape { name, ..Tape::default() }
    }

    /// Records a case: the Rust answers in its domain, else the model does.
    pub fn record(&mut self, case: &dyn Case) {
        let answer = self.answer(case);
        self.cases.extend(case.input().to_string().bytes());
        self.cases.push(b'\n');
        self.stdout += &answer.to_string();
        self.stdout.push('\n');
    }

    /// Records a sheet and its text, which the model alone gives.
    pub fn record_sheet(&mut self, sheet: &[u8], text: &str) {
        assert!(!sheet.contains(&SHEET_END), "a sheet holds the byte that ends it");
        if text.starts_with("refused=") {
            self.refused += 1;
        } else {
            self.from_model += 1;
        }
        self.cases.extend(sheet);
        self.cases.push(SHEET_END);
        self.stdout += text;
        self.stdout += "--\n";
    }

    /// Compares the Rust and the model on a case without recording it.
    pub fn compare(&mut self, case: &dyn Case) {
        let model = case.model();
        if model.accepted() && case.in_domain() {
            self.agree(case, &model);
        } else if model.accepted() {
            self.outside(case, &model);
        }
    }

    /// Says how many comparisons were made since the last such line.
    pub fn say(&mut self, what: &str) {
        println!("{}: {} {}", self.name, self.compared - self.said, what);
        self.said = self.compared;
    }

    fn answer(&mut self, case: &dyn Case) -> Line {
        let model = case.model();
        if !model.accepted() {
            self.refused += 1;
        } else if case.in_domain() {
            self.from_rust += 1;
            return self.agree(case, &model).unwrap_or(model);
        } else {
            self.from_model += 1;
            self.outside(case, &model);
        }
        model
    }

    fn outside(&mut self, case: &dyn Case, model: &Line) {
        match case.rust() {
            None => self.outside.panics += 1,
            Some(line) if line == *model => self.outside.same += 1,
            Some(_) => self.outside.other += 1,
        }
    }

    /// The Rust's answer; a difference from the model's is said and counted.
    fn agree(&mut self, case: &dyn Case, model: &Line) -> Option<Line> {
        self.compared += 1;
        let rust = case.rust();
        if rust.as_ref() != Some(model) {
            self.differences += 1;
            if self.differences <= 3 {
                let said = rust.as_ref().map_or("a panic".into(), Line::to_string);
                println!(
                    "{}: DIFFERENCE\n  input {}\n  model {}\n  Rust  {}",
                    self.name,
                    case.input(),
                    model,
                    said
                );
            }
        }
        rust
    }

    /// Says the counts; true if the Rust and the model never differed.
    pub fn report(&self) -> bool {
        let recorded = self.from_rust + self.refused + self.from_model;
        println!(
            "{}: {} cases ({} from the Rust, {} refusals and {} accepted from the model), {} + {} bytes; \
             in the domain Rust and model compared {} times, {} differences; \
             outside it the Rust gave no answer {} times, the same {}, another {}",
            self.name,
            recorded,
            self.from_rust,
            self.refused,
            self.from_model,
            self.cases.len(),
            self.stdout.len(),
            self.compared,
            self.differences,
            self.outside.panics,
            self.outside.same,
            self.outside.other
        );
        self.differences == 0
    }

    /// Writes OUTDIR/data/cases and OUTDIR/stdout.
    pub fn save(&self, dir: &Path) -> io::Result<()> {
        fs::create_dir_all(dir.join("data"))?;
        fs::write(dir.join("data/cases"), &self.cases)?;
        fs::write(dir.join("stdout"), &self.stdout)
    }
}
