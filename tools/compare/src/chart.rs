//! A picture of the measurements: nanoseconds a sample over the pictures' sizes, both axes by powers.
use std::fmt::Write as _;

/// One kind of work: for each size the Rust's and the product's nanoseconds a sample.
pub struct Series {
    pub what: String,
    pub points: Vec<(usize, f64, f64)>,
}

const WIDE: f64 = 900.0;
const HIGH: f64 = 460.0;
const LEFT: f64 = 60.0;
const RIGHT: f64 = 540.0;
const TOP: f64 = 20.0;
const BOTTOM: f64 = 420.0;
const COLOURS: [&str; 17] = [
    "#1f77b4", "#ff7f0e", "#2ca02c", "#d62728", "#9467bd", "#8c564b", "#e377c2", "#7f7f7f", "#bcbd22", "#17becf",
    "#000080", "#808000", "#00aa88", "#aa0044", "#ffbb00", "#7700cc", "#556b2f",
];

/// Where a size and a number of nanoseconds stand.
struct Axes {
    sizes: (f64, f64),
    least: f64,
    most: f64,
}

impl Axes {
    fn x(&self, size: usize) -> f64 {
        let (first, last) = self.sizes;
        LEFT + (RIGHT - LEFT) * ((size as f64).log2() - first) / (last - first)
    }

    fn y(&self, ns: f64) -> f64 {
        BOTTOM - (BOTTOM - TOP) * (ns.log10() - self.least) / (self.most - self.least)
    }

    fn line(&self, points: impl Iterator<Item = (usize, f64)>) -> String {
        points.map(|(size, ns)| format!("{:.1},{:.1}", self.x(size), self.y(ns))).collect::<Vec<_>>().join(" ")
    }
}

/// The product's lines are drawn through, the Rust's dashed; the copy of the planes is dotted.
pub fn draw(all: &[&Series], sizes: &[usize], floor: &[f64]) -> String {
    let every =
        || all.iter().flat_map(|s| s.points.iter().flat_map(|&(_, a, b)| [a, b])).chain(floor.iter().copied());
    let axes = Axes {
        sizes: ((sizes[0] as f64).log2(), (sizes[sizes.len() - 1] as f64).log2()),
        least: every().fold(f64::INFINITY, f64::min).log10().floor(),
        most: every().fold(0.0, f64::max).log10().ceil(),
    };
    let mut svg = format!(
        "<svg xmlns=\"http://www.w3.org/2000/svg\" width=\"{WIDE}\" height=\"{HIGH}\" font-family=\"sans-serif\" font-size=\"11\">\n<rect width=\"100%\" height=\"100%\" fill=\"white\"/>\n"
    );
    grid(&mut svg, &axes, sizes);
    for (i, series) in all.iter().enumerate() {
        let colour = COLOURS[i % COLOURS.len()];
        let rust = axes.line(series.points.iter().map(|&(size, rust, _)| (size, rust)));
        let ours = axes.line(series.points.iter().map(|&(size, _, ours)| (size, ours)));
        line(&mut svg, &rust, colour, "stroke-dasharray=\"5 3\"");
        line(&mut svg, &ours, colour, "stroke-width=\"2\"");
        legend(&mut svg, i, colour, &series.what, "");
    }
    let copy = axes.line(sizes.iter().copied().zip(floor.iter().copied()));
    line(&mut svg, &copy, "black", "stroke-dasharray=\"1 3\"");
    legend(&mut svg, all.len(), "black", "a copy of the three planes", "stroke-dasharray=\"1 3\"");
    let y = TOP + 18.0 * (all.len() as f64 + 2.0);
    writeln!(svg, "<text x=\"{}\" y=\"{y}\">through: the product; dashed: the Rust</text>", RIGHT + 20.0).unwrap();
    svg + "</svg>\n"
}

fn line(svg: &mut String, points: &str, colour: &str, style: &str) {
    writeln!(svg, "<polyline points=\"{points}\" fill=\"none\" stroke=\"{colour}\" {style}/>").unwrap();
}

fn legend(svg: &mut String, i: usize, colour: &str, what: &str, style: &str) {
    let (x, y) = (RIGHT + 20.0, TOP + 18.0 * i as f64);
    line(svg, &format!("{x},{y} {},{y}", x + 24.0), colour, &format!("stroke-width=\"2\" {style}"));
    writeln!(svg, "<text x=\"{}\" y=\"{}\">{what}</text>", x + 30.0, y + 4.0).unwrap();
}

fn grid(svg: &mut String, axes: &Axes, sizes: &[usize]) {
    for &size in sizes {
        let x = axes.x(size);
        writeln!(svg, "<line x1=\"{x:.1}\" y1=\"{TOP}\" x2=\"{x:.1}\" y2=\"{BOTTOM}\" stroke=\"#ddd\"/>").unwrap();
        writeln!(svg, "<text x=\"{x:.1}\" y=\"{}\" text-anchor=\"middle\">{size}</text>", BOTTOM + 16.0).unwrap();
    }
    for power in axes.least as i32..=axes.most as i32 {
        let ns = 10f64.powi(power);
        let y = axes.y(ns);
        writeln!(svg, "<line x1=\"{LEFT}\" y1=\"{y:.1}\" x2=\"{RIGHT}\" y2=\"{y:.1}\" stroke=\"#ddd\"/>").unwrap();
        writeln!(svg, "<text x=\"{}\" y=\"{:.1}\" text-anchor=\"end\">{ns}</text>", LEFT - 6.0, y + 4.0).unwrap();
    }
    let (x, y) = ((LEFT + RIGHT) / 2.0, BOTTOM + 34.0);
    writeln!(svg, "<text x=\"{x}\" y=\"{y}\" text-anchor=\"middle\">side of a square picture, luma samples</text>")
        .unwrap();
    writeln!(svg, "<text x=\"16\" y=\"{x}\" transform=\"rotate(-90 16 {x})\">ns a sample</text>").unwrap();
}
