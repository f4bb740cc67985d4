//! A plot of times as an SVG: both axes logarithmic, ours in full lines, the Rust's dashed.
use std::fmt::Write;

/// A line: its name, colour, whether it is dashed, and its points.
pub struct Line {
    pub name: String,
    pub colour: &'static str,
    pub dashed: bool,
    pub points: Vec<(f64, f64)>,
}

/// One diagram: its title, the word below its horizontal axis, and its lines.
pub struct Diagram {
    pub title: String,
    pub axis: String,
    pub lines: Vec<Line>,
}

const WIDTH: f64 = 460.0;
const HEIGHT: f64 = 320.0;
const LEFT: f64 = 60.0;
const TOP: f64 = 40.0;

/// From a value to a place on an axis of powers of ten or two.
struct Scale {
    low: f64,
    high: f64,
    start: f64,
    length: f64,
}

impl Scale {
    fn new(values: &[f64], start: f64, length: f64) -> Scale {
        let low = values.iter().copied().fold(f64::INFINITY, f64::min).ln();
        let high = values.iter().copied().fold(0.0, f64::max).ln();
        Scale { low, high, start, length }
    }

    fn at(&self, value: f64) -> f64 {
        self.start + self.length * (value.ln() - self.low) / (self.high - self.low)
    }
}

fn text(x: f64, y: f64, anchor: &str, words: &str) -> String {
    format!("<text x=\"{x:.1}\" y=\"{y:.1}\" text-anchor=\"{anchor}\">{words}</text>\n")
}

fn line(x1: f64, y1: f64, x2: f64, y2: f64) -> String {
    format!("<line x1=\"{x1:.1}\" y1=\"{y1:.1}\" x2=\"{x2:.1}\" y2=\"{y2:.1}\" stroke=\"#ccc\"/>\n")
}

/// The horizontal lines at powers of ten, and the words at the points of the horizontal axis.
fn grid(xs: &[f64], x: &Scale, y: &Scale) -> String {
    let mut svg = String::new();
    for power in -2..9 {
        let value = 10f64.powi(power);
        if value.ln() >= y.low && value.ln() <= y.high {
            svg += &line(LEFT, y.at(value), LEFT + WIDTH, y.at(value));
            svg += &text(LEFT - 6.0, y.at(value) + 4.0, "end", &format!("{value}"));
        }
    }
    for &value in xs {
        svg += &text(x.at(value), TOP + HEIGHT + 16.0, "middle", &format!("{value}"));
    }
    svg
}

fn curve(line: &Line, x: &Scale, y: &Scale) -> String {
    let points: Vec<String> = line.points.iter().map(|p| format!("{:.1},{:.1}", x.at(p.0), y.at(p.1))).collect();
    let dash = if line.dashed { " stroke-dasharray=\"6 4\"" } else { "" };
    format!("<polyline fill=\"none\" stroke=\"{}\" stroke-width=\"2\"{dash} points=\"{}\"/>\n", line.colour, points.join(" "))
}

/// The names of the lines, below the axis.
fn legend(lines: &[Line]) -> String {
    let mut svg = String::new();
    for (i, one) in lines.iter().enumerate() {
        let (x, y) = (LEFT + 230.0 * (i % 2) as f64, TOP + HEIGHT + 58.0 + 18.0 * (i / 2) as f64);
        let dash = if one.dashed { " stroke-dasharray=\"6 4\"" } else { "" };
        writeln!(
            svg,
            "<line x1=\"{x:.1}\" y1=\"{:.1}\" x2=\"{:.1}\" y2=\"{:.1}\" stroke=\"{}\" stroke-width=\"2\"{dash}/>",
            y - 4.0,
            x + 28.0,
            y - 4.0,
            one.colour
        )
        .unwrap();
        svg += &text(x + 34.0, y, "start", &one.name);
    }
    svg
}

fn diagram(diagram: &Diagram) -> String {
    let points: Vec<(f64, f64)> = diagram.lines.iter().flat_map(|l| l.points.clone()).collect();
    let xs: Vec<f64> = points.iter().map(|p| p.0).collect();
    let ys: Vec<f64> = points.iter().map(|p| p.1).collect();
    let x = Scale::new(&xs, LEFT, WIDTH);
    let y = Scale::new(&ys, TOP + HEIGHT, -HEIGHT);
    let mut marks = xs.clone();
    marks.sort_by(f64::total_cmp);
    marks.dedup();
    let mut svg = text(LEFT + WIDTH / 2.0, 22.0, "middle", &diagram.title);
    svg += &grid(&marks, &x, &y);
    svg += &text(LEFT + WIDTH / 2.0, TOP + HEIGHT + 34.0, "middle", &diagram.axis);
    for one in &diagram.lines {
        svg += &curve(one, &x, &y);
    }
    svg + &legend(&diagram.lines)
}

/// Diagrams side by side.
pub fn svg(diagrams: &[Diagram]) -> String {
    let (each, height) = (LEFT + WIDTH + 30.0, TOP + HEIGHT + 120.0);
    let width = each * diagrams.len() as f64;
    let mut svg = format!("<svg xmlns=\"http://www.w3.org/2000/svg\" width=\"{width}\" height=\"{height}\" font-family=\"sans-serif\" font-size=\"12\">\n<rect width=\"100%\" height=\"100%\" fill=\"white\"/>\n");
    for (i, one) in diagrams.iter().enumerate() {
        svg += &format!("<g transform=\"translate({} 0)\">\n{}</g>\n", each * i as f64, diagram(one));
    }
    svg + "</svg>\n"
}
