//! Tables in Markdown.
use super::measure::{median, Times};
use std::fmt::Write;

/// A row: the words of its first columns, and the times.
pub struct Row {
    pub words: Vec<String>,
    pub times: Times,
}

/// A time in microseconds, with three digits.
pub fn time(x: f64) -> String {
    match x {
        x if x < 1.0 => format!("{x:.3}"),
        x if x < 10.0 => format!("{x:.2}"),
        x if x < 100.0 => format!("{x:.1}"),
        x => format!("{x:.0}"),
    }
}

/// A table with the given first columns, then times and ratios.
pub fn table(columns: &[&str], rows: &[Row]) -> String {
    let mut text = format!("| {} | ours, µs | Rust, µs | Rust / ours | middle half |\n", columns.join(" | "));
    text += &format!("|{}\n", "---|".repeat(columns.len() + 4));
    for row in rows {
        let (low, high) = row.times.middle();
        let ours = time(median(row.times.ours.clone()));
        let theirs = time(median(row.times.theirs.clone()));
        let ratio = row.times.ratio();
        writeln!(text, "| {} | {ours} | {theirs} | {ratio:.2} | {low:.2} to {high:.2} |", row.words.join(" | ")).unwrap();
    }
    text
}
