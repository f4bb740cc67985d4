//! bench ROUNDS SVG: prints the tables in Markdown and writes the plot.
use tools::bench::inputs::{case, case_of_pairs};
use tools::bench::measure::{measure, median, searches_of_the_rest, withdrawal, Call, Times};
use tools::bench::page::{table, time, Row};
use tools::bench::plot::{svg, Diagram, Line};

const USUAL_EF: usize = 256;
/// Above the number of nodes at n 4,096.
const UNCUT_EF: usize = 1024;
const GROWTH: &str = "Up to n 128 the root is the only leaf. A search opens at most `ef_search` nodes; at n 4,096 the tree has fewer than 300, so from there on \
nothing grows with `ef_search`, and ours goes over the nodes without a queue. A filtered search of ours checks every entry of a leaf \
that it opens, as 01 has it; the Rust looks one hash up in the leaf's map. \
The Rust's build looks for the leaf of every label entry anew.";
const BOTH: &str =
    "Two labels, of four that are drawn for each vector; the Rust makes the two filtered searches with an unlimited k, marks the second's \
ids in a list and takes the first k of the first's hits that are marked:";
const CALLS: [Call; 4] = [Call::Add, Call::Build, Call::Filtered, Call::Search];

/// The rows that document the speed: every call at two sizes, filtered searches of an index that is one leaf, and searches that no `ef_search` cuts.
fn main_rows(rounds: usize) -> Vec<Row> {
    let sizes = [(4096, 1), (4096, 4), (256, 1), (256, 4)];
    let mut rows: Vec<_> = sizes.iter().flat_map(|&(n, each)| CALLS.map(|call| (call, n, each, USUAL_EF))).collect();
    rows.extend([(Call::Filtered, 128, 1, USUAL_EF), (Call::Filtered, 64, 1, USUAL_EF)]);
    rows.extend([(Call::Filtered, 4096, 1, UNCUT_EF), (Call::Search, 4096, 1, UNCUT_EF)]);
    let row = |(call, n, each, ef): (Call, usize, usize, usize)| Row {
        words: vec![call.name().into(), n.to_string(), each.to_string(), ef.to_string()],
        times: measure(&case(n, each, ef), call, rounds),
    };
    rows.into_iter().map(row).collect()
}

/// Searches with a third of the ids withdrawn, and the time of a withdrawal.
fn print_withdrawn(rounds: usize) {
    let sizes = [4096, 256];
    let calls = sizes.iter().flat_map(|&n| CALLS[2..].iter().map(move |&call| (call, n)));
    let row = |(call, n): (Call, usize)| Row {
        words: vec![call.name().into(), n.to_string(), "1".into(), USUAL_EF.to_string()],
        times: searches_of_the_rest(&case(n, 1, USUAL_EF), call, rounds),
    };
    let rows: Vec<Row> = calls.map(row).collect();
    println!("Every third id withdrawn after the build; the Rust is asked with an unlimited k, what is withdrawn is struck, and the first k stay:\n");
    println!("{}", table(&["call", "n", "labels a vector", "ef_search"], &rows));
    let [large, small] = sizes.map(|n| time(withdrawal(&case(n, 1, USUAL_EF), rounds)));
    println!("A withdrawal takes {large} µs at n 4,096 and {small} µs at n 256; the Rust has none.\n");
}

/// Searches for two labels of four.
fn print_both(rounds: usize) {
    let row = |n: usize| Row {
        words: vec![Call::Both.name().into(), n.to_string(), "4".into(), USUAL_EF.to_string()],
        times: measure(&case_of_pairs(n, 4, USUAL_EF), Call::Both, rounds),
    };
    println!("{BOTH}\n");
    println!("{}", table(&["call", "n", "labels a vector", "ef_search"], &[4096, 256].map(row)));
}

/// One call at each of some sizes.
fn growth(call: Call, rounds: usize, sizes: &[(usize, usize)]) -> Vec<Times> {
    sizes.iter().map(|&(n, ef)| measure(&case(n, 1, ef), call, rounds)).collect()
}

fn rows(call: Call, xs: &[usize], times: &[Times]) -> Vec<Row> {
    let row = |(x, times): (&usize, &Times)| Row { words: vec![call.name().into(), x.to_string()], times: times.clone() };
    xs.iter().zip(times).map(row).collect()
}

/// The two lines of a call.
fn lines(call: Call, xs: &[usize], times: &[Times]) -> Vec<Line> {
    let colour = match call {
        Call::Add => "#7d3c98",
        Call::Build => "#c0392b",
        Call::Filtered => "#2471a3",
        Call::Search => "#1e8449",
        Call::Both => "#b9770e",
    };
    let points = |side: fn(&Times) -> &Vec<f64>| -> Vec<(f64, f64)> {
        xs.iter().zip(times).map(|(&x, t)| (x as f64, median(side(t).clone()))).collect()
    };
    vec![
        Line { name: format!("{}, ours", call.name()), colour, dashed: false, points: points(|t| &t.ours) },
        Line { name: format!("{}, Rust", call.name()), colour, dashed: true, points: points(|t| &t.theirs) },
    ]
}

/// The tables and the diagram of some calls over one size that changes.
fn grown(calls: &[Call], rounds: usize, xs: &[usize], size: impl Fn(usize) -> (usize, usize), axis: &str) -> (Vec<Row>, Diagram) {
    let sizes: Vec<(usize, usize)> = xs.iter().map(|&x| size(x)).collect();
    let (mut table, mut all) = (Vec::new(), Vec::new());
    for &call in calls {
        let times = growth(call, rounds, &sizes);
        table.extend(rows(call, xs, &times));
        all.extend(lines(call, xs, &times));
    }
    let diagram = Diagram { title: format!("Time in µs by {axis}"), axis: axis.into(), lines: all };
    (table, diagram)
}

fn main() {
    let words: Vec<String> = std::env::args().collect();
    let rounds: usize = words.get(1).map_or(21, |word| word.parse().expect("a number of rounds"));
    let path = words.get(2).map_or("benchmarks.svg", |word| word);
    println!("## Times\n\n{}", table(&["call", "n", "labels a vector", "ef_search"], &main_rows(rounds)));
    print_withdrawn(rounds);
    print_both(rounds);
    let sizes = [64, 128, 256, 512, 1024, 2048, 4096];
    let (by_n, first) = grown(&CALLS[1..], rounds / 2 + 1, &sizes, |n| (n, USUAL_EF), "n");
    println!("## How cost grows\n\n![Times by n and by ef_search](benchmarks.svg)\n");
    println!("{GROWTH}\n");
    println!("By n, one label a vector:\n\n{}", table(&["call", "n"], &by_n));
    let efs = [1, 4, 16, 64, 256, 1024];
    let (by_ef, second) = grown(&CALLS[2..], rounds / 2 + 1, &efs, |ef| (4096, ef), "ef_search");
    println!("By ef_search, n 4,096, one label a vector:\n\n{}", table(&["call", "ef_search"], &by_ef));
    std::fs::write(path, svg(&[first, second])).expect("the plot");
}
