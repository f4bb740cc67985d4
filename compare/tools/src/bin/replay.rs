//! replay SEED COUNT FOLDER: a sample of the original's answers. FOLDER/stdin gets COUNT echo files, each after its length in four bytes, low byte
//! first; FOLDER/stdout gets what is printed of them, one after the other. Ids and distances are the original's; it does not count the nodes that
//! it opens, so the closing lines are the model's.
use tools::case::Case;
use tools::check::search::search;
use tools::echo;
use tools::ours::{Lists, Ours};
use tools::random::Random;
use tools::sample::{printed, sample, NODES, SIZES};

/// The same from the static library, at the sizes of `echoes`.
fn ours(case: &Case) -> String {
    let mut shape = case.shape;
    (shape.vectors, shape.entries, shape.nodes, shape.text) = (SIZES.vectors, SIZES.entries, NODES, SIZES.text);
    let mut ours = Ours::new(shape, Lists::new(shape, 0, 0)).expect("new");
    for doc in &case.docs {
        ours.add(doc.id, &doc.vector, &doc.labels).expect("add");
    }
    ours.build().expect("build");
    let mut text = String::new();
    for query in &case.queries {
        let found = search(&mut ours, query, query.half()).expect("search");
        echo::print(&mut text, &found.hits, found.opened, found.whole);
    }
    text
}

fn main() {
    let words: Vec<String> = std::env::args().collect();
    let [_, seed, count, folder] = &words[..] else { panic!("replay SEED COUNT FOLDER") };
    let mut random = Random::new(seed.parse().expect("a seed"));
    let count: usize = count.parse().expect("a count");
    let (mut input, mut output, mut made, mut failed) = (Vec::new(), String::new(), 0, 0);
    while made < count {
        let Some((case, tree)) = sample(&mut random) else { continue };
        let file = echo::file(&case);
        let text = printed(&case, &tree);
        failed += usize::from(ours(&case) != text);
        input.extend((file.len() as u32).to_le_bytes());
        input.extend(file);
        output += &text;
        made += 1;
    }
    std::fs::write(format!("{folder}/stdin"), &input).expect("stdin");
    std::fs::write(format!("{folder}/stdout"), &output).expect("stdout");
    println!("{} bytes, {} lines", input.len(), output.lines().count());
    println!("{} passed, {} failed", count - failed, failed);
    std::process::exit(i32::from(failed > 0));
}
