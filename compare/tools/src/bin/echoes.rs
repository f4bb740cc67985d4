//! echoes SEED COUNT PROGRAM: COUNT generated indexes as echo files through the program `echoes`. Ids and distances must be the original's, opened
//! counts and `whole` or `cut` the model's.
use std::io::Write;
use std::process::{Command, Stdio};
use tools::echo;
use tools::random::Random;
use tools::sample::{printed, sample};

/// What the program prints of a file.
fn run(program: &str, file: &[u8]) -> String {
    let mut child = Command::new(program).stdin(Stdio::piped()).stdout(Stdio::piped()).spawn().expect("the program starts");
    child.stdin.take().expect("piped").write_all(file).expect("the program reads");
    let output = child.wait_with_output().expect("the program ends");
    String::from_utf8(output.stdout).expect("text")
}

fn main() {
    let words: Vec<String> = std::env::args().collect();
    let [_, seed, count, program] = &words[..] else { panic!("echoes SEED COUNT PROGRAM") };
    let mut random = Random::new(seed.parse().expect("a seed"));
    let count: usize = count.parse().expect("a count");
    let (mut made, mut lines, mut failed) = (0, 0, 0);
    while made < count {
        let Some((case, tree)) = sample(&mut random) else { continue };
        let expected = printed(&case, &tree);
        if run(program, &echo::file(&case)) != expected {
            failed += 1;
            println!("file {made} differs");
        }
        lines += expected.lines().count();
        made += 1;
    }
    println!("{lines} lines");
    println!("{} passed, {} failed", count - failed, failed);
    std::process::exit(i32::from(failed > 0));
}
