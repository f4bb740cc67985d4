//! Echoes of drain sensors: the nearest to the last one among those of one drain and cause, a label whose name is in two parts.

use curator::{Capacities, CuratorIndex, CuratorParams, Name, RetrieveError};

/// An echo of 64 numbers: a pulse at a place, and its tail.
fn echo(place: usize, tail: f32) -> Vec<f32> {
    (0..64)
        .map(|i| {
            if i < place {
                0.0
            } else {
                (-tail * (i - place) as f32).exp()
            }
        })
        .collect()
}

/// A month of echoes, two labels each: a drain with its state, of eleven bytes, and the drain, of seven.
const MONTH: Capacities = Capacities {
    vectors: 31,
    entries: 62,
    nodes: 100,
    text: 31 * 18,
};

fn main() -> Result<(), RetrieveError> {
    let mut index = CuratorIndex::with_capacities(64, CuratorParams::default(), MONTH)?;
    for day in 0..30 {
        let (drain, state) = if day % 2 == 0 {
            ("kerb-6/", "free")
        } else {
            ("kerb-7/", "silt")
        };
        index.add_names(
            day,
            &echo(4 + day as usize % 7, 0.1 + 0.01 * day as f32),
            &[Name::new(drain, state), drain.into()],
        )?;
    }
    index.build()?;

    let heard = echo(6, 0.25);
    for (doc_id, distance) in index.search_filtered(&heard, 3, ("kerb-7/", "silt"))? {
        println!("day {doc_id}: {distance:.4}");
    }
    let all = index.find(&heard, 3)?;
    println!(
        "{} of all days, {} nodes opened, {}",
        all.hits.len(),
        all.opened,
        if all.whole { "whole" } else { "cut" }
    );

    match index.add(30, &heard, &["kerb-7/"]) {
        Err(RetrieveError::AlreadyBuilt) => println!("a built index takes no more echoes"),
        other => other?,
    }
    Ok(())
}
