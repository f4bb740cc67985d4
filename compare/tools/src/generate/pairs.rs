//! Random searches for two labels (K1 of document 02), behind the others of a case.
use super::index::{heard, limit};
use super::vectors::Maker;
use crate::case::{Case, Doc, Label, Query};
use crate::random::Random;

const SEARCHES: usize = 4;

/// Two labels: of one document in most cases, any two, one that no document may have, or the same twice.
fn labels(random: &mut Random, pool: &[Label], docs: &[Doc]) -> [Label; 2] {
    let any = |random: &mut Random| random.of(pool).clone();
    let several: Vec<&Doc> = docs.iter().filter(|doc| doc.labels.len() > 1).collect();
    match random.below(10) {
        0 | 1 => [any(random), any(random)],
        2 => ["absent".into(), any(random)],
        3 => [any(random), "absent".into()],
        4 => {
            let label = any(random);
            [label.clone(), label]
        }
        _ if several.is_empty() => [any(random), any(random)],
        _ => {
            let doc = *random.of(&several);
            let (one, step) = (random.below(doc.labels.len()), random.from(1, doc.labels.len() - 1));
            [doc.labels[one].clone(), doc.labels[(one + step) % doc.labels.len()].clone()]
        }
    }
}

/// Puts searches for two labels among those of a case, each behind another. They are drawn from the beam width, so that the other numbers of a case do not
/// hang on them.
pub fn put(case: &mut Case, maker: &Maker, pool: &[Label]) {
    let mut random = Random::new(!(case.shape.beam as u64) << 1);
    for i in 0..SEARCHES {
        let [label, other] = labels(&mut random, pool, &case.docs).map(Some);
        let vector = heard(&mut random, maker, &case.docs);
        let query = Query { vector, label, other, k: limit(&mut random, case.docs.len()) };
        case.queries.insert(2 * i + 1, query);
    }
}
