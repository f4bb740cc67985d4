//! One search of ours, with each name cut at a place, and the places behind the hits looked at.
use crate::case::{Label, Query};
use crate::ffi::{Asked, Filled};
use crate::ours::{done, Answer, Ours};
use crate::parting::Name;

const OLD_ID: u32 = 0xDEAD_BEEF;
const OLD_DISTANCE: f32 = -77.0;

/// A name's parts, in lists of their own.
type Parts = Option<[Vec<u8>; 2]>;

fn parts(label: &Option<Label>, at: usize) -> Parts {
    label.as_ref().map(|label| [label[..at].to_vec(), label[at..].to_vec()])
}

fn name(parts: &Parts) -> Option<Name<'_>> {
    parts.as_ref().map(|[first, second]| Name { first, second })
}

/// Searches. The answer lists are longer than k, and every place from the hit count on must keep what it held.
pub fn search(ours: &mut Ours, query: &Query, at: [usize; 2]) -> Result<Answer, String> {
    let places = query.k + 2;
    let (mut ids, mut distances) = (vec![OLD_ID; places], vec![OLD_DISTANCE; places]);
    let mut answer = [usize::MAX; 3];
    let (one, two) = (parts(&query.label, at[0]), parts(&query.other, at[1]));
    let asked = Asked { query: &query.vector, label: name(&one), other: name(&two), k: query.k };
    let filled = Filled { ids: &mut ids, distances: &mut distances, answer: &mut answer };
    done(ours.search(asked, filled)).map_err(|n| format!("search refused {n}"))?;
    let [count, opened, whole] = answer;
    if count > query.k || whole > 1 {
        return Err(format!("answer {answer:?}"));
    }
    let kept = ids[count..].iter().all(|&id| id == OLD_ID) && distances[count..].iter().all(|&d| d == OLD_DISTANCE);
    if !kept {
        return Err("a place behind the hits was written".into());
    }
    let hits = ids.into_iter().zip(distances).take(count).collect();
    Ok(Answer { hits, opened, whole: whole == 1 })
}

/// Whether two answers are the same, distances by their bits.
pub fn same(a: &Answer, b: &Answer) -> bool {
    same_hits(&a.hits, &b.hits) && a.opened == b.opened && a.whole == b.whole
}

pub fn same_hits(a: &[(u32, f32)], b: &[(u32, f32)]) -> bool {
    let bits = |hits: &[(u32, f32)]| hits.iter().map(|h| (h.0, h.1.to_bits())).collect::<Vec<_>>();
    bits(a) == bits(b)
}
