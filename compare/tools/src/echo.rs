//! Echo files and what is printed of them ('The echo file and its printer' of document 01).
use crate::case::{Case, Doc, Query};
use crate::ours::Shape;
use crate::parting::joined;
use std::fmt::Write;

fn put_floats(file: &mut Vec<u8>, vector: &[f32]) {
    vector.iter().for_each(|x| file.extend(x.to_bits().to_le_bytes()));
}

fn put_settings(file: &mut Vec<u8>, s: &Shape) {
    file.extend([0x5A, 0x01]);
    for x in [s.dimension, s.branching, s.leaf_size, s.ef, s.beam] {
        file.extend((x as u32).to_le_bytes());
    }
}

fn put_doc(file: &mut Vec<u8>, doc: &Doc) {
    file.extend([0x5A, 0x02]);
    file.extend(doc.id.to_le_bytes());
    file.push(doc.labels.len() as u8);
    file.extend(doc.labels.iter().map(|label| label.len() as u8));
    file.extend(joined(&doc.labels));
    put_floats(file, &doc.vector);
}

fn put_query(file: &mut Vec<u8>, query: &Query) {
    file.extend([0x5A, if query.label.is_some() { 0x04 } else { 0x05 }]);
    file.extend((query.k as u16).to_le_bytes());
    if let Some(label) = &query.label {
        file.push(label.len() as u8);
        file.extend(label.iter());
    }
    put_floats(file, &query.vector);
}

/// The settings, the documents, then the searches.
pub fn file(case: &Case) -> Vec<u8> {
    let mut file = Vec::new();
    put_settings(&mut file, &case.shape);
    case.docs.iter().for_each(|doc| put_doc(&mut file, doc));
    case.queries.iter().for_each(|query| put_query(&mut file, query));
    file
}

/// What is printed of an answer.
pub fn print(text: &mut String, hits: &[(u32, f32)], opened: usize, whole: bool) {
    for (id, distance) in hits {
        writeln!(text, "{id} {:08x}", distance.to_bits()).expect("a line");
    }
    writeln!(text, "{} {opened}", if whole { "whole" } else { "cut" }).expect("a line");
}
