//! The functions of c/curator.h and c/hit_records.h. A list is a pointer and a count; each is a separate argument.

use crate::Hit;

pub const STATE: usize = 14;
pub const ANSWER: usize = 3;
pub const FILTER: usize = 4;

extern "C" {
    pub fn curator_new(
        dimension: usize,
        branching_factor: usize,
        max_leaf_size: usize,
        ef_search: usize,
        beam_width: usize,
        vectors: usize,
        entries: usize,
        nodes: usize,
        text: usize,
        state: *mut usize,
        state_len: usize,
    ) -> u32;

    pub fn curator_add(
        state: *mut usize,
        state_len: usize,
        floats: *mut f32,
        floats_len: usize,
        numbers: *mut u32,
        numbers_len: usize,
        hashes: *mut u64,
        hashes_len: usize,
        text: *mut u8,
        text_len: usize,
        doc_id: u32,
        vector: *const f32,
        vector_len: usize,
        lengths: *const u8,
        lengths_len: usize,
        bytes: *const u8,
        bytes_len: usize,
    ) -> u32;

    pub fn curator_take_back(
        state: *mut usize,
        state_len: usize,
        floats: *const f32,
        floats_len: usize,
        numbers: *const u32,
        numbers_len: usize,
        hashes: *const u64,
        hashes_len: usize,
        text: *const u8,
        text_len: usize,
    ) -> u32;

    pub fn curator_withdraw(
        state: *const usize,
        state_len: usize,
        floats: *const f32,
        floats_len: usize,
        numbers: *mut u32,
        numbers_len: usize,
        hashes: *const u64,
        hashes_len: usize,
        text: *const u8,
        text_len: usize,
        doc_id: u32,
    ) -> u32;

    pub fn curator_build(
        state: *mut usize,
        state_len: usize,
        floats: *mut f32,
        floats_len: usize,
        numbers: *mut u32,
        numbers_len: usize,
        hashes: *mut u64,
        hashes_len: usize,
        text: *const u8,
        text_len: usize,
        work: *mut u32,
        work_len: usize,
    ) -> u32;

    pub fn curator_search_filtered(
        state: *const usize,
        state_len: usize,
        floats: *const f32,
        floats_len: usize,
        numbers: *const u32,
        numbers_len: usize,
        hashes: *const u64,
        hashes_len: usize,
        text: *const u8,
        text_len: usize,
        work: *mut u32,
        work_len: usize,
        query: *const f32,
        query_len: usize,
        first: *const u8,
        first_len: usize,
        second: *const u8,
        second_len: usize,
        k: usize,
        ids: *mut u32,
        ids_len: usize,
        distances: *mut f32,
        distances_len: usize,
        answer: *mut usize,
        answer_len: usize,
    ) -> u32;

    pub fn curator_search_both(
        state: *const usize,
        state_len: usize,
        floats: *const f32,
        floats_len: usize,
        numbers: *const u32,
        numbers_len: usize,
        hashes: *const u64,
        hashes_len: usize,
        text: *const u8,
        text_len: usize,
        work: *mut u32,
        work_len: usize,
        query: *const f32,
        query_len: usize,
        first: *const u8,
        first_len: usize,
        second: *const u8,
        second_len: usize,
        other_first: *const u8,
        other_first_len: usize,
        other_second: *const u8,
        other_second_len: usize,
        k: usize,
        ids: *mut u32,
        ids_len: usize,
        distances: *mut f32,
        distances_len: usize,
        answer: *mut usize,
        answer_len: usize,
    ) -> u32;

    pub fn curator_search(
        state: *const usize,
        state_len: usize,
        floats: *const f32,
        floats_len: usize,
        numbers: *const u32,
        numbers_len: usize,
        hashes: *const u64,
        hashes_len: usize,
        text: *const u8,
        text_len: usize,
        work: *mut u32,
        work_len: usize,
        query: *const f32,
        query_len: usize,
        k: usize,
        ids: *mut u32,
        ids_len: usize,
        distances: *mut f32,
        distances_len: usize,
        answer: *mut usize,
        answer_len: usize,
    ) -> u32;

    pub fn curator_pool(
        filter: *mut u64,
        filter_len: usize,
        other: *const u64,
        other_len: usize,
    ) -> u32;

    pub fn curator_label_hash(start: u64, bytes: *const u8, bytes_len: usize) -> u64;

    pub fn curator_hits(
        hits: *mut Hit,
        hits_len: usize,
        ids: *const u32,
        ids_len: usize,
        distances: *const f32,
        distances_len: usize,
        count: usize,
    ) -> u32;
}
