/* The Curator index as C functions over lists that the caller lends. Link target/staticlib/libcurator_c.a, which `tools/static_libraries` writes.

   Every list is a pointer and a count of elements. A list may be longer than asked; the surplus is untouched. No pointer is NULL, also where the
   count is 0, and each is aligned for its type. A list that a call writes (one whose pointer is not const) shares no place with any other list
   of that call. Threads may search one index at the same time, each with its own work and answer lists.

   Each function but curator_label_hash returns 0 where the call is answered, otherwise the number of its refusal. A refused call leaves the state, the
   store and the answer lists as they were, but for the parts that CURATOR_NODES_FULL names. The work list holds nothing between calls.

   A label's name comes in two parts, which are joined without anything between them; either may be empty. However a name is parted, every call answers
   and writes the same. Two labels are the same exactly when their bytes are; two names of one hash are two labels. The bytes of the labels held stand in
   the byte list `text`, one after the other.

   The contracts are in crates/curator_c/src/lib.rt; the definitions that they cite begin in crates/curator_c/specs/Results.antt,
   that of the label hash in crates/label/specs/Fnv.antt. */
#ifndef CURATOR_H
#define CURATOR_H

#include <stddef.h>
#include <stdint.h>

#ifdef __cplusplus
extern "C" {
#endif

/* The state: fourteen numbers, in this order. */
#define CURATOR_STATE 14
enum {
    CURATOR_DIMENSION,        /* D, 1 to 128 */
    CURATOR_BRANCHING_FACTOR, /* B, 1 to 64 */
    CURATOR_MAX_LEAF_SIZE,    /* 0 to 4,096 */
    CURATOR_EF_SEARCH,        /* 0 to 65,537 */
    CURATOR_BEAM_WIDTH,       /* 0 to 65,535; kept, read by no build or search */
    CURATOR_VECTORS,          /* V, 1 to 4,096 */
    CURATOR_ENTRIES,          /* E, 0 to 16,384 */
    CURATOR_NODES,            /* M, 1 to 65,537 */
    CURATOR_VECTORS_HELD,
    CURATOR_ENTRIES_HELD,
    CURATOR_NODES_HELD,
    CURATOR_BUILT,            /* 0 or 1 */
    CURATOR_TEXT,             /* T, bytes of label text, 0 to 4,177,920 */
    CURATOR_BYTES_HELD        /* of label text */
};

/* What an answered search puts into the answer list: three numbers, in this order. */
#define CURATOR_ANSWER 3
enum {
    CURATOR_HITS,   /* how many places of ids and distances are filled */
    CURATOR_OPENED, /* how many nodes were opened */
    CURATOR_WHOLE   /* 1 where the walk ended because no node waited, 0 where ef_search cut it */
};

/* The sizes of the lists of the store, and of the work list, by D, B, V, E and M. The size of the byte list is T. */
#define CURATOR_FLOATS_SIZE(d, b, v, m) ((d) * ((v) + (m) + (b)))
#define CURATOR_NUMBERS_SIZE(v, e, m) (3 * (v) + 4 * (e) + 7 * (m))
#define CURATOR_HASHES_SIZE(e, m) ((e) + 4 * (m))
#define CURATOR_WORK_SIZE(v, e, m) (3 * (m) + 3 * ((v) < (e) ? (e) : (v)))

/* Where an entry's label stands: numbers[CURATOR_STARTS_AT(v, e, m) + i] is the place in the text at which the label of entry i starts, and
   numbers[CURATOR_LENGTHS_AT(v, e, m) + i] how many bytes it has. */
#define CURATOR_STARTS_AT(v, e, m) (2 * (v) + 2 * (e) + 7 * (m))
#define CURATOR_LENGTHS_AT(v, e, m) (2 * (v) + 3 * (e) + 7 * (m))

/* Where a vector's live mark stands: numbers[CURATOR_LIVE_AT(v, e, m) + i] is that of vector i. 0 is withdrawn, any other number live. */
#define CURATOR_LIVE_AT(v, e, m) (2 * (v) + 4 * (e) + 7 * (m))

/* A filter: the four words of a node stand in the hashes from this place on, in a built index. The root is node 0; its filter has the labels of all that
   is held. Filters go by hash: one does not tell labels of one hash apart. */
#define CURATOR_FILTER 4
#define CURATOR_FILTER_AT(e, node) ((e) + 4 * (node))

/* Where the hash of a whole name starts. */
#define CURATOR_LABEL_START UINT64_C(0xcbf29ce484222325)

/* What is returned. Where several cases hold, the earliest in the call's order is returned:
   new 1, 2, 4; add 4, 3, 5, 7, 8, 9, 10, 11, 20; take back 4, 3, 5, 19; withdraw 4, 3, 24; build 4, 3, then 0 for a built index, then
   12, 15, 13; search 4, 3, 6, 7, 8, 14, 15; pool 3. The numbers 16 to 18 are of the echo file, which no call here reads. */
enum {
    CURATOR_OK = 0,
    CURATOR_INVALID_DIMENSION = 1,
    CURATOR_INVALID_CONFIG = 2,      /* another setting or capacity outside its limits */
    CURATOR_LIST_TOO_SHORT = 3,      /* a list of the store, or the work list; pool: fewer than four words */
    CURATOR_INVALID_STATE = 4,       /* no sound state in the list; new: no room for one */
    CURATOR_ALREADY_BUILT = 5,
    CURATOR_NOT_BUILT = 6,
    CURATOR_DIMENSION_MISMATCH = 7,  /* vector_len or query_len is not D */
    CURATOR_NON_FINITE_INPUT = 8,    /* a component is infinite or NaN */
    CURATOR_LABEL_LENGTHS = 9,       /* lengths_len is odd, or the lengths do not sum to bytes_len */
    CURATOR_VECTORS_FULL = 10,
    CURATOR_ENTRIES_FULL = 11,       /* the entries held and the labels, half of lengths_len, are more than E */
    CURATOR_EMPTY_INDEX = 12,
    CURATOR_NODES_FULL = 13,         /* the tree has more than M nodes; leaves anything in centroids, centres, the six
                                        numbers of each node, child links, leaf orders, filters and work */
    CURATOR_ANSWER_TOO_SHORT = 14,   /* ids or distances shorter than k, or the answer list shorter than 3 */
    CURATOR_DAMAGED = 15,            /* A number that the call reads in the store points outside. build: an owner not below the vectors held. search,
                                        in a node that is opened and not denied: a block past what is held; a child not above its parent, not below
                                        the nodes held or pushed before; a vector, entry or owner not below what is held; a label of a hash
                                        searched for whose start plus length is above the bytes held; one hit too many. Other damage is not
                                        noticed. Leaves anything in work. */
    CURATOR_NO_VECTOR_HELD = 19,     /* take back: nothing was added, or all of it is taken back */
    CURATOR_TEXT_FULL = 20,          /* the bytes held and bytes_len are more than T */
    CURATOR_UNKNOWN_DOCUMENT = 24    /* withdraw: no vector held has the document id */
};

/* An index that holds nothing: its state in the first fourteen places of the state list. The lists of the store may hold anything. */
uint32_t curator_new(size_t dimension, size_t branching_factor, size_t max_leaf_size, size_t ef_search, size_t beam_width,
                     size_t vectors, size_t entries, size_t nodes, size_t text,
                     size_t *state, size_t state_len);

/* Adds a vector under a document id, with labels. lengths has two bytes a label, the length of its first part and that of its second; bytes has the
   parts one after the other. So a part has at most 255 bytes and a name at most 510. The bytes are written into the text after those held, and for each
   label its start and its length; the vector's live mark becomes 1. */
uint32_t curator_add(size_t *state, size_t state_len,
                     float *floats, size_t floats_len, uint32_t *numbers, size_t numbers_len, uint64_t *hashes, size_t hashes_len,
                     uint8_t *text, size_t text_len,
                     uint32_t doc_id, const float *vector, size_t vector_len,
                     const uint8_t *lengths, size_t lengths_len, const uint8_t *bytes, size_t bytes_len);

/* Takes the last accepted add back; called again, the one before it. The vectors held fall by one, and the entries held by the longest run at their end
   whose owner is that vector, whatever owners a damaged store has; where there is such an entry, the bytes held fall to the start of the first, if that is
   lower. No list of the store is written: the places past the counts, the vector's live mark among them, keep what they hold. */
uint32_t curator_take_back(size_t *state, size_t state_len,
                           const float *floats, size_t floats_len, const uint32_t *numbers, size_t numbers_len,
                           const uint64_t *hashes, size_t hashes_len, const uint8_t *text, size_t text_len);

/* Withdraws a document id, before or after the build: 0 becomes the live mark of every vector held that has it. No other place of any list is written, no
   mark past the vectors held either; the state stays. An id that is withdrawn is still held: called again at once, it succeeds and alters nothing. A vector
   that is added under the id afterwards is live. No search of the index may run at the same time. */
uint32_t curator_withdraw(const size_t *state, size_t state_len,
                          const float *floats, size_t floats_len, uint32_t *numbers, size_t numbers_len,
                          const uint64_t *hashes, size_t hashes_len, const uint8_t *text, size_t text_len, uint32_t doc_id);

/* Makes the tree of what is held, withdrawn vectors among it. A built index succeeds unchanged. The text is lent, and not read; live marks are neither read
   nor written. */
uint32_t curator_build(size_t *state, size_t state_len,
                       float *floats, size_t floats_len, uint32_t *numbers, size_t numbers_len, uint64_t *hashes, size_t hashes_len,
                       const uint8_t *text, size_t text_len, uint32_t *work, size_t work_len);

/* The nearest k documents that have a live vector with the label whose name is first, then second, of any length: ids and distances of the hits, nearest
   first, and the three numbers of the answer. Hits are sorted by distance, document id and vector; of neighbours with one document id the first stays; then
   those whose vector is withdrawn are struck, and of the rest the first k stay. So a withdrawn vector hides a live one of its document that comes directly
   behind it. Nodes are opened and counted as if nothing were withdrawn. */
uint32_t curator_search_filtered(const size_t *state, size_t state_len,
                                 const float *floats, size_t floats_len, const uint32_t *numbers, size_t numbers_len,
                                 const uint64_t *hashes, size_t hashes_len, const uint8_t *text, size_t text_len,
                                 uint32_t *work, size_t work_len, const float *query, size_t query_len,
                                 const uint8_t *first, size_t first_len, const uint8_t *second, size_t second_len, size_t k,
                                 uint32_t *ids, size_t ids_len, float *distances, size_t distances_len,
                                 size_t *answer, size_t answer_len);

/* The nearest k documents that have a live vector with both of two labels, listed in the same way. The names are first, then second, and other_first, then
   other_second. A node whose filter denies either is opened and gives nothing; a leaf gives its entries of the first label whose owner has one of the second
   there. As a build leaves it, a vector's entries all stand in its leaf, so that the order of the two labels makes no difference to a whole answer; in a
   damaged store an entry of the second that stands in another leaf does not count. The same label given twice is the search for that label. */
uint32_t curator_search_both(const size_t *state, size_t state_len,
                             const float *floats, size_t floats_len, const uint32_t *numbers, size_t numbers_len,
                             const uint64_t *hashes, size_t hashes_len, const uint8_t *text, size_t text_len,
                             uint32_t *work, size_t work_len, const float *query, size_t query_len,
                             const uint8_t *first, size_t first_len, const uint8_t *second, size_t second_len,
                             const uint8_t *other_first, size_t other_first_len, const uint8_t *other_second, size_t other_second_len, size_t k,
                             uint32_t *ids, size_t ids_len, float *distances, size_t distances_len,
                             size_t *answer, size_t answer_len);

/* The nearest k documents that have a live vector, listed in the same way. The text is lent, and not read. */
uint32_t curator_search(const size_t *state, size_t state_len,
                        const float *floats, size_t floats_len, const uint32_t *numbers, size_t numbers_len,
                        const uint64_t *hashes, size_t hashes_len, const uint8_t *text, size_t text_len,
                        uint32_t *work, size_t work_len, const float *query, size_t query_len, size_t k,
                        uint32_t *ids, size_t ids_len, float *distances, size_t distances_len,
                        size_t *answer, size_t answer_len);

/* Pools a filter into another: the first four words of filter get the bits of the first four of other too. The pool of filters of several indexes is the
   filter of all their labels, in whatever order they are pooled; pooling one again changes nothing. Refused (3), it writes nothing. */
uint32_t curator_pool(uint64_t *filter, size_t filter_len, const uint64_t *other, size_t other_len);

/* The label hash, FNV-1a: the value after the last byte, from a start; without bytes the start. A name's hash is that of its bytes from
   CURATOR_LABEL_START, or, in two parts, that of the second part from that of the first. It always answers. */
uint64_t curator_label_hash(uint64_t start, const uint8_t *bytes, size_t bytes_len);

#ifdef __cplusplus
}
#endif

#endif
