/* What the tests of searches for two labels share: the calls, and a plain model of documents 01, 'Search', and 02, K1, which reads the lists as they stand,
   whatever numbers are in them. */
#include "named.h"

/* ---- the model */

/* what is expected: the number that is returned and, where it is 0, the hits, the nodes opened, and 1 for whole */
typedef struct { uint32_t number; size_t hits, opened, whole; uint32_t ids[HITS], bits[HITS]; } expected_t;

typedef struct { uint32_t key, id, vector, bits; } raw_t;

/* the raw hits of a walk so far, and the first of them that would be one too many */
typedef struct { raw_t *list; size_t count, most; } raws_t;

/* 256 bits in four words; a hash sets two of them, or one */
static inline int denies(const index_t *x, size_t node, const name_t *name) {
    const uint64_t *filter = x->hashes + CURATOR_FILTER_AT(x->e, node), hash = hashed(CURATOR_LABEL_START, name->bytes, name->length);
    size_t bits[] = {hash % 256, (hash >> 32) * 0x9e3779b9u % 256};
    for (size_t i = 0; i < 2; i++) if (!(filter[bits[i] / 64] >> bits[i] % 64 & 1)) return 1;
    return 0;
}

/* the six numbers of a node, the child links, and the leaf order of entries */
static inline const uint32_t *six_of(const index_t *x, size_t node) { return x->numbers + 2 * x->v + x->e + 6 * node; }
static inline const uint32_t *links_of(const index_t *x) { return x->numbers + 2 * x->v + x->e + 6 * x->m; }
static inline size_t order_at(const index_t *x) { return 2 * x->v + x->e + 7 * x->m; }

/* whether an entry is a label's: its hash and bytes are */
enum { IS_NOT, IS, PASSES };
static inline int entry_is(const index_t *x, size_t entry, const name_t *name) {
    uint64_t start = x->numbers[starts_at(x) + entry], length = x->numbers[lengths_at(x) + entry];
    if (x->hashes[entry] != hashed(CURATOR_LABEL_START, name->bytes, name->length)) return IS_NOT;
    if (start + length > x->state[CURATOR_BYTES_HELD]) return PASSES;
    return same_name(name, x->text + start, length) ? IS : IS_NOT;
}

static inline raw_t raw_of(const index_t *x, const float *from, uint32_t vector) {
    uint32_t bits = bits_of(distance(from, x->floats + vector * D));
    return (raw_t){bits >> 31 ? ~bits : bits ^ 0x80000000u, x->numbers[vector], vector, bits};
}

/* What a leaf gives: its entries of the first whose owner has one of the second there. Returns 0 where every number passes and no hit is one too many. */
static inline uint32_t leaf_gives(const index_t *x, size_t leaf, const float *from, const name_t *one, const name_t *two, raws_t *raws) {
    size_t start = six_of(x, leaf)[4], count = six_of(x, leaf)[5];
    if (count == 0) return 0;
    if (start + count > x->state[CURATOR_ENTRIES_HELD]) return CURATOR_DAMAGED;
    const uint32_t *list = x->numbers + order_at(x) + start, *owners = x->numbers + x->v;
    uint8_t *ones = marked(count, 1), *twos = marked(count, 1);
    uint32_t number = 0;
    for (size_t i = 0; i < count && !number; i++) {
        if (list[i] >= x->state[CURATOR_ENTRIES_HELD] || owners[list[i]] >= x->state[CURATOR_VECTORS_HELD]) number = CURATOR_DAMAGED;
        else ones[i] = (uint8_t)entry_is(x, list[i], one), twos[i] = (uint8_t)entry_is(x, list[i], two);
        if (!number && (ones[i] == PASSES || twos[i] == PASSES)) number = CURATOR_DAMAGED;
    }
    for (size_t i = 0; i < count && !number; i++) {
        size_t j = 0;
        while (ones[i] == IS && j < count && !(twos[j] == IS && owners[list[j]] == owners[list[i]])) j++;
        if (ones[i] != IS || j == count) continue;
        if (raws->count == raws->most) number = CURATOR_DAMAGED;
        else raws->list[raws->count++] = raw_of(x, from, owners[list[i]]);
    }
    free(ones);
    free(twos);
    return number;
}

/* a node that waits */
typedef struct { uint32_t key, node; } waits_t;

static inline size_t least(const waits_t *waits, size_t count) {
    size_t at = 0;
    for (size_t i = 1; i < count; i++)
        if (waits[i].key < waits[at].key || (waits[i].key == waits[at].key && waits[i].node < waits[at].node)) at = i;
    return at;
}

static inline waits_t waiting(const index_t *x, const float *from, uint32_t node) {
    uint32_t bits = bits_of(distance(from, x->floats + (x->v + node) * D));
    return (waits_t){bits >> 31 ? ~bits : bits ^ 0x80000000u, node};
}

/* the walk: returns 0 or 15, with the raw hits, the nodes opened, and whole or cut */
static inline uint32_t walked(const index_t *x, const float *from, const name_t *one, const name_t *two, raws_t *raws, expected_t *to) {
    size_t nodes = x->state[CURATOR_NODES_HELD], count = 1;
    waits_t *waits = marked(nodes, sizeof *waits);
    uint8_t *pushed = calloc(nodes, 1);
    uint32_t number = 0;
    waits[0] = waiting(x, from, 0);
    pushed[0] = 1;
    while (count > 0 && to->opened < x->state[CURATOR_EF_SEARCH] && !number) {
        size_t at = least(waits, count), node = waits[at].node;
        const uint32_t *six = six_of(x, node);
        waits[at] = waits[--count];
        to->opened++;
        if (denies(x, node, one) || denies(x, node, two)) continue;
        if (six[1] == 0) number = leaf_gives(x, node, from, one, two, raws);
        if (six[1] && (size_t)six[0] + six[1] > nodes) number = CURATOR_DAMAGED;
        for (size_t i = 0; i < six[1] && !number; i++) {
            uint32_t child = links_of(x)[six[0] + i];
            if (child <= node || child >= nodes || pushed[child]) number = CURATOR_DAMAGED;
            else pushed[child] = 1, waits[count++] = waiting(x, from, child);
        }
    }
    to->whole = count == 0;
    free(waits);
    free(pushed);
    return number;
}

static inline int by_rank(const void *a, const void *b) {
    const raw_t *x = a, *y = b;
    if (x->key != y->key) return x->key < y->key ? -1 : 1;
    if (x->id != y->id) return x->id < y->id ? -1 : 1;
    return (x->vector > y->vector) - (x->vector < y->vector);
}

/* sorted, of neighbours with one id the first, withdrawn ones struck, the first k; `from` is the normalised query */
static inline expected_t both_expected(const index_t *x, const float *from, const name_t *one, const name_t *two, size_t k) {
    expected_t to = {0};
    raws_t raws = {.most = x->state[CURATOR_ENTRIES_HELD], .list = marked(x->state[CURATOR_ENTRIES_HELD] + 1, sizeof(raw_t))};
    to.number = walked(x, from, one, two, &raws, &to);
    qsort(raws.list, raws.count, sizeof *raws.list, by_rank);
    for (size_t i = 0; i < raws.count && to.hits < k; i++) {
        const raw_t *raw = raws.list + i;
        if ((i > 0 && raw[-1].id == raw->id) || x->numbers[live_at(x) + raw->vector] == 0) continue;
        to.ids[to.hits] = raw->id;
        to.bits[to.hits++] = raw->bits;
    }
    free(raws.list);
    return to;
}

static inline int is_expected(uint32_t number, const answer_t *a, const expected_t *e) {
    if (number != e->number) return 0;
    if (number) return answer_untouched(a);
    if (a->answer[CURATOR_HITS] != e->hits || a->answer[CURATOR_OPENED] != e->opened || a->answer[CURATOR_WHOLE] != e->whole) return 0;
    for (size_t i = 0; i < e->hits; i++) if (a->ids[i] != e->ids[i] || bits_of(a->distances[i]) != e->bits[i]) return 0;
    return answer_marked(a, e->hits, CURATOR_ANSWER);
}

/* ---- calls */

/* a search for two labels, their names cut at these places */
static inline uint32_t ask_cut(index_t *x, answer_t *a, const float *vector, const name_t *one, size_t at, const name_t *two, size_t other, size_t k) {
    mark(a);
    return curator_search_both(STATE(x), STORE(x), WORK(x), vector, D, one->bytes, at, one->bytes + at, one->length - at, two->bytes, other,
                               two->bytes + other, two->length - other, k, a->ids, HITS, a->distances, HITS, a->answer, CURATOR_ANSWER + SURPLUS);
}

/* cut anywhere */
static inline uint32_t ask_both(index_t *x, answer_t *a, const float *vector, const name_t *one, const name_t *two, size_t k) {
    size_t at = below(one->length + 1), other = below(two->length + 1);
    return ask_cut(x, a, vector, one, at, two, other, k);
}

/* What a work list may hold before a call: all bits, ones, small numbers as entries, owners and nodes are, or any. What it holds makes no difference. */
enum { ALL_BITS, ONES, ZEROS, SMALL, COUNTED, ANY, FILLS };
static inline void fill_work(index_t *x, int kind) {
    for (size_t i = 0; i < x->work_len; i++)
        x->work[i] = kind == ALL_BITS ? UINT32_MAX : kind == ONES ? 1 : kind == ZEROS ? 0 : kind == SMALL ? (uint32_t)below(x->e + 2)
                     : kind == COUNTED ? (uint32_t)i : (uint32_t)any();
}

/* Searches against the model, with a work list of every kind; no list of the store changes. Returns what is expected. */
static inline expected_t check_both(index_t *x, const float *vector, const float *from, const name_t *one, const name_t *two, size_t k) {
    expected_t e = both_expected(x, from, one, two, k);
    copy_t c = copy(x);
    for (int kind = 0; kind < FILLS; kind++) {
        answer_t a;
        fill_work(x, kind);
        uint32_t number = ask_both(x, &a, vector, one, two, k);
        CHECK(is_expected(number, &a, &e));
    }
    CHECK(unchanged(x, &c) && surplus_untouched(x));
    forget(&c);
    return e;
}

/* The same label twice is the search for it: the number, the hits, the nodes opened, whole or cut. */
static inline void check_same(index_t *x, const float *vector, const name_t *name, size_t k) {
    answer_t one, two;
    uint32_t number = ask(x, &one, vector, name, k);
    CHECK(ask_both(x, &two, vector, name, name, k) == number);
    CHECK(memcmp(&one, &two, sizeof one) == 0);
}
