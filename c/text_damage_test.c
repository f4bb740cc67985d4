/* Label text between pages that nobody may touch: damaged starts, lengths and bytes, against what the lists say byte by byte, and what a call never reads or
   writes. */
#include "guard.h"
#include "named.h"

/* ---- damage */

/* a search by name with every list between closed pages and no longer than it must be; the store stays as it was */
static uint32_t ask_guarded(const index_t *x, answer_t *a, const float *vector, const name_t *name, size_t k) {
    guard_t f = guard(x->floats, x->floats_len * 4), n = guard(x->numbers, x->numbers_len * 4), h = guard(x->hashes, x->hashes_len * 8);
    guard_t t = guard(x->text, x->text_len), w = guard(x->work, x->work_len * 4), s = guard(x->state, CURATOR_STATE * sizeof(size_t));
    size_t at = below(name->length + 1);
    guard_t one = guard(name->bytes, at), two = guard(name->bytes + at, name->length - at);
    mark(a);
    uint32_t number = curator_search_filtered((const size_t *)s.list, CURATOR_STATE, (const float *)f.list, x->floats_len, (const uint32_t *)n.list,
                                              x->numbers_len, (const uint64_t *)h.list, x->hashes_len, t.list, x->text_len, (uint32_t *)w.list, x->work_len,
                                              vector, D, one.list, at, two.list, name->length - at, k, a->ids, HITS, a->distances, HITS, a->answer,
                                              CURATOR_ANSWER + SURPLUS);
    CHECK(number ? answer_untouched(a) : answer_marked(a, a->answer[CURATOR_HITS], CURATOR_ANSWER));
    CHECK(!memcmp(s.list, x->state, CURATOR_STATE * sizeof(size_t)) && !memcmp(f.list, x->floats, x->floats_len * 4)
          && !memcmp(n.list, x->numbers, x->numbers_len * 4) && !memcmp(h.list, x->hashes, x->hashes_len * 8) && !memcmp(t.list, x->text, x->text_len));
    guard_t *all[] = {&f, &n, &h, &t, &w, &s, &one, &two};
    for (size_t i = 0; i < sizeof all / sizeof all[0]; i++) unguard(all[i]);
    return number;
}

/* a start or a length: near the bytes held, near the largest, or any */
static uint32_t any_number(const index_t *x, uint32_t other) {
    uint32_t held = (uint32_t)x->state[CURATOR_BYTES_HELD];
    switch (below(8)) {
        case 0: return (uint32_t)any();
        case 1: return UINT32_MAX - (uint32_t)below(20);
        case 2: return held - other;
        case 3: return held - other + 1;
        case 4: return (uint32_t)x->text_len;
        default: return (uint32_t)below(held + 3);
    }
}

/* Some starts, lengths and bytes of text, held or not. A label may become another's copy, and, where no filter denies anything, its hash another's. */
static void damage(index_t *x) {
    size_t kinds = 4 + below(2);
    if (kinds == 5) memset(x->hashes + E, 0xff, (x->hashes_len - E) * 8);
    for (size_t i = below(6); i > 0; i--) {
        size_t e = below(E), other = below(E);
        uint32_t *starts = x->numbers + starts_at(x), *lengths = x->numbers + lengths_at(x);
        switch (below(kinds)) {
            case 0: starts[e] = any_number(x, lengths[e]); break;
            case 1: lengths[e] = any_number(x, starts[e]); break;
            case 2: starts[e] = starts[other]; lengths[e] = lengths[other]; break;
            case 3: if (x->text_len) x->text[below(x->text_len)] ^= (uint8_t)(1u << below(8)); break;
            default: x->hashes[e] = x->hashes[other];
        }
    }
}

/* Which vectors have an entry of the name's hash and bytes, as the lists stand; returns whether an entry of the hash ends past the bytes held. */
static int carriers_in_lists(const index_t *x, const name_t *name, int *carries) {
    uint64_t hash = hashed(CURATOR_LABEL_START, name->bytes, name->length);
    int passes = 0;
    memset(carries, 0, V * sizeof *carries);
    for (size_t e = 0; e < x->state[CURATOR_ENTRIES_HELD]; e++) {
        uint64_t start = x->numbers[starts_at(x) + e], length = x->numbers[lengths_at(x) + e];
        if (x->hashes[e] != hash) continue;
        if (start + length > x->state[CURATOR_BYTES_HELD]) passes = 1;
        else if (same_name(name, x->text + start, length)) carries[x->numbers[V + e]] = 1;
    }
    return passes;
}

/* a search of a damaged index twice, the second time with other bytes past those held, which make no difference; returns the number */
static uint32_t ask_twice(index_t *x, answer_t *a, const float *heard, const name_t *name) {
    answer_t b;
    uint32_t number = ask_guarded(x, a, heard, name, V);
    for (size_t i = x->state[CURATOR_BYTES_HELD]; i < x->text_len; i++) x->text[i] = (uint8_t)any();
    CHECK(ask_guarded(x, &b, heard, name, V) == number && memcmp(a, &b, sizeof b) == 0);
    return number;
}

/* 15 exactly where a walk that is not cut finds an entry of the hash that ends past the bytes held; otherwise the answer by bytes */
static void test_damaged(void) {
    size_t refused = 0, answered = 0, found = 0;
    for (int round = 0; round < 2000; round++) {
        index_t x;
        size_t ef = below(4) ? M : below(12);
        model_t m = random_index(&x, ef);
        damage(&x);
        for (size_t i = below(3); i < NAMES; i += 1 + below(4)) {
            answer_t a;
            int carries[V], passes = carriers_in_lists(&x, names + i, carries);
            hit_t hits[V];
            float heard[D], from[D];
            any_vector(heard, from);
            size_t count = rank(&m, carries, from, hits);
            uint32_t number = ask_twice(&x, &a, heard, names + i);
            CHECK(number == 0 || number == CURATOR_DAMAGED);
            if (number == 0) check_hits(&a, hits, count, V);
            if (ef == M || (number == 0 && a.answer[CURATOR_WHOLE] == 1)) CHECK((number != 0) == passes);
            else CHECK(number == 0 || passes);
            refused += number != 0;
            answered += number == 0;
            found += number == 0 ? a.answer[CURATOR_HITS] : 0;
        }
        forget(&m.lists);
        drop(&x);
    }
    CHECK(refused > 500 && answered > 5000 && found > 2000);
}

/* ---- what is never read */

/* lends closed text in the place of an index's own */
#define CLOSED(x, t) (x)->floats, (x)->floats_len, (x)->numbers, (x)->numbers_len, (x)->hashes, (x)->hashes_len, (t)->list, (x)->text_len

/* filtered searches read none of the text past the bytes held; unfiltered ones, builds, takings back and withdrawals none at all */
static void test_unread(void) {
    for (int round = 0; round < 200; round++) {
        index_t x;
        answer_t a, b;
        CHECK(make_text(&x, D, 1 + below(4), below(4), M, V, E, M, 300) == 0);
        model_t m = {.room = 300, .lists = copy(&x)};
        walk(&x, &m, 3 + below(10), 6);
        size_t held = x.state[CURATOR_BYTES_HELD];
        guard_t none = closed_list(x.text, 0, 0, 300), some = closed_list(x.text, 0, held, 300 - held);
        CHECK(curator_take_back(STATE(&x), CLOSED(&x, &none)) == 0);
        CHECK(model_take_back(&m) == 0 && x.state[CURATOR_BYTES_HELD] == m.bytes);
        x.state[CURATOR_VECTORS_HELD] = m.lists.state[CURATOR_VECTORS_HELD];
        x.state[CURATOR_ENTRIES_HELD] = m.lists.state[CURATOR_ENTRIES_HELD];
        x.state[CURATOR_BYTES_HELD] = held;
        CHECK(curator_withdraw(STATE(&x), CLOSED(&x, &none), x.numbers[0]) == 0);
        CHECK(curator_build(STATE(&x), CLOSED(&x, &none), WORK(&x)) == 0);
        CHECK(search(&x, &a, query, V) == 0);
        mark(&b);
        CHECK(curator_search(STATE(&x), CLOSED(&x, &none), WORK(&x), query, D, V, b.ids, HITS, b.distances, HITS, b.answer, CURATOR_ANSWER) == 0);
        CHECK(memcmp(&a, &b, sizeof a) == 0);
        for (size_t i = 0; i < NAMES; i++) {
            CHECK(ask(&x, &a, query, names + i, V) == 0);
            mark(&b);
            CHECK(curator_search_filtered(STATE(&x), CLOSED(&x, &some), WORK(&x), query, D, names[i].bytes, names[i].length, names[i].bytes, 0, V, b.ids, HITS,
                                          b.distances, HITS, b.answer, CURATOR_ANSWER) == 0);
            CHECK(memcmp(&a, &b, sizeof a) == 0);
        }
        unguard(&none);
        unguard(&some);
        forget(&m.lists);
        drop(&x);
    }
}

/* an add touches none of the bytes held, and none behind those that it brings */
static void test_untouched(void) {
    size_t page = (size_t)sysconf(_SC_PAGESIZE);
    index_t x;
    CHECK(make_text(&x, D, 2, 4, 5, 4, 8, 16, 3 * page) == 0);
    for (size_t held = 0; held <= page; held += page / 4) {
        guard_t t = closed_list(x.text, held, page, 3 * page - held - page);
        uint8_t bytes[2 * 255], lengths[] = {255, 255};
        for (size_t i = 0; i < sizeof bytes; i++) bytes[i] = (uint8_t)any();
        x.state[CURATOR_VECTORS_HELD] = x.state[CURATOR_ENTRIES_HELD] = 0;
        /* in the front of the open page, and up to its end */
        for (size_t skip = 0; skip < 2; skip++) {
            size_t at = held + (skip ? page - sizeof bytes : 0);
            x.state[CURATOR_BYTES_HELD] = at;
            CHECK(curator_add(STATE(&x), CLOSED(&x, &t), 7, query, D, lengths, 2, bytes, sizeof bytes) == 0);
            CHECK(x.state[CURATOR_BYTES_HELD] == at + sizeof bytes && memcmp(t.list + at, bytes, sizeof bytes) == 0);
        }
        CHECK(is_marked(t.list, held + sizeof bytes, held + page - sizeof bytes, 1));
        unguard(&t);
    }
    drop(&x);
}

int main(void) {
    guard_all();
    test_damaged();
    test_unread();
    test_untouched();
    return report();
}
