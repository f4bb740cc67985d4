/* Searches for two labels over damaged stores, by hand and at random, against the model of both.h, which reads the lists as they stand: entries that stand in
   another leaf, bytes that end past those held, numbers that point outside, one hit too many, and what is not read. */
#include "guard.h"
#include "both.h"

static const name_t a_name = NAMED("a"), b_name = NAMED("b"), c_name = NAMED("c");

/* ---- by hand */

/* Document 01's worked example: the leaves of 7, 9 and 8 are the second, fourth and fifth node opened. Each vector has the names of a string, a letter each;
   the entries stand by vector, 7's first, then 8's, then 9's. */
static void teach_letters(index_t *x, uint32_t id, float one, float two, const char *letters) {
    static const uint8_t lengths[] = {1, 0, 1, 0, 1, 0, 1, 0};
    const float vector[] = {one, two};
    CHECK(curator_add(STATE(x), STORE(x), id, vector, D, lengths, 2 * strlen(letters), (const uint8_t *)letters, strlen(letters)) == 0);
}

static void example(index_t *x, size_t ef, const char *of_seven, const char *of_eight, const char *of_nine) {
    CHECK(make_text(x, D, 2, 1, ef, 4, 12, 16, 64) == 0);
    teach_letters(x, 7, 1.0f, 0.0f, of_seven);
    teach_letters(x, 8, 0.0f, 2.0f, of_eight);
    teach_letters(x, 9, 3.0f, 4.0f, of_nine);
    CHECK(build(x) == 0);
}

/* no filter denies anything */
static void open_filters(index_t *x) { memset(x->hashes + x->e, 0xff, 4 * x->m * sizeof(uint64_t)); }

/* the leaf of a vector, by the six numbers and the leaf order of vectors */
static size_t leaf_of(const index_t *x, uint32_t vector) {
    const uint32_t *order = x->numbers + x->v + x->e;
    for (size_t node = 0; node < x->state[CURATOR_NODES_HELD]; node++) {
        const uint32_t *six = six_of(x, node);
        for (size_t i = 0; six[1] == 0 && i < six[3]; i++) if (order[six[2] + i] == vector) return node;
    }
    CHECK(!"a leaf");
    return 0;
}

/* where an entry stands in the leaf order of entries */
static uint32_t *place_of(const index_t *x, uint32_t entry) {
    uint32_t *order = x->numbers + order_at(x);
    for (size_t i = 0; i < x->state[CURATOR_ENTRIES_HELD]; i++) if (order[i] == entry) return order + i;
    CHECK(!"an entry");
    return order;
}

/* two entries stand in each other's places */
static void exchange(index_t *x, uint32_t one, uint32_t two) {
    uint32_t *first = place_of(x, one), *second = place_of(x, two);
    *first = two;
    *second = one;
}

/* these documents, whose distances are 7's 0, 9's 0.4 and 8's 1, and what the model expects */
static void finds(index_t *x, const name_t *one, const name_t *two, size_t hits, const uint32_t *ids) {
    answer_t a;
    expected_t e = check_both(x, query, query, one, two, 8);
    CHECK(e.number == 0 && e.hits == hits);
    CHECK(ask_both(x, &a, query, one, two, 8) == 0 && a.answer[CURATOR_HITS] == hits);
    for (size_t i = 0; i < hits && i < a.answer[CURATOR_HITS]; i++) {
        CHECK(a.ids[i] == ids[i]);
        CHECK(bits_of(a.distances[i]) == (ids[i] == 7 ? 0x00000000u : ids[i] == 9 ? 0x3ECCCCCCu : 0x3F800000u));
    }
    if (one == two) check_same(x, query, one, 8);
}

static void damaged(index_t *x, const name_t *one, const name_t *two) {
    answer_t a;
    CHECK(check_both(x, query, query, one, two, 8).number == CURATOR_DAMAGED);
    CHECK(ask_both(x, &a, query, one, two, 8) == CURATOR_DAMAGED);
    if (one == two) check_same(x, query, one, 8);
}

#define THESE(...) (const uint32_t[]){__VA_ARGS__}

/* Entries of the second in another leaf, one that is opened earlier and one that is opened later, do not count, and are no damage. The entries are 7's `a` and
   `b`, 0 and 1, 8's, 2 and 3, and 9's, 4 and 5. */
static void test_moved(void) {
    index_t x;
    /* the `b`s of 7 and 9 exchanged: 7's leaf has 9's `b`, and 9's, which is opened later, 7's */
    example(&x, 16, "ab", "ab", "ab");
    finds(&x, &a_name, &b_name, 3, THESE(7, 9, 8));
    exchange(&x, 1, 5);
    finds(&x, &a_name, &b_name, 1, THESE(8));
    finds(&x, &b_name, &a_name, 1, THESE(8));
    finds(&x, &a_name, &a_name, 3, THESE(7, 9, 8));
    finds(&x, &b_name, &b_name, 3, THESE(7, 9, 8));
    /* the `a`s too: both entries of 7 stand in 9's leaf, and 9's in 7's, and count there */
    exchange(&x, 0, 4);
    finds(&x, &a_name, &b_name, 3, THESE(7, 9, 8));
    drop(&x);

    /* exchanged with an entry of another label: the leaf of 8 has one of the second of 7, and 7's has none */
    example(&x, 16, "ab", "ac", "ab");
    open_filters(&x);
    finds(&x, &a_name, &b_name, 2, THESE(7, 9));
    exchange(&x, 1, 3);
    finds(&x, &a_name, &b_name, 1, THESE(9));
    finds(&x, &b_name, &a_name, 1, THESE(9));
    finds(&x, &a_name, &c_name, 0, NULL);
    drop(&x);

    /* another owner: the `b` of 8 becomes 7's, which stands in another leaf; then that of 7 becomes 8's, and 7 has none there */
    example(&x, 16, "ab", "ab", "c");
    x.numbers[x.v + 3] = 0;
    finds(&x, &a_name, &b_name, 1, THESE(7));
    x.numbers[x.v + 1] = 1;
    finds(&x, &a_name, &b_name, 0, NULL);
    drop(&x);
}

/* in one leaf: entries of other owners between those of a vector, and an entry's number several times in the list */
static void test_one_leaf(void) {
    index_t x;
    CHECK(make_text(&x, D, 2, 4, 16, 4, 12, 16, 64) == 0);
    teach_letters(&x, 7, 1.0f, 0.0f, "ab");
    teach_letters(&x, 8, 0.0f, 2.0f, "ac");
    teach_letters(&x, 9, 3.0f, 4.0f, "ba");
    CHECK(build(&x) == 0);
    finds(&x, &a_name, &b_name, 2, THESE(7, 9));
    exchange(&x, 0, 5);
    exchange(&x, 1, 2);
    finds(&x, &a_name, &b_name, 2, THESE(7, 9));
    finds(&x, &a_name, &c_name, 1, THESE(8));
    /* 7's `a` twice, and no `b` of 9; then 7's `b` twice, and no `a` of 7 */
    *place_of(&x, 4) = 0;
    finds(&x, &a_name, &b_name, 1, THESE(7));
    *place_of(&x, 0) = 1;
    *place_of(&x, 0) = 1;
    finds(&x, &a_name, &b_name, 0, NULL);
    finds(&x, &b_name, &b_name, 1, THESE(7));
    drop(&x);
}

/* start plus length against the bytes held, of an entry of the first, of the second, or of neither */
static void test_passing(void) {
    static const struct { uint32_t start, length; } passes[] = {{0, 7}, {6, 1}, {7, 0}, {64, 0}, {0, UINT32_MAX}, {UINT32_MAX, 0}, {UINT32_MAX, 1},
                                                                {UINT32_MAX, 2}, {UINT32_MAX, UINT32_MAX}, {0x80000000u, 0x80000000u}};
    static const struct { uint32_t start, length; } within[] = {{0, 6}, {6, 0}, {5, 1}, {0, 0}};
    for (uint32_t entry = 0; entry < 6; entry++) {
        index_t x;
        const name_t *own = entry % 2 ? &b_name : &a_name;
        example(&x, 16, "ab", "ab", "ab");
        uint32_t *start = x.numbers + starts_at(&x) + entry, *length = x.numbers + lengths_at(&x) + entry, kept = *start;
        for (size_t i = 0; i < sizeof passes / sizeof passes[0]; i++) {
            *start = passes[i].start;
            *length = passes[i].length;
            damaged(&x, &a_name, &b_name);
            damaged(&x, &b_name, &a_name);
            damaged(&x, own, own);
            finds(&x, own == &a_name ? &b_name : &a_name, own == &a_name ? &b_name : &a_name, 3, THESE(7, 9, 8));
            /* every filter denies `c` */
            CHECK(check_both(&x, query, query, own, &c_name, 8).opened == 1);
            CHECK(check_both(&x, query, query, &c_name, own, 8).opened == 1);
        }
        for (size_t i = 0; i < sizeof within / sizeof within[0]; i++) {
            *start = within[i].start;
            *length = within[i].length;
            CHECK(check_both(&x, query, query, &a_name, &b_name, 8).number == 0);
            CHECK(check_both(&x, query, query, &b_name, &a_name, 8).number == 0);
        }
        /* the bytes of the other label are no longer its own */
        *start = kept ^ 1;
        *length = 1;
        CHECK(check_both(&x, query, query, &a_name, &b_name, 8).hits == 2);
        *start = kept;
        finds(&x, &a_name, &b_name, 3, THESE(7, 9, 8));
        drop(&x);
    }
}

/* what is damaged, in the leaf of a vector: an entry of either label ends past the bytes held, an entry of another label has an owner that is none, the list a
   number that is none, or is longer than what is held */
enum { FIRST_PASSES, SECOND_PASSES, OWNER, OWNER_FAR, ENTRY, ENTRY_FAR, LONGER, FAR, LONGEST, DAMAGES };

/* 7 has the entries 0 to 2, 8 3 to 5, 9 6 to 8: `a`, `b` and `c` each */
static void damage_leaf(index_t *x, uint32_t vector, int kind) {
    uint32_t first = 3 * vector, *six = x->numbers + 2 * x->v + x->e + 6 * leaf_of(x, vector);
    switch (kind) {
        case FIRST_PASSES: x->numbers[starts_at(x) + first] = 9; break;
        case SECOND_PASSES: x->numbers[lengths_at(x) + first + 1] = 9; break;
        case OWNER: x->numbers[x->v + first + 2] = 3; break;
        case OWNER_FAR: x->numbers[x->v + first + 2] = UINT32_MAX; break;
        case ENTRY: *place_of(x, first + 2) = 9; break;
        case ENTRY_FAR: *place_of(x, first + 2) = UINT32_MAX; break;
        case LONGER: six[5] = 10 - six[4]; break;
        case FAR: six[4] = 7; break;
        default: six[5] = UINT32_MAX;
    }
}

/* Damage in a leaf that is opened and not denied is 15, in one that is not opened, or that either label denies, it is not read. */
static void test_opened(void) {
    static const uint32_t vectors[] = {0, 2, 1}, order[] = {7, 9, 8};
    static const size_t at[] = {2, 4, 5}, given[] = {0, 0, 1, 1, 2, 3};
    for (int kind = 0; kind < DAMAGES; kind++)
        for (size_t i = 0; i < 3; i++)
            for (size_t ef = 0; ef <= 5; ef++) {
                index_t x;
                example(&x, ef, "abc", "abc", "abc");
                finds(&x, &a_name, &b_name, given[ef], order);
                damage_leaf(&x, vectors[i], kind);
                for (int swap = 0; swap < 2; swap++) {
                    const name_t *one = swap ? &b_name : &a_name, *two = swap ? &a_name : &b_name;
                    if (ef < at[i]) finds(&x, one, two, given[ef], order);
                    else damaged(&x, one, two);
                }
                drop(&x);
            }
}

/* the filter of a node without the bits of one label: of the leaf, or of the inner node above 8's and 9's leaves */
static void deny(index_t *x, size_t node, const name_t *name) {
    uint64_t *filter = x->hashes + CURATOR_FILTER_AT(x->e, node), hash = hashed(CURATOR_LABEL_START, name->bytes, name->length);
    for (size_t i = 0; i < CURATOR_FILTER; i++) filter[i] = UINT64_MAX;
    filter[hash % 256 / 64] ^= UINT64_C(1) << hash % 64;
    CHECK(denies(x, node, name));
}

static void test_denied(void) {
    for (int kind = 0; kind < DAMAGES; kind++)
        for (uint32_t vector = 0; vector < 3; vector++)
            for (int which = 0; which < 2; which++) {
                static const uint32_t rest[][2] = {{9, 8}, {7, 9}, {7, 8}};
                index_t x;
                example(&x, 16, "abc", "abc", "abc");
                damage_leaf(&x, vector, kind);
                deny(&x, leaf_of(&x, vector), which ? &b_name : &a_name);
                CHECK(!denies(&x, leaf_of(&x, vector), which ? &a_name : &b_name));
                finds(&x, &a_name, &b_name, 2, rest[vector]);
                finds(&x, &b_name, &a_name, 2, rest[vector]);
                drop(&x);
            }
    /* an inner node that either label denies pushes no children, whatever stands for them */
    for (int which = 0; which < 2; which++) {
        index_t x;
        example(&x, 16, "ab", "ab", "ab");
        size_t inner = 1;
        while (six_of(&x, inner)[1] == 0) inner++;
        uint32_t *links = x.numbers + 2 * x.v + x.e + 6 * x.m + six_of(&x, inner)[0];
        links[0] = 0;
        damaged(&x, &a_name, &b_name);
        deny(&x, inner, which ? &b_name : &a_name);
        finds(&x, &a_name, &b_name, 1, THESE(7));
        finds(&x, &b_name, &a_name, 1, THESE(7));
        CHECK(check_both(&x, query, query, &a_name, &b_name, 8).opened == 3);
        drop(&x);
    }
}

/* Every leaf has the list of all entries held, so that the hits of one leaf are given three times; one hit too many is one over the entries held. The strings
   are of 7 alone; what is given of each leaf is the number of the first's entries, if there is one of the second. */
static void test_too_many(void) {
    static const struct { const char *letters; size_t of_ab, of_ba, of_aa; } rows[] = {
        {"ab", 1, 1, 1},     {"aab", 2, 1, 2},    {"abb", 1, 2, 1}, {"aabb", 2, 2, 2}, {"aaab", 3, 1, 3}, {"abbb", 1, 3, 1},
        {"aabc", 2, 1, 2},   {"abc", 1, 1, 1},    {"aaaa", 0, 0, 4}, {"abcc", 1, 1, 1}, {"bbb", 0, 0, 0}, {"b", 0, 0, 0}};
    size_t refused = 0, just = 0;
    for (size_t row = 0; row < sizeof rows / sizeof rows[0]; row++)
        for (size_t ef = 0; ef <= 5; ef++) {
            static const size_t leaves[] = {0, 0, 1, 1, 2, 3};
            index_t x;
            size_t held = strlen(rows[row].letters);
            const struct { const name_t *one, *two; size_t given; } asked[] = {
                {&a_name, &b_name, rows[row].of_ab}, {&b_name, &a_name, rows[row].of_ba}, {&a_name, &a_name, rows[row].of_aa}};
            example(&x, ef, rows[row].letters, "", "");
            open_filters(&x);
            for (uint32_t vector = 0; vector < 3; vector++) {
                uint32_t *six = x.numbers + 2 * x.v + x.e + 6 * leaf_of(&x, vector);
                six[4] = 0;
                six[5] = (uint32_t)held;
            }
            for (size_t i = 0; i < 3; i++) {
                size_t hits = asked[i].given * leaves[ef];
                if (hits > held) damaged(&x, asked[i].one, asked[i].two);
                else finds(&x, asked[i].one, asked[i].two, hits > 0, THESE(7));
                refused += hits > held;
                just += hits == held && hits > 0;
            }
            drop(&x);
        }
    CHECK(refused > 20 && just > 5);
}

/* an entry that stands twice in a list is given twice: `a` in the places of `a` and of `c`, `b` once */
static void test_number_twice(void) {
    for (int twice = 0; twice < 2; twice++) {
        index_t x;
        example(&x, 16, "acb", "", "");
        open_filters(&x);
        for (uint32_t vector = 0; vector < 3; vector++) {
            uint32_t *six = x.numbers + 2 * x.v + x.e + 6 * leaf_of(&x, vector);
            six[4] = 0;
            six[5] = 3;
        }
        if (twice) x.numbers[order_at(&x) + 1] = 0;
        if (twice) damaged(&x, &a_name, &b_name);
        else finds(&x, &a_name, &b_name, 1, THESE(7));
        finds(&x, &b_name, &a_name, 1, THESE(7));
        drop(&x);
    }
}

/* hits that are struck or dropped are counted too: 7 is withdrawn */
static void test_struck(void) {
    index_t x;
    example(&x, 16, "aab", "", "");
    open_filters(&x);
    for (uint32_t vector = 0; vector < 3; vector++) {
        uint32_t *six = x.numbers + 2 * x.v + x.e + 6 * leaf_of(&x, vector);
        six[4] = 0;
        six[5] = vector == 0 ? 3 : 0;
    }
    CHECK(curator_withdraw(STATE(&x), STORE(&x), 7) == 0);
    finds(&x, &a_name, &b_name, 0, NULL);
    x.numbers[2 * x.v + x.e + 6 * leaf_of(&x, 1) + 5] = 3;
    damaged(&x, &a_name, &b_name);
    finds(&x, &b_name, &a_name, 0, NULL);
    drop(&x);
}

/* ---- at random */

static uint32_t near(size_t held) {
    switch (below(10)) {
        case 0: return (uint32_t)any();
        case 1: return UINT32_MAX - (uint32_t)below(3);
        case 2: return (uint32_t)(held + below(2));
        default: return (uint32_t)below(held ? held : 1);
    }
}

/* An entry of the leaf order, an owner, a start, a length, a hash, a node's number, a link, a live mark, an id, a filter. With `moves` entries only go from
   leaf to leaf and from owner to owner, so that nothing points outside. */
static void damage_at_random(index_t *x, int moves) {
    size_t n = x->state[CURATOR_VECTORS_HELD], entries = x->state[CURATOR_ENTRIES_HELD], nodes = x->state[CURATOR_NODES_HELD];
    uint32_t *order = x->numbers + order_at(x), *owners = x->numbers + V, *six = x->numbers + 2 * V + E, *links = six + 6 * M;
    if (below(2)) memset(x->hashes + E, 0xff, (x->hashes_len - E) * 8);
    for (size_t i = 1 + below(6); i > 0 && entries > 0; i--) {
        size_t e = below(entries), other = below(entries), node = below(nodes);
        uint32_t kept = order[e];
        switch (below(moves ? 5 : 14)) {
            case 0: case 1: order[e] = order[other]; order[other] = kept; break;
            case 2: owners[e] = owners[other]; break;
            case 3: order[e] = order[other]; break;
            case 4: x->numbers[live_at(x) + below(V)] = (uint32_t)below(2); break;
            case 5: order[e] = near(entries); break;
            case 6: owners[e] = near(n); break;
            case 7: x->numbers[starts_at(x) + e] = near(x->state[CURATOR_BYTES_HELD]); break;
            case 8: x->numbers[lengths_at(x) + e] = near(x->state[CURATOR_BYTES_HELD]); break;
            case 9: x->hashes[e] = x->hashes[other]; break;
            case 10: six[6 * node + 4 + below(2)] = near(entries); break;
            case 11: six[6 * node + below(2)] = near(nodes); break;
            case 12: links[below(nodes)] = near(nodes); break;
            default: x->numbers[below(n)] = (uint32_t)below(3);
        }
    }
}

/* whether an entry of the second counts that stands in another leaf: then other vectors would be given */
static int elsewhere(const index_t *x, const name_t *one, const name_t *two) {
    size_t entries = x->state[CURATOR_ENTRIES_HELD];
    for (size_t node = 0; node < x->state[CURATOR_NODES_HELD]; node++) {
        const uint32_t *six = six_of(x, node), *list = x->numbers + order_at(x) + six[4];
        for (size_t i = 0; six[1] == 0 && i < six[5]; i++) {
            int here = 0, there = 0;
            if (entry_is(x, list[i], one) != IS) continue;
            for (size_t e = 0; e < entries; e++) there |= entry_is(x, (uint32_t)e, two) == IS && x->numbers[V + e] == x->numbers[V + list[i]];
            for (size_t j = 0; j < six[5]; j++) here |= entry_is(x, list[j], two) == IS && x->numbers[V + list[j]] == x->numbers[V + list[i]];
            if (there && !here) return 1;
        }
    }
    return 0;
}

/* a search with every list between closed pages and no longer than it must be */
static void check_guarded(const index_t *x, const float *heard, const name_t *one, const name_t *two, const expected_t *e) {
    guard_t f = guard(x->floats, x->floats_len * 4), n = guard(x->numbers, x->numbers_len * 4), h = guard(x->hashes, x->hashes_len * 8);
    guard_t t = guard(x->text, x->text_len), w = guard(x->work, x->work_len * 4), s = guard(x->state, CURATOR_STATE * sizeof(size_t));
    size_t at = below(one->length + 1), other = below(two->length + 1);
    guard_t parts[] = {guard(one->bytes, at), guard(one->bytes + at, one->length - at), guard(two->bytes, other),
                       guard(two->bytes + other, two->length - other)};
    answer_t a;
    mark(&a);
    uint32_t number = curator_search_both((const size_t *)s.list, CURATOR_STATE, (const float *)f.list, x->floats_len, (const uint32_t *)n.list,
                                          x->numbers_len, (const uint64_t *)h.list, x->hashes_len, t.list, x->text_len, (uint32_t *)w.list, x->work_len, heard, D,
                                          parts[0].list, at, parts[1].list, one->length - at, parts[2].list, other, parts[3].list, two->length - other, V,
                                          a.ids, HITS, a.distances, HITS, a.answer, CURATOR_ANSWER + SURPLUS);
    CHECK(is_expected(number, &a, e));
    CHECK(!memcmp(s.list, x->state, CURATOR_STATE * sizeof(size_t)) && !memcmp(f.list, x->floats, x->floats_len * 4)
          && !memcmp(n.list, x->numbers, x->numbers_len * 4) && !memcmp(h.list, x->hashes, x->hashes_len * 8) && !memcmp(t.list, x->text, x->text_len));
    guard_t *all[] = {&f, &n, &h, &t, &w, &s, parts, parts + 1, parts + 2, parts + 3};
    for (size_t i = 0; i < sizeof all / sizeof all[0]; i++) unguard(all[i]);
}

static void test_random(void) {
    size_t answered = 0, refused = 0, found = 0, moved = 0, unread = 0;
    for (int round = 0; round < 3000; round++) {
        index_t x;
        int moves = round % 2;
        model_t m = random_index(&x, below(4) ? M : below(12));
        damage_at_random(&x, moves);
        for (int i = 0; i < 6; i++) {
            const echo_t *echo = m.held + below(m.vectors);
            const name_t *one = names + below(NAMES), *two = names + below(NAMES);
            if (echo->labels > 0 && below(5)) one = echo->names[below(echo->labels)], two = echo->names[below(echo->labels)];
            float heard[D], from[D];
            any_vector(heard, from);
            expected_t e = check_both(&x, heard, from, one, two, V);
            check_guarded(&x, heard, one, two, &e);
            check_same(&x, heard, one, V);
            /* what is past the bytes held makes no difference */
            for (size_t j = x.state[CURATOR_BYTES_HELD]; j < x.text_len; j++) x.text[j] = (uint8_t)any();
            check_guarded(&x, heard, one, two, &e);
            answered += e.number == 0;
            refused += e.number != 0;
            found += e.hits > 0;
            moved += moves && e.number == 0 && e.whole && elsewhere(&x, one, two);
            unread += !moves && e.number == 0;
        }
        forget(&m.lists);
        drop(&x);
    }
    CHECK(answered > 5000 && refused > 1000 && found > 2000 && moved > 200 && unread > 2000);
}

int main(void) {
    guard_all();
    test_moved();
    test_one_leaf();
    test_passing();
    test_opened();
    test_denied();
    test_too_many();
    test_number_twice();
    test_struck();
    test_random();
    return report();
}
