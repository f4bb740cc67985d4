/* Three echoes of the drain `kerb-7`, and the nearest with the label `kerb-7/silt`. A label's name comes in two parts: the drain, and how it was.

   tools/static_libraries && gcc -Ic c/example.c target/staticlib/libcurator_c.a -o target/example && target/example */
#include "curator.h"

#include <inttypes.h>
#include <stdio.h>
#include <string.h>

enum { D = 4, B = 16, V = 8, E = 16, M = 32, T = 512, K = 3 };

static size_t state[CURATOR_STATE];
static float floats[CURATOR_FLOATS_SIZE(D, B, V, M)];
static uint32_t numbers[CURATOR_NUMBERS_SIZE(V, E, M)];
static uint64_t hashes[CURATOR_HASHES_SIZE(E, M)];
static uint8_t text[T];
static uint32_t work[CURATOR_WORK_SIZE(V, E, M)];

#define LEN(list) (sizeof(list) / sizeof((list)[0]))
#define STORE floats, LEN(floats), numbers, LEN(numbers), hashes, LEN(hashes), text, LEN(text)

static const char drain[] = "kerb-7/";

/* An echo with one label; its name begins with the drain. */
static uint32_t add(uint32_t doc_id, const float echo[D], const char *name) {
    size_t first = strlen(drain), length = strlen(name);
    const uint8_t lengths[] = {(uint8_t)first, (uint8_t)(length - first)};
    return curator_add(state, LEN(state), STORE, doc_id, echo, D, lengths, LEN(lengths), (const uint8_t *)name, length);
}

int main(void) {
    static const float clear[D] = {1.0f, 0.5f, 0.0f, 0.0f};
    static const float muddy[D] = {0.0f, 0.5f, 1.0f, 0.5f};
    static const float blocked[D] = {0.0f, 0.0f, 0.5f, 2.0f};
    static const float heard[D] = {0.0f, 0.25f, 1.0f, 1.0f};
    static const char silt[] = "silt";

    uint32_t refused = curator_new(D, B, 128, 256, 4, V, E, M, T, state, LEN(state));
    if (!refused) refused = add(10, clear, "kerb-7/free");
    if (!refused) refused = add(11, muddy, "kerb-7/silt");
    if (!refused) refused = add(12, blocked, "kerb-7/silt");
    if (!refused) refused = curator_build(state, LEN(state), STORE, work, LEN(work));

    uint32_t ids[K];
    float distances[K];
    size_t answer[CURATOR_ANSWER];
    if (!refused)
        refused = curator_search_filtered(state, LEN(state), STORE, work, LEN(work), heard, D,
                                          (const uint8_t *)drain, strlen(drain), (const uint8_t *)silt, strlen(silt), K,
                                          ids, LEN(ids), distances, LEN(distances), answer, LEN(answer));
    if (refused) {
        printf("refused %" PRIu32 "\n", refused);
        return 1;
    }
    for (size_t i = 0; i < answer[CURATOR_HITS]; i++) printf("%" PRIu32 " %.4f\n", ids[i], distances[i]);
    printf("%s %zu\n", answer[CURATOR_WHOLE] ? "whole" : "cut", answer[CURATOR_OPENED]);
    return 0;
}
