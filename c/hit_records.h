/* Hit records: a list of structs of id and distance, filled from the two lists that a search filled. Link target/staticlib/libhit_records.a, which
   `tools/static_libraries` writes.

   Every list is a pointer and a count of elements. No pointer is NULL, also where the count is 0, and each is aligned for its type. The list of records
   shares no place with the others.

   The contract is in crates/hit_records/src/lib.rt; the definitions that it cites are in crates/hit_records/specs/Hits.antt. */
#ifndef HIT_RECORDS_H
#define HIT_RECORDS_H

#include <stddef.h>
#include <stdint.h>

#ifdef __cplusplus
extern "C" {
#endif

struct curator_hit {
    uint32_t id;
    float distance;
};

/* Record i becomes the pair of ids[i] and distances[i], for every i below count; every other place keeps what it held. Returns 0; or 14, with nothing
   written, where a list is shorter than count. */
uint32_t curator_hits(struct curator_hit *hits, size_t hits_len, const uint32_t *ids, size_t ids_len, const float *distances, size_t distances_len,
                      size_t count);

#ifdef __cplusplus
}
#endif

#endif
