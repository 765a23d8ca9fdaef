/*
 * The header, included twice, and the layout of its structs on x86-64 Linux: sizes,
 * alignments, and the offset of every field. A host in another language declares them
 * by these numbers.
 */
#include "taa1.h"
#include "taa1.h"

#if defined(__cplusplus)
#define HOLDS(fact) static_assert(fact, #fact)
#elif defined(__STDC_VERSION__) && __STDC_VERSION__ >= 201112L
#define HOLDS(fact) _Static_assert(fact, #fact)
#else /* C99 has no assertion, but no array of fewer than no elements either */
#define JOINED(a, b) a##b
#define NAMED(a, b) JOINED(a, b)
#define HOLDS(fact) extern char NAMED(holds_, __LINE__)[(fact) ? 1 : -1]
#endif

/* A struct after a byte starts at its alignment. */
#define STRUCT(type, size, alignment)                                                              \
    HOLDS(sizeof(type) == size);                                                                   \
    struct after_byte_##type {                                                                     \
        char byte;                                                                                 \
        type value;                                                                                \
    };                                                                                             \
    HOLDS(offsetof(struct after_byte_##type, value) == alignment)

#define FIELD(type, field, offset, size)                                                           \
    HOLDS(offsetof(type, field) == offset && sizeof(((type *)0)->field) == size)

HOLDS(sizeof(size_t) == 8);
HOLDS(sizeof(void *) == 8);

/* begin structs, made by `contracts write` */

STRUCT(taa1_version, 2, 2);
FIELD(taa1_version, value, 0, 2);

STRUCT(taa1_key_number, 2, 2);
FIELD(taa1_key_number, value, 0, 2);

STRUCT(taa1_bytes8, 12, 4);
FIELD(taa1_bytes8, refusal, 0, 4);
FIELD(taa1_bytes8, bytes, 4, 8);

STRUCT(taa1_bytes10, 16, 4);
FIELD(taa1_bytes10, refusal, 0, 4);
FIELD(taa1_bytes10, bytes, 4, 10);

STRUCT(taa1_bytes15, 20, 4);
FIELD(taa1_bytes15, refusal, 0, 4);
FIELD(taa1_bytes15, bytes, 4, 15);

STRUCT(taa1_bytes16, 20, 4);
FIELD(taa1_bytes16, refusal, 0, 4);
FIELD(taa1_bytes16, bytes, 4, 16);

STRUCT(taa1_authentication, 20, 4);
FIELD(taa1_authentication, refusal, 0, 4);
FIELD(taa1_authentication, response, 4, 4);
FIELD(taa1_authentication, key, 8, 10);

STRUCT(taa1_identity, 8, 4);
FIELD(taa1_identity, refusal, 0, 4);
FIELD(taa1_identity, identity, 4, 4);

STRUCT(taa1_value, 8, 4);
FIELD(taa1_value, refusal, 0, 4);
FIELD(taa1_value, value, 4, 4);

STRUCT(taa1_cell, 16, 4);
FIELD(taa1_cell, refusal, 0, 4);
FIELD(taa1_cell, location_area, 4, 4);
FIELD(taa1_cell, carrier, 8, 4);
FIELD(taa1_cell, colour_code, 12, 4);

STRUCT(taa1_carrier_identity, 12, 4);
FIELD(taa1_carrier_identity, refusal, 0, 4);
FIELD(taa1_carrier_identity, carrier, 4, 4);
FIELD(taa1_carrier_identity, identity, 8, 4);

STRUCT(taa1_unsealed, 16, 4);
FIELD(taa1_unsealed, refusal, 0, 4);
FIELD(taa1_unsealed, key, 4, 10);
FIELD(taa1_unsealed, failed_checks, 14, 2);

STRUCT(taa1_unsealed_numbered, 20, 4);
FIELD(taa1_unsealed_numbered, refusal, 0, 4);
FIELD(taa1_unsealed_numbered, key, 4, 10);
FIELD(taa1_unsealed_numbered, number, 14, 2);
FIELD(taa1_unsealed_numbered, failed_checks, 16, 2);

STRUCT(taa1_unsealed_group, 20, 4);
FIELD(taa1_unsealed_group, refusal, 0, 4);
FIELD(taa1_unsealed_group, key, 4, 12);
FIELD(taa1_unsealed_group, failed_checks, 16, 2);

STRUCT(taa1_ring_made, 64, 4);
FIELD(taa1_ring_made, refusal, 0, 4);
FIELD(taa1_ring_made, ring, 4, 52);
FIELD(taa1_ring_made, response1, 56, 4);
FIELD(taa1_ring_made, response2, 60, 4);

STRUCT(taa1_card, 32, 4);
FIELD(taa1_card, refusal, 0, 4);
FIELD(taa1_card, key, 4, 12);
FIELD(taa1_card, card, 16, 16);

STRUCT(taa1_book_answer, 24, 8);
FIELD(taa1_book_answer, refusal, 0, 4);
FIELD(taa1_book_answer, index, 8, 8);
FIELD(taa1_book_answer, written, 16, 8);

STRUCT(taa1_counted_answer, 32, 8);
FIELD(taa1_counted_answer, refusal, 0, 4);
FIELD(taa1_counted_answer, index, 8, 8);
FIELD(taa1_counted_answer, written, 16, 8);
FIELD(taa1_counted_answer, runs, 24, 8);

STRUCT(taa1_tally, 20, 4);
FIELD(taa1_tally, refusal, 0, 4);
FIELD(taa1_tally, flips, 4, 4);
FIELD(taa1_tally, total, 8, 4);
FIELD(taa1_tally, least, 12, 4);
FIELD(taa1_tally, greatest, 16, 4);

STRUCT(taa1_release_numbers, 12, 4);
FIELD(taa1_release_numbers, major, 0, 4);
FIELD(taa1_release_numbers, minor, 4, 4);
FIELD(taa1_release_numbers, patch, 8, 4);
/* end structs */
