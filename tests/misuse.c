/*
 * Misuse that gcc -Wall -Wextra tells: each line with a comment gives that warning, and no
 * other line gives one. It is compiled and never run.
 */
#include "taa1.h"

uint32_t misuse(uint8_t *ring, uint8_t *book, uint8_t *out)
{
    taa1_check_plain(book, 18); /* warns: -Wunused-result */
    taa1_seal_book(ring, TAA1_RING_BYTES, book, 18, out, 21); /* warns: -Wunused-result */
    taa1_counted_answer in_place = taa1_seal_book(ring, TAA1_RING_BYTES, book, 18, book, 21); /* warns: -Wrestrict */
    taa1_book_answer columns = taa1_plain_to_columns(book, 18, book, 18); /* warns: -Wrestrict */
    taa1_bytes16 itself = taa1_tb3(ring, 16, 1, 16);
    taa1_bytes10 twice = taa1_ta71(ring, 10, ring, 10);
    return in_place.refusal + columns.refusal + itself.refusal + twice.refusal;
}
