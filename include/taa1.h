/* SPDX-License-Identifier: MIT */
/*
 * The TAA1 engine for hosts in C and C++; link with libengine.a, which runs on
 * x86-64 Linux. The calls share nothing, so any number of threads may make them
 * at once.
 *
 * Byte strings are passed as a pointer and a length. Any length may be handed
 * in: the call tests it and refuses a wrong one. The pointer must be good for
 * the length, and may be null where that is 0. The leftmost byte of a string
 * stands first. A length in brackets, in the comments below, is the one that
 * the call accepts.
 *
 * Every answer, but for that of taa1_release, is a struct by value whose first
 * field is 0 or the number of a refusal. On a refusal all its other fields are
 * zero, but for the index in the answer of a book or a sheet and the runs of a
 * refused opening. Compare fields and not whole structs: padding is no part of
 * an answer.
 *
 * A call's comment ends with the refusals that it tests for, in the order of the
 * tests: the first that applies is the answer. Those of a record are tested after the
 * others, record by record.
 *
 * An output is a pointer and a length too, and must not overlap an input. It may
 * be longer than the result: the bytes after those written stay as they are. For
 * an output of no bytes, null will do. A refusal leaves it unchanged.
 *
 * A Rust host declares `*const u8, usize` for a byte string, `*mut u8, usize`
 * for an output, and never `&[u8]`: Rust's slices do not pass this way.
 *
 * Not for operational keys: the engine is made for examinations. It is not
 * constant-time, and it erases no key from memory.
 */
#ifndef TAA1_H
#define TAA1_H

#include <stdbool.h>
#include <stddef.h>
#include <stdint.h>

/*
 * What a compiler can tell of misuse. With GCC and Clang an answer that is not used is a
 * warning, and so is, under -Wall, an output that is also an input of the call.
 */
#if defined(__GNUC__)
#define TAA1_USE_ANSWER __attribute__((warn_unused_result))
#define TAA1_RESTRICT __restrict__
#elif !defined(__cplusplus) && defined(__STDC_VERSION__) && __STDC_VERSION__ >= 199901L
#define TAA1_USE_ANSWER
#define TAA1_RESTRICT restrict
#else
#define TAA1_USE_ANSWER
#define TAA1_RESTRICT
#endif

#ifdef __cplusplus
extern "C" {
#endif

/* ---- The release: that of this header, and taa1_release answers that of the library ---- */

#define TAA1_VERSION "1.1.0"
#define TAA1_VERSION_MAJOR 1
#define TAA1_VERSION_MINOR 1
#define TAA1_VERSION_PATCH 0

/* ---- Constants ---- */

enum {
    TAA1_BLOCK_BYTES = 8,
    TAA1_SEED_BYTES = 10,
    TAA1_CIPHER_KEY_BYTES = 10,     /* also of the common key c, and of D, which seals kind 1 */
    TAA1_GROUP_KEY_BYTES = 12,
    TAA1_SEALED_TEXT_BYTES = 15,
    TAA1_SESSION_KEY_BYTES = 16,    /* also of a root, of the cipher's key, of O and of G */
    TAA1_RING_BYTES = 52,
    TAA1_PLAIN_RECORD_BYTES = 18,
    TAA1_SEALED_RECORD_BYTES = 21,
    TAA1_CHALLENGE_BYTES = 10,
    TAA1_AUTHENTICATION_BYTES = 14, /* a response, then a key */
    TAA1_SHEET_RECORD_BYTES = 22,
    TAA1_SHEET_VALUE_BYTES = 16,
    TAA1_TALLY_RECORD_BYTES = 24,   /* a key, then a block */
    TAA1_MOST_RECORDS = 1024,       /* of a book, a sheet or a tally; of challenges in a class */
    TAA1_SITTING_BYTES = 83         /* of a file with what taa1_ring takes */
};

/* Where the parts of a record begin; Books, below, has what they are. */
enum {
    TAA1_RECORD_KIND_AT = 0,     /* one byte */
    TAA1_RECORD_IDENTITY_AT = 1, /* three bytes; of a sealed record encrypted */
    TAA1_RECORD_VERSION_AT = 4,  /* two bytes */
    TAA1_RECORD_KEY_AT = 6,      /* of a plain record: ten bytes, of kind 4 twelve */
    TAA1_RECORD_NUMBER_AT = 16,  /* of a plain record of kind 2, 3, 5 or 6: two bytes */
    TAA1_RECORD_TEXT_AT = 6      /* of a sealed record: fifteen bytes */
};

/* How many checks an unsealed text has. */
enum {
    TAA1_TA32_CHECKS = 5,
    TAA1_TA52_CHECKS = 5,
    TAA1_TA82_CHECKS = 3,
    TAA1_TA92_CHECKS = 3
};

/* The kinds of a record, by the call that seals the key; the last two seal it under G. */
enum taa1_kind {
    TAA1_KIND_TA31 = 1,
    TAA1_KIND_TA51 = 2,
    TAA1_KIND_TA81 = 3,
    TAA1_KIND_TA91 = 4,
    TAA1_KIND_TA51_G = 5,
    TAA1_KIND_TA81_G = 6
};

/* The values of `refusal`. */
enum taa1_refusal {
    TAA1_ACCEPTED = 0,

    /* caused by the candidate */
    TAA1_BOOK_TOO_LONG = 1,     /* a list is longer than TAA1_MOST_RECORDS records */
    TAA1_BOOK_NOT_WHOLE = 2,    /* its length is not a whole number of records */
    TAA1_WRONG_KIND = 3,        /* a kind is not 1 to 6 */
    TAA1_NOT_ZERO = 4,          /* a byte that fills up a body is not zero */
    TAA1_WRONG_NUMBER = 5,      /* a kind 2 or 5 number is above 31 */
    TAA1_FLAG_SET = 6,          /* the flag is set while a book is opened */
    TAA1_GROUP_UNREADABLE = 18, /* two bytes or more of a card's group are unreadable */
    TAA1_GROUP_DISAGREES = 19,  /* a card's group is readable, and its xor is not zero */

    /* caused by the setter */
    TAA1_WRONG_MASK = 7,     /* a mask has too few or too many ones */
    TAA1_SHARED_BIT = 8,     /* the masks share a bit */
    TAA1_WRONG_WIDTH = 9,    /* a width is not 16 to 32 */
    TAA1_VALUE_WIDE = 10,    /* a value is too wide for its field */
    TAA1_WRONG_SIDES = 13,   /* the number of sides is not 1 to 3 */
    TAA1_WRONG_FILLING = 14, /* a sheet's operation is above 5, or its record wrongly filled */
    TAA1_WRONG_PARENT = 15,  /* a parent's index is not below that of its own record */
    TAA1_PARENT_LENGTH = 16, /* a parent has another length than the operation takes */
    TAA1_NO_INPUT = 17,      /* no values that fit their fields give the result */

    /* caused by the host */
    TAA1_WRONG_LENGTH = 11, /* an input has another length than its call takes */
    TAA1_OUTPUT_SHORT = 12  /* the output is shorter than the result */
};

/*
 * What the first field of an answer means, in the words of the programs. It is in this
 * header, so that a host of the archive has it, and a symbol of the shared object, for
 * hosts in other languages.
 */
#ifndef TAA1_TEXT_LINKAGE
#define TAA1_TEXT_LINKAGE static inline
#endif
TAA1_TEXT_LINKAGE const char *taa1_refusal_text(uint32_t refusal)
{
    switch (refusal) {
    case TAA1_ACCEPTED: return "accepted";
    case TAA1_BOOK_TOO_LONG: return "book longer than 1,024 records";
    case TAA1_BOOK_NOT_WHOLE: return "book not a whole number of records";
    case TAA1_WRONG_KIND: return "kind not 1 to 6";
    case TAA1_NOT_ZERO: return "body byte not zero";
    case TAA1_WRONG_NUMBER: return "kind 2 or 5 number above 31";
    case TAA1_FLAG_SET: return "flag set while opening a book";
    case TAA1_WRONG_MASK: return "mask with a wrong number of ones";
    case TAA1_SHARED_BIT: return "masks that share a bit";
    case TAA1_WRONG_WIDTH: return "width not 16 to 32";
    case TAA1_VALUE_WIDE: return "value too wide for its field";
    case TAA1_WRONG_LENGTH: return "input of a wrong length";
    case TAA1_OUTPUT_SHORT: return "output shorter than the result";
    case TAA1_WRONG_SIDES: return "number of sides not 1 to 3";
    case TAA1_WRONG_FILLING: return "operation above 5 or wrong filling";
    case TAA1_WRONG_PARENT: return "parent not before its record";
    case TAA1_PARENT_LENGTH: return "parent of a wrong length";
    case TAA1_NO_INPUT: return "no input gives this result";
    case TAA1_GROUP_UNREADABLE: return "two unreadable bytes in one group";
    case TAA1_GROUP_DISAGREES: return "readable group that disagrees";
    default: return "not in the list";
    }
}

/* ---- Versions and key numbers: two types, so that none is taken for the other ---- */

typedef struct {
    uint16_t value;
} taa1_version;

typedef struct {
    uint16_t value;
} taa1_key_number;

/* ---- Answers ---- */

typedef struct {
    uint32_t refusal;
    uint8_t bytes[8];
} taa1_bytes8;

typedef struct {
    uint32_t refusal;
    uint8_t bytes[10];
} taa1_bytes10;

typedef struct {
    uint32_t refusal;
    uint8_t bytes[15];
} taa1_bytes15;

typedef struct {
    uint32_t refusal;
    uint8_t bytes[16];
} taa1_bytes16;

typedef struct {
    uint32_t refusal;
    uint8_t response[4];
    uint8_t key[10];
} taa1_authentication;

typedef struct {
    uint32_t refusal;
    uint32_t identity;
} taa1_identity;

typedef struct {
    uint32_t refusal;
    uint32_t value;
} taa1_value;

typedef struct {
    uint32_t refusal;
    uint32_t location_area;
    uint32_t carrier;
    uint32_t colour_code;
} taa1_cell;

typedef struct {
    uint32_t refusal;
    uint32_t carrier;
    uint32_t identity;
} taa1_carrier_identity;

/*
 * A bit of failed_checks is set exactly if its check of the text fails. Bit 0
 * stands for the leftmost inserted byte, the next for the one to its right, and so
 * on; with TA52 the last, bit 4, stands for the three zero bits of the number
 * byte. The manipulation flag of the standard is that the number is not 0: then
 * the text is not what sealing gives. That is no refusal.
 */
typedef struct {
    uint32_t refusal;
    uint8_t key[10];
    uint16_t failed_checks;
} taa1_unsealed;

typedef struct {
    uint32_t refusal;
    uint8_t key[10];
    uint16_t number;
    uint16_t failed_checks;
} taa1_unsealed_numbered;

typedef struct {
    uint32_t refusal;
    uint8_t key[12];
    uint16_t failed_checks;
} taa1_unsealed_group;

typedef struct {
    uint32_t refusal;
    uint8_t ring[TAA1_RING_BYTES];
    uint8_t response1[4];
    uint8_t response2[4];
} taa1_ring_made;

typedef struct {
    uint32_t refusal;
    uint8_t key[12];
    uint8_t card[16];
} taa1_card;

/*
 * The index: of an accepted list (a book, its columns, a sheet, a class of
 * challenges) how many records it has; in a refused book or sheet, that of the first
 * offending record, and 0 for 1, 2, 11 and 12. For columns and for a class it is 0 on
 * every refusal.
 */
typedef struct {
    uint32_t refusal;
    size_t index;
    size_t written;
} taa1_book_answer;

/*
 * Sealing and opening also count their runs of the block cipher: one for an
 * accepted book that has records, two for each record sealed, two for each that
 * is unsealed to look at its flag, and two for each that is unsealed to be
 * written. A refused opening has those by then, any other refusal 0.
 */
typedef struct {
    uint32_t refusal;
    size_t index;
    size_t written;
    size_t runs;
} taa1_counted_answer;

/*
 * The flips tried, the total of the output bits that changed, and the least and the
 * greatest change of one flip.
 */
typedef struct {
    uint32_t refusal;
    uint32_t flips;
    uint32_t total;
    uint32_t least;
    uint32_t greatest;
} taa1_tally;

/* The three numbers of a release. The one answer without a refusal. */
typedef struct {
    uint32_t major;
    uint32_t minor;
    uint32_t patch;
} taa1_release_numbers;

/*
 * The release of the library. With another major than TAA1_VERSION_MAJOR it is not
 * that of this header: a call, a parameter or an answer may be another. Refuses
 * nothing.
 */
taa1_release_numbers taa1_release(void) TAA1_USE_ANSWER;

/* ---- HURDLE-II: a block [8] under a key [16] ---- */

/* The block, encrypted. Refuses 11. */
taa1_bytes8 taa1_encrypt(const uint8_t *key, size_t key_length,
                         const uint8_t *block, size_t block_length) TAA1_USE_ANSWER;

/* The block, decrypted: undoes taa1_encrypt under the same key. Refuses 11. */
taa1_bytes8 taa1_decrypt(const uint8_t *key, size_t key_length,
                         const uint8_t *block, size_t block_length) TAA1_USE_ANSWER;

/*
 * The same with the key schedule in one register of sixteen bytes in place of the
 * round keys: it starts as the key, and steps from round to round until the key
 * is back, from where decryption steps back. Refuses 11.
 */
taa1_bytes8 taa1_encrypt_register(const uint8_t *key, size_t key_length,
                                  const uint8_t *block, size_t block_length) TAA1_USE_ANSWER;

/* The block, decrypted. Refuses 11. */
taa1_bytes8 taa1_decrypt_register(const uint8_t *key, size_t key_length,
                                  const uint8_t *block, size_t block_length) TAA1_USE_ANSWER;

/*
 * That register after so many steps, 0 for the key [16] itself. Any number is
 * taken: after each sixteen the register is the key again and the steps begin
 * anew. Refuses 11.
 */
taa1_bytes16 taa1_register(const uint8_t *key, size_t key_length, uint64_t steps) TAA1_USE_ANSWER;

/*
 * A diffusion tally over up to TAA1_MOST_RECORDS records, which are a key and then
 * a block: each of the 64 block bits is flipped in turn, and the bits that change
 * in the encrypted block are counted. No records give four zeros. Refuses 1, 2.
 */
taa1_tally taa1_diffusion(const uint8_t *records, size_t records_length) TAA1_USE_ANSWER;

/* ---- TA11, TA21, TA41: a session key from a root [16] and a seed [10] ---- */

/* The session key for TA12. Refuses 11. */
taa1_bytes16 taa1_ta11(const uint8_t *root, size_t root_length,
                       const uint8_t *seed, size_t seed_length) TAA1_USE_ANSWER;

/* The session key for TA22: TA11 of the seed's bytes in reverse. Refuses 11. */
taa1_bytes16 taa1_ta21(const uint8_t *root, size_t root_length,
                       const uint8_t *seed, size_t seed_length) TAA1_USE_ANSWER;

/* The session key that seals kinds 2 to 4: made as in TA11. Refuses 11. */
taa1_bytes16 taa1_ta41(const uint8_t *root, size_t root_length,
                       const uint8_t *seed, size_t seed_length) TAA1_USE_ANSWER;

/*
 * ---- TA12, TA22: a response and a key from a session key [16] and a challenge [10] ----
 *
 * The masks choose from the sixteen bytes that the cipher gives: bit i stands
 * for byte i, and byte 0 is rightmost. The bytes chosen keep their order. The
 * response mask has exactly four ones and the key mask exactly ten, none
 * shared.
 */

/* The response and the key. Refuses 11, 7, 8. */
taa1_authentication taa1_ta12(const uint8_t *session_key, size_t session_key_length,
                              const uint8_t *challenge, size_t challenge_length,
                              uint16_t response_mask, uint16_t key_mask) TAA1_USE_ANSWER;

/* As TA12: the challenge is not reversed. Refuses 11, 7, 8. */
taa1_authentication taa1_ta22(const uint8_t *session_key, size_t session_key_length,
                              const uint8_t *challenge, size_t challenge_length,
                              uint16_t response_mask, uint16_t key_mask) TAA1_USE_ANSWER;

/*
 * TA12 for each of a class of up to TAA1_MOST_RECORDS challenges, which stand one
 * after the other; writes TAA1_AUTHENTICATION_BYTES for each. Refuses 11, 1, 2, 12,
 * 7, 8.
 */
taa1_book_answer taa1_ta12_class(const uint8_t *session_key, size_t session_key_length,
                                 const uint8_t *challenges, size_t challenges_length,
                                 uint16_t response_mask, uint16_t key_mask,
                                 uint8_t *TAA1_RESTRICT out, size_t out_length) TAA1_USE_ANSWER;

/* ---- TA31, TA32: a cipher key [10] under a sealing key [10], kind 1 ---- */

/* The sealed text. Refuses 11. */
taa1_bytes15 taa1_ta31(const uint8_t *cipher_key, size_t cipher_key_length,
                       taa1_version version,
                       const uint8_t *sealing_key, size_t sealing_key_length) TAA1_USE_ANSWER;

/* The cipher key that a text [15] seals. Refuses 11. */
taa1_unsealed taa1_ta32(const uint8_t *text, size_t text_length,
                        const uint8_t *sealing_key, size_t sealing_key_length,
                        taa1_version version) TAA1_USE_ANSWER;

/* ---- TA51, TA52: a cipher key [10] and a number under a sealing key [16], kinds 2 and 5 ---- */

/* The sealed text. The number is 0 to 31. Refuses 11, 5. */
taa1_bytes15 taa1_ta51(const uint8_t *cipher_key, size_t cipher_key_length,
                       taa1_version version,
                       const uint8_t *sealing_key, size_t sealing_key_length,
                       taa1_key_number number) TAA1_USE_ANSWER;

/* The cipher key and number that a text [15] seals. The number is never above 31. Refuses 11. */
taa1_unsealed_numbered taa1_ta52(const uint8_t *text, size_t text_length,
                                 const uint8_t *sealing_key, size_t sealing_key_length,
                                 taa1_version version) TAA1_USE_ANSWER;

/* ---- TA61: an identity of 24 bits under a common key [10] ---- */

/* The identity, encrypted. Refuses 11, 10. */
taa1_identity taa1_ta61(const uint8_t *common_key, size_t common_key_length,
                        uint64_t identity) TAA1_USE_ANSWER;

/* The identity of an encrypted one: undoes taa1_ta61 under the same key. Refuses 11, 10. */
taa1_identity taa1_ta61_inverse(const uint8_t *common_key, size_t common_key_length,
                                uint64_t encrypted_identity) TAA1_USE_ANSWER;

/* ---- TA71: a cipher key from two [10 each]; their order matters ---- */

/* The cipher key. Refuses 11. */
taa1_bytes10 taa1_ta71(const uint8_t *key1, size_t key1_length,
                       const uint8_t *key2, size_t key2_length) TAA1_USE_ANSWER;

/* ---- TA81, TA82: a cipher key [10] and a number under a sealing key [16], kinds 3 and 6 ---- */

/* The sealed text. The number may be any of sixteen bits. Refuses 11. */
taa1_bytes15 taa1_ta81(const uint8_t *cipher_key, size_t cipher_key_length,
                       taa1_version version,
                       const uint8_t *sealing_key, size_t sealing_key_length,
                       taa1_key_number number) TAA1_USE_ANSWER;

/* The cipher key and number that a text [15] seals. Refuses 11. */
taa1_unsealed_numbered taa1_ta82(const uint8_t *text, size_t text_length,
                                 const uint8_t *sealing_key, size_t sealing_key_length,
                                 taa1_version version) TAA1_USE_ANSWER;

/* ---- TA91, TA92: a group key [12] under a sealing key [16], kind 4 ---- */

/* The sealed text. Refuses 11. */
taa1_bytes15 taa1_ta91(const uint8_t *group_key, size_t group_key_length,
                       taa1_version version,
                       const uint8_t *sealing_key, size_t sealing_key_length) TAA1_USE_ANSWER;

/* The group key that a text [15] seals. Refuses 11. */
taa1_unsealed_group taa1_ta92(const uint8_t *text, size_t text_length,
                              const uint8_t *sealing_key, size_t sealing_key_length,
                              taa1_version version) TAA1_USE_ANSWER;

/* ---- TA101: a session key from KS [16], GCK0 [10] and the network identity mni of 24 bits ---- */

/* The session key. Refuses 11, 10. */
taa1_bytes16 taa1_ta101(const uint8_t *ks, size_t ks_length,
                        const uint8_t *gck0, size_t gck0_length,
                        uint64_t mni) TAA1_USE_ANSWER;

/* ---- TB1 to TB7: keys mixed without the cipher ---- */

/*
 * The value over and over, each copy as many bits wide as the width says, 16 to 32:
 * the leftmost 128 bits of that. Refuses 9, 10.
 */
taa1_bytes16 taa1_tb1(uint64_t value, uint64_t width) TAA1_USE_ANSWER;

/* The input [16] itself. Refuses 11. */
taa1_bytes16 taa1_tb2(const uint8_t *input, size_t input_length) TAA1_USE_ANSWER;

/* The input [16], xor TB1 of the value. Refuses 11, 9, 10. */
taa1_bytes16 taa1_tb3(const uint8_t *input, size_t input_length,
                      uint64_t value, uint64_t width) TAA1_USE_ANSWER;

/* The xor of two inputs [10 each]. Refuses 11. */
taa1_bytes10 taa1_tb4(const uint8_t *input1, size_t input1_length,
                      const uint8_t *input2, size_t input2_length) TAA1_USE_ANSWER;

/*
 * A cipher key [10] for one cell: 14 bits of location area, 12 of carrier, 6 of
 * colour code. Refuses 11, 10.
 */
taa1_bytes10 taa1_tb5(const uint8_t *cipher_key, size_t cipher_key_length,
                      uint64_t location_area, uint64_t carrier, uint64_t colour_code) TAA1_USE_ANSWER;

/*
 * A cipher key [10] for one identity on a carrier: carrier 12 bits, identity 24.
 * Refuses 11, 10.
 */
taa1_bytes10 taa1_tb6(const uint8_t *cipher_key, size_t cipher_key_length,
                      uint64_t carrier, uint64_t identity) TAA1_USE_ANSWER;

/* A group key [12], with the xor of each three bytes after them. Refuses 11. */
taa1_bytes16 taa1_tb7(const uint8_t *group_key, size_t group_key_length) TAA1_USE_ANSWER;

/*
 * A card [16] that has a group key in its TB7 form, with some bytes unreadable:
 * bit i of the mask is set where byte i is, and byte 0 is rightmost. Where a group of
 * four lacks one, the other three give it. The answer is the key and the whole card;
 * what stands at the unreadable places is not looked at. Refuses 11, 18, 19.
 */
taa1_card taa1_restore_card(const uint8_t *card, size_t card_length, uint16_t unreadable) TAA1_USE_ANSWER;

/*
 * ---- The inverses of TB1, TB3, TB5 and TB6 ----
 *
 * Each answers the input that gives the result, which is the only one, or refuses
 * with TAA1_NO_INPUT where none does.
 */

/* The value, of that width, of which TB1 makes the result [16]. Refuses 11, 9, 17. */
taa1_value taa1_tb1_inverse(const uint8_t *result, size_t result_length, uint64_t width) TAA1_USE_ANSWER;

/*
 * The value, of that width, of which TB3 makes the result [16] with the input [16].
 * Refuses 11, 9, 17.
 */
taa1_value taa1_tb3_inverse(const uint8_t *input, size_t input_length,
                            const uint8_t *result, size_t result_length,
                            uint64_t width) TAA1_USE_ANSWER;

/* The cell for which TB5 makes the result [10] of the cipher key [10]. Refuses 11, 17. */
taa1_cell taa1_tb5_inverse(const uint8_t *cipher_key, size_t cipher_key_length,
                           const uint8_t *result, size_t result_length) TAA1_USE_ANSWER;

/*
 * The carrier and identity for which TB6 makes the result [10] of the cipher key
 * [10]. Refuses 11, 17.
 */
taa1_carrier_identity taa1_tb6_inverse(const uint8_t *cipher_key, size_t cipher_key_length,
                                       const uint8_t *result, size_t result_length) TAA1_USE_ANSWER;

/*
 * ---- A ring from a root [16], two seeds, two challenges, c [10 each] and a group key [12] ----
 *
 * The ring is D [10], which seals kind 1, O [16], which seals kinds 2 to 4, c, for
 * identities, and G [16], which seals kinds 5 and 6. D is TB4 of the keys from TA12
 * (rs, rand1) and TA22 (rs, rand2), O is TA41 (rso), and G is TB7 of the group key.
 * The masks are those of TA12 and TA22, whose responses come along.
 *
 * The number of sides says which of the two run: 1 TA12 alone, 2 TA22 alone, 3
 * both. One that does not run gives zeros to TB4 and as its response; of its
 * challenge only the length is tested. Refuses 11, 13, 7, 8.
 */
taa1_ring_made taa1_ring(const uint8_t *root, size_t root_length,
                         const uint8_t *rs, size_t rs_length,
                         const uint8_t *rso, size_t rso_length,
                         const uint8_t *rand1, size_t rand1_length,
                         const uint8_t *rand2, size_t rand2_length,
                         const uint8_t *c, size_t c_length,
                         const uint8_t *group_key, size_t group_key_length,
                         uint64_t sides, uint16_t response_mask, uint16_t key_mask) TAA1_USE_ANSWER;

/*
 * ---- Books: up to TAA1_MOST_RECORDS under a ring [TAA1_RING_BYTES] of taa1_ring ----
 *
 * A plain record has 18 bytes: kind (1 to 6), identity (3), version (2), body
 * (12). The body is a key [10] and two zero bytes (kind 1), a key [10], a zero
 * byte and a number of 0 to 31 (kinds 2 and 5), a key [10] and a number of two
 * bytes (kinds 3 and 6), or a group key [12] (kind 4). Numbers have the high byte
 * first.
 *
 * A sealed record has 21 bytes: kind, encrypted identity (TA61 under c), version,
 * and the sealed text [15] of the kind's call.
 *
 * A book that opens need not be undamaged. Opening does not notice an altered
 * identity (any three bytes are the encryption of one), kind 3 altered to 4 or 4 to
 * 3 (they are sealed alike), nor that records are missing, repeated, in another
 * order, or of another book under the same ring. Compare with the book that was
 * sealed where that matters.
 */

/*
 * Seals a plain book; writes TAA1_SEALED_RECORD_BYTES for each record. Refuses 11,
 * 1, 2, 12; of a record 3, 4, 5.
 */
taa1_counted_answer taa1_seal_book(const uint8_t *ring, size_t ring_length,
                                   const uint8_t *plain, size_t plain_length,
                                   uint8_t *TAA1_RESTRICT out, size_t out_length) TAA1_USE_ANSWER;

/*
 * Opens a sealed book, if each record in it does; writes TAA1_PLAIN_RECORD_BYTES
 * for each. Refuses 11, 1, 2, 12; of a record 3, 6.
 */
taa1_counted_answer taa1_open_book(const uint8_t *ring, size_t ring_length,
                                   const uint8_t *sealed, size_t sealed_length,
                                   uint8_t *TAA1_RESTRICT out, size_t out_length) TAA1_USE_ANSWER;

/*
 * The refusals 1 to 5 that taa1_seal_book gives for a plain book; nothing is
 * written. Refuses 1, 2; of a record 3, 4, 5.
 */
taa1_book_answer taa1_check_plain(const uint8_t *plain, size_t plain_length) TAA1_USE_ANSWER;

/*
 * ---- Lineage sheets: a tree of keys, up to TAA1_MOST_RECORDS ----
 *
 * A record has 22 bytes: the operation, the indexes of its two parents (two bytes
 * each, the high one first), a length, and a value [16]. Operation 0 has the key
 * itself as the value, 10 or 16 bytes as the length says, with zeros after it and
 * as the parents. The others derive the key from the parents, two records before
 * it, and have zeros as length and value: 1 by TA11, 2 by TA21 and 3 by TA41, from
 * a key [16] and a key [10] to one of 16 bytes; 4 by TB4 and 5 by TA71, from two
 * keys [10] to one of 10.
 */

/*
 * The key of each record; writes TAA1_SHEET_VALUE_BYTES for each, zeros after a
 * key [10]. Refuses 1, 2, 12; of a record 14, 15, 16.
 */
taa1_book_answer taa1_lineage(const uint8_t *sheet, size_t sheet_length,
                              uint8_t *TAA1_RESTRICT out, size_t out_length) TAA1_USE_ANSWER;

/*
 * ---- Books filed by column: byte 0 of each record, in their order, then byte 1 of each, .. ----
 *
 * Each call takes up to TAA1_MOST_RECORDS, whose contents are not looked at, and
 * writes as many bytes as it takes.
 */

/* The columns of a plain book. Refuses 1, 2, 12. */
taa1_book_answer taa1_plain_to_columns(const uint8_t *plain, size_t plain_length,
                                       uint8_t *TAA1_RESTRICT out, size_t out_length) TAA1_USE_ANSWER;

/* The plain book of its columns: undoes taa1_plain_to_columns. Refuses 1, 2, 12. */
taa1_book_answer taa1_plain_from_columns(const uint8_t *columns, size_t columns_length,
                                         uint8_t *TAA1_RESTRICT out, size_t out_length) TAA1_USE_ANSWER;

/* The columns of a sealed book. Refuses 1, 2, 12. */
taa1_book_answer taa1_sealed_to_columns(const uint8_t *sealed, size_t sealed_length,
                                        uint8_t *TAA1_RESTRICT out, size_t out_length) TAA1_USE_ANSWER;

/* The sealed book of its columns: undoes taa1_sealed_to_columns. Refuses 1, 2, 12. */
taa1_book_answer taa1_sealed_from_columns(const uint8_t *columns, size_t columns_length,
                                          uint8_t *TAA1_RESTRICT out, size_t out_length) TAA1_USE_ANSWER;

#ifdef __cplusplus
}
#endif

#endif
