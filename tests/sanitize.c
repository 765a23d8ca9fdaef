/*
 * Plays the calls through the header as a careful host would. Each byte string
 * lies against a page that may not be touched, once with its end and once with
 * its start, and inputs may not be written to; so a step beside a string, or
 * into an input, ends the program. The engine itself is not instrumented, so
 * the sanitizers alone would not see one.
 */
#define _DEFAULT_SOURCE
#include "taa1.h"

#include <stdio.h>
#include <stdlib.h>
#include <string.h>
#include <sys/mman.h>
#include <unistd.h>

static size_t checks, failures;

#define CHECK(right) check((right), #right, __LINE__)

static void check(bool right, const char *text, int line)
{
    checks++;
    if (!right) {
        failures++;
        fprintf(stderr, "line %d: %s does not hold\n", line, text);
    }
}

/* ---- Byte strings ---- */

typedef struct {
    uint8_t *bytes;
    size_t length;
    uint8_t *map;
    size_t mapped; /* with the two pages that may not be touched */
} string;

static size_t page(void)
{
    return (size_t)sysconf(_SC_PAGESIZE);
}

static void protect(string s, int protection)
{
    if (mprotect(s.map + page(), s.mapped - 2 * page(), protection) != 0) {
        perror("mprotect");
        exit(1);
    }
}

static string writable(size_t length, bool at_end)
{
    string s;
    size_t inside = (length / page() + 1) * page();
    s.length = length;
    s.mapped = inside + 2 * page();
    s.map = mmap(NULL, s.mapped, PROT_NONE, MAP_PRIVATE | MAP_ANONYMOUS, -1, 0);
    if (s.map == MAP_FAILED) {
        perror("mmap");
        exit(1);
    }
    protect(s, PROT_READ | PROT_WRITE);
    s.bytes = s.map + page() + (at_end ? inside - length : 0);
    for (size_t i = 0; i < length; i++)
        s.bytes[i] = (uint8_t)(rand() >> 7);
    return s;
}

static string input(size_t length, bool at_end)
{
    string s = writable(length, at_end);
    protect(s, PROT_READ);
    return s;
}

static void give_back(string s)
{
    munmap(s.map, s.mapped);
}

/* A string as two arguments. */
#define S(s) (s).bytes, (s).length

/* ---- Single calls, all strings so many bytes longer than they should be ---- */

static void single_calls(bool at_end, int longer)
{
    string block = input((size_t)(8 + longer), at_end);
    string key = input((size_t)(10 + longer), at_end);
    string key2 = input((size_t)(10 + longer), at_end);
    string group_key = input((size_t)(12 + longer), at_end);
    string text = input((size_t)(15 + longer), at_end);
    string root = input((size_t)(16 + longer), at_end);
    uint16_t response_mask = 0x000f, key_mask = 0xffc0;
    taa1_version version = {0x0102};
    taa1_key_number number = {3};
    uint32_t wanted = longer == 0 ? TAA1_ACCEPTED : TAA1_WRONG_LENGTH;

    CHECK(taa1_encrypt(S(root), S(block)).refusal == wanted);
    CHECK(taa1_decrypt(S(root), S(block)).refusal == wanted);
    CHECK(taa1_encrypt_register(S(root), S(block)).refusal == wanted);
    CHECK(taa1_decrypt_register(S(root), S(block)).refusal == wanted);
    CHECK(taa1_register(S(root), 3).refusal == wanted);
    CHECK(taa1_register(S(root), UINT64_MAX).refusal == wanted);
    CHECK(taa1_ta11(S(root), S(key)).refusal == wanted);
    CHECK(taa1_ta21(S(root), S(key)).refusal == wanted);
    CHECK(taa1_ta41(S(root), S(key)).refusal == wanted);
    CHECK(taa1_ta12(S(root), S(key), response_mask, key_mask).refusal == wanted);
    CHECK(taa1_ta22(S(root), S(key), response_mask, key_mask).refusal == wanted);
    CHECK(taa1_ta31(S(key), version, S(key2)).refusal == wanted);
    CHECK(taa1_ta51(S(key), version, S(root), number).refusal == wanted);
    CHECK(taa1_ta81(S(key), version, S(root), number).refusal == wanted);
    CHECK(taa1_ta91(S(group_key), version, S(root)).refusal == wanted);
    CHECK(taa1_ta61(S(key), 0x123456).refusal == wanted);
    CHECK(taa1_ta61_inverse(S(key), 0x123456).refusal == wanted);
    CHECK(taa1_ta71(S(key), S(key2)).refusal == wanted);
    CHECK(taa1_ta101(S(root), S(key), 0x123456).refusal == wanted);
    CHECK(taa1_tb1(0x12345, 20).refusal == TAA1_ACCEPTED);
    CHECK(taa1_tb2(S(root)).refusal == wanted);
    CHECK(taa1_tb3(S(root), 0x12345, 20).refusal == wanted);
    CHECK(taa1_tb4(S(key), S(key2)).refusal == wanted);
    CHECK(taa1_tb5(S(key), 1, 2, 3).refusal == wanted);
    CHECK(taa1_tb6(S(key), 1, 2).refusal == wanted);
    CHECK(taa1_tb7(S(group_key)).refusal == wanted);
    uint32_t no_input = longer == 0 ? TAA1_NO_INPUT : TAA1_WRONG_LENGTH;
    CHECK(taa1_tb1_inverse(S(root), 20).refusal == no_input);
    CHECK(taa1_tb3_inverse(S(root), S(root), 20).refusal == wanted);
    CHECK(taa1_tb5_inverse(S(key), S(key)).refusal == wanted);
    CHECK(taa1_tb5_inverse(S(key), S(key2)).refusal == no_input);
    CHECK(taa1_tb6_inverse(S(key), S(key)).refusal == wanted);
    CHECK(taa1_tb6_inverse(S(key), S(key2)).refusal == no_input);
    CHECK(taa1_restore_card(S(root), 0x1248).refusal == wanted);
    for (uint64_t sides = 1; sides <= 3; sides++)
        CHECK(taa1_ring(S(root), S(key), S(key2), S(key), S(key2), S(key), S(group_key),
                        sides, response_mask, key_mask).refusal == wanted);
    uint32_t no_sides = longer == 0 ? TAA1_WRONG_SIDES : TAA1_WRONG_LENGTH;
    CHECK(taa1_ring(S(root), S(key), S(key2), S(key), S(key2), S(key), S(group_key),
                    0, response_mask, key_mask).refusal == no_sides);

    /* Of a random text a check fails, or the answer is zero. */
    taa1_unsealed kind1 = taa1_ta32(S(text), S(key), version);
    taa1_unsealed_numbered kind2 = taa1_ta52(S(text), S(root), version);
    taa1_unsealed_numbered kind3 = taa1_ta82(S(text), S(root), version);
    taa1_unsealed_group kind4 = taa1_ta92(S(text), S(root), version);
    CHECK(kind1.refusal == wanted && (kind1.failed_checks != 0) == (longer == 0));
    CHECK(kind2.refusal == wanted && (kind2.failed_checks != 0) == (longer == 0));
    CHECK(kind3.refusal == wanted && (kind3.failed_checks != 0) == (longer == 0));
    CHECK(kind4.refusal == wanted && (kind4.failed_checks != 0) == (longer == 0));

    give_back(block);
    give_back(key);
    give_back(key2);
    give_back(group_key);
    give_back(text);
    give_back(root);
}

/* ---- Books ---- */

static bool is(taa1_book_answer answer, uint32_t refusal, size_t index, size_t written)
{
    return answer.refusal == refusal && answer.index == index && answer.written == written;
}

static bool took(taa1_counted_answer answer, uint32_t refusal, size_t index, size_t written,
                 size_t runs)
{
    taa1_book_answer three = {answer.refusal, answer.index, answer.written};
    return is(three, refusal, index, written) && answer.runs == runs;
}

static string plain_book(size_t records, bool at_end)
{
    string plain = writable(TAA1_PLAIN_RECORD_BYTES * records, at_end);
    for (size_t i = 0; i < records; i++) {
        uint8_t *record = plain.bytes + TAA1_PLAIN_RECORD_BYTES * i;
        record[0] = (uint8_t)(1 + i % 6);
        if (record[0] == TAA1_KIND_TA31)
            record[16] = record[17] = 0;
        if (record[0] == TAA1_KIND_TA51 || record[0] == TAA1_KIND_TA51_G) {
            record[16] = 0;
            record[17] %= 32;
        }
    }
    protect(plain, PROT_READ);
    return plain;
}

static void books(bool at_end, size_t records)
{
    string ring = input(TAA1_RING_BYTES, at_end);
    string plain = plain_book(records, at_end);
    string sealed = writable(TAA1_SEALED_RECORD_BYTES * records, at_end);
    string opened = writable(TAA1_PLAIN_RECORD_BYTES * records, at_end);

    CHECK(is(taa1_check_plain(S(plain)), TAA1_ACCEPTED, records, 0));
    size_t identity_runs = records > 0;
    CHECK(took(taa1_seal_book(S(ring), S(plain), S(sealed)), TAA1_ACCEPTED, records,
               sealed.length, identity_runs + 2 * records));
    protect(sealed, PROT_READ);
    CHECK(took(taa1_open_book(S(ring), S(sealed), S(opened)), TAA1_ACCEPTED, records,
               opened.length, identity_runs + 4 * records));
    CHECK(memcmp(opened.bytes, plain.bytes, plain.length) == 0);

    if (records > 0) {
        /* What is refused must not be written, not even where it could be. */
        protect(opened, PROT_READ);
        CHECK(took(taa1_seal_book(S(ring), S(plain), sealed.bytes, sealed.length - 1),
                   TAA1_OUTPUT_SHORT, 0, 0, 0));
        CHECK(took(taa1_open_book(S(ring), S(sealed), opened.bytes, opened.length - 1),
                   TAA1_OUTPUT_SHORT, 0, 0, 0));
        CHECK(took(taa1_open_book(S(ring), sealed.bytes, sealed.length - 1, S(opened)),
                   TAA1_BOOK_NOT_WHOLE, 0, 0, 0));
        CHECK(took(taa1_open_book(ring.bytes, ring.length - 1, S(sealed), S(opened)),
                   TAA1_WRONG_LENGTH, 0, 0, 0));
        protect(sealed, PROT_READ | PROT_WRITE);
        sealed.bytes[sealed.length - 1] ^= 1;
        CHECK(took(taa1_open_book(S(ring), S(sealed), S(opened)), TAA1_FLAG_SET, records - 1, 0,
                   2 * records));
        sealed.bytes[sealed.length - TAA1_SEALED_RECORD_BYTES] = 0;
        CHECK(took(taa1_open_book(S(ring), S(sealed), S(opened)), TAA1_WRONG_KIND, records - 1, 0,
                   2 * (records - 1)));
        protect(plain, PROT_READ | PROT_WRITE);
        plain.bytes[plain.length - TAA1_PLAIN_RECORD_BYTES] = TAA1_KIND_TA81_G + 1;
        protect(sealed, PROT_READ);
        CHECK(took(taa1_seal_book(S(ring), S(plain), S(sealed)), TAA1_WRONG_KIND, records - 1, 0,
                   0));
        CHECK(is(taa1_check_plain(S(plain)), TAA1_WRONG_KIND, records - 1, 0));
    }

    give_back(ring);
    give_back(plain);
    give_back(sealed);
    give_back(opened);
}

/* ---- Classes ---- */

static void classes(bool at_end, size_t count)
{
    string session_key = input(16, at_end);
    string challenges = input(TAA1_CHALLENGE_BYTES * count, at_end);
    string out = writable(TAA1_AUTHENTICATION_BYTES * count, at_end);
    uint16_t response_mask = 0x9240, key_mask = 0x6db6;

    CHECK(is(taa1_ta12_class(S(session_key), S(challenges), response_mask, key_mask, S(out)),
             TAA1_ACCEPTED, count, out.length));
    for (size_t i = 0; i < count; i++) {
        const uint8_t *challenge = challenges.bytes + TAA1_CHALLENGE_BYTES * i;
        const uint8_t *record = out.bytes + TAA1_AUTHENTICATION_BYTES * i;
        taa1_authentication single = taa1_ta12(S(session_key), challenge, TAA1_CHALLENGE_BYTES,
                                               response_mask, key_mask);
        CHECK(memcmp(record, single.response, sizeof single.response) == 0);
        CHECK(memcmp(record + sizeof single.response, single.key, sizeof single.key) == 0);
    }

    /* What is refused must not be written, not even where it could be. */
    protect(out, PROT_READ);
    CHECK(is(taa1_ta12_class(session_key.bytes, session_key.length - 1, S(challenges),
                             response_mask, key_mask, S(out)),
             TAA1_WRONG_LENGTH, 0, 0));
    CHECK(is(taa1_ta12_class(S(session_key), S(challenges), key_mask, response_mask, S(out)),
             TAA1_WRONG_MASK, 0, 0));
    CHECK(is(taa1_ta12_class(S(session_key), S(challenges), 0x000f, key_mask, S(out)),
             TAA1_SHARED_BIT, 0, 0));
    if (count > 0) {
        CHECK(is(taa1_ta12_class(S(session_key), S(challenges), response_mask, key_mask,
                                 out.bytes, out.length - 1),
                 TAA1_OUTPUT_SHORT, 0, 0));
        CHECK(is(taa1_ta12_class(S(session_key), challenges.bytes, challenges.length - 1,
                                 response_mask, key_mask, S(out)),
                 TAA1_BOOK_NOT_WHOLE, 0, 0));
    }

    give_back(session_key);
    give_back(challenges);
    give_back(out);
}

/* ---- Sheets ---- */

/* A chain: a root, a seed, and TA11 of the key before and the seed. */
static string chain(size_t records, bool at_end)
{
    string s = writable(TAA1_SHEET_RECORD_BYTES * records, at_end);
    for (size_t i = 0; i < records; i++) {
        uint8_t *at = s.bytes + TAA1_SHEET_RECORD_BYTES * i;
        size_t first = i == 2 ? 0 : i - 1;
        if (i < 2) {
            memset(at, 0, 5);
            at[5] = i == 0 ? 16 : 10;
            memset(at + 6 + at[5], 0, (size_t)(16 - at[5]));
        } else {
            memset(at, 0, TAA1_SHEET_RECORD_BYTES);
            at[0] = 1;
            at[1] = (uint8_t)(first >> 8);
            at[2] = (uint8_t)first;
            at[4] = 1;
        }
    }
    protect(s, PROT_READ);
    return s;
}

static void sheets(bool at_end, size_t records)
{
    string sheet = chain(records, at_end);
    string out = writable(TAA1_SHEET_VALUE_BYTES * records, at_end);

    CHECK(is(taa1_lineage(S(sheet), S(out)), TAA1_ACCEPTED, records, out.length));
    for (size_t i = 0; i < records; i++) {
        const uint8_t *value = out.bytes + TAA1_SHEET_VALUE_BYTES * i;
        if (i < 2) {
            const uint8_t *given = sheet.bytes + TAA1_SHEET_RECORD_BYTES * i + 6;
            CHECK(memcmp(value, given, TAA1_SHEET_VALUE_BYTES) == 0);
        } else {
            const uint8_t *seed = out.bytes + TAA1_SHEET_VALUE_BYTES;
            const uint8_t *before = i == 2 ? out.bytes : value - TAA1_SHEET_VALUE_BYTES;
            taa1_bytes16 single = taa1_ta11(before, 16, seed, 10);
            CHECK(memcmp(value, single.bytes, sizeof single.bytes) == 0);
        }
    }

    /* What is refused must not be written, not even where it could be. */
    if (records > 2) {
        size_t last = records - 1;
        protect(out, PROT_READ);
        CHECK(is(taa1_lineage(S(sheet), out.bytes, out.length - 1), TAA1_OUTPUT_SHORT, 0, 0));
        CHECK(is(taa1_lineage(sheet.bytes, sheet.length - 1, S(out)), TAA1_BOOK_NOT_WHOLE, 0, 0));
        protect(sheet, PROT_READ | PROT_WRITE);
        uint8_t *at = sheet.bytes + TAA1_SHEET_RECORD_BYTES * last;
        at[3] = 0xff;
        CHECK(is(taa1_lineage(S(sheet), S(out)), TAA1_WRONG_PARENT, last, 0));
        at[3] = 0;
        at[0] = 4;
        CHECK(is(taa1_lineage(S(sheet), S(out)), TAA1_PARENT_LENGTH, last, 0));
        at[0] = 6;
        CHECK(is(taa1_lineage(S(sheet), S(out)), TAA1_WRONG_FILLING, last, 0));
    }

    give_back(sheet);
    give_back(out);
}

/* ---- Columns ---- */

typedef taa1_book_answer filing(const uint8_t *, size_t, uint8_t *, size_t);

static void columns(bool at_end, size_t records, size_t size, filing *to, filing *from)
{
    string book = input(size * records, at_end);
    string filed = writable(book.length, at_end);
    string back = writable(book.length, at_end);

    CHECK(is(to(S(book), S(filed)), TAA1_ACCEPTED, records, book.length));
    for (size_t i = 0; i < book.length; i++)
        CHECK(filed.bytes[i % size * records + i / size] == book.bytes[i]);
    protect(filed, PROT_READ);
    CHECK(is(from(S(filed), S(back)), TAA1_ACCEPTED, records, book.length));
    CHECK(memcmp(back.bytes, book.bytes, book.length) == 0);

    if (records > 0) {
        /* What is refused must not be written, not even where it could be. */
        protect(back, PROT_READ);
        CHECK(is(to(S(book), back.bytes, back.length - 1), TAA1_OUTPUT_SHORT, 0, 0));
        CHECK(is(from(S(filed), back.bytes, back.length - 1), TAA1_OUTPUT_SHORT, 0, 0));
        CHECK(is(to(book.bytes, book.length - 1, S(back)), TAA1_BOOK_NOT_WHOLE, 0, 0));
        CHECK(is(from(filed.bytes, filed.length - 1, S(back)), TAA1_BOOK_NOT_WHOLE, 0, 0));
    }

    give_back(book);
    give_back(filed);
    give_back(back);
}

/* ---- Tallies ---- */

static bool counted(taa1_tally t, uint32_t refusal, size_t records)
{
    bool zeros = refusal != TAA1_ACCEPTED || records == 0;
    return t.refusal == refusal && t.flips == 64 * records
        && (zeros ? t.total + t.least + t.greatest == 0
                  : 1 <= t.least && t.least <= t.greatest && t.greatest <= 64
                        && t.flips * t.least <= t.total && t.total <= t.flips * t.greatest);
}

static void tallies(bool at_end, size_t count)
{
    string records = input(TAA1_TALLY_RECORD_BYTES * count, at_end);
    CHECK(counted(taa1_diffusion(S(records)), TAA1_ACCEPTED, count));
    if (count > 0)
        CHECK(counted(taa1_diffusion(records.bytes, records.length - 1), TAA1_BOOK_NOT_WHOLE, 0));
    give_back(records);
}

static void too_long(bool at_end)
{
    string records = input(TAA1_TALLY_RECORD_BYTES * TAA1_MOST_RECORDS + 1, at_end);
    string session_key = input(16, at_end);
    string challenges = input(TAA1_CHALLENGE_BYTES * (TAA1_MOST_RECORDS + 1), at_end);
    string ring = input(TAA1_RING_BYTES, at_end);
    string plain = plain_book(TAA1_MOST_RECORDS + 1, at_end);
    string out = input(TAA1_SEALED_RECORD_BYTES * (TAA1_MOST_RECORDS + 1), at_end);
    CHECK(is(taa1_check_plain(S(plain)), TAA1_BOOK_TOO_LONG, 0, 0));
    CHECK(took(taa1_seal_book(S(ring), S(plain), S(out)), TAA1_BOOK_TOO_LONG, 0, 0, 0));
    CHECK(took(taa1_open_book(S(ring), S(out), S(plain)), TAA1_BOOK_TOO_LONG, 0, 0, 0));
    CHECK(is(taa1_ta12_class(S(session_key), S(challenges), 0x9240, 0x6db6, S(out)),
             TAA1_BOOK_TOO_LONG, 0, 0));
    string sheet = chain(TAA1_MOST_RECORDS + 1, at_end);
    CHECK(is(taa1_lineage(S(sheet), S(out)), TAA1_BOOK_TOO_LONG, 0, 0));
    give_back(sheet);
    CHECK(is(taa1_plain_to_columns(S(plain), S(out)), TAA1_BOOK_TOO_LONG, 0, 0));
    CHECK(is(taa1_plain_from_columns(S(plain), S(out)), TAA1_BOOK_TOO_LONG, 0, 0));
    CHECK(is(taa1_sealed_to_columns(S(out), S(plain)), TAA1_BOOK_TOO_LONG, 0, 0));
    CHECK(is(taa1_sealed_from_columns(S(out), S(plain)), TAA1_BOOK_TOO_LONG, 0, 0));
    CHECK(counted(taa1_diffusion(S(records)), TAA1_BOOK_TOO_LONG, 0));
    give_back(records);
    give_back(session_key);
    give_back(challenges);
    give_back(ring);
    give_back(plain);
    give_back(out);
}

static void nulls(void)
{
    string ring = input(TAA1_RING_BYTES, true);
    string session_key = input(16, true);
    CHECK(taa1_encrypt(NULL, 0, NULL, 0).refusal == TAA1_WRONG_LENGTH);
    CHECK(taa1_decrypt_register(NULL, 0, NULL, 0).refusal == TAA1_WRONG_LENGTH);
    CHECK(taa1_register(NULL, 0, 0).refusal == TAA1_WRONG_LENGTH);
    CHECK(counted(taa1_diffusion(NULL, 0), TAA1_ACCEPTED, 0));
    CHECK(is(taa1_check_plain(NULL, 0), TAA1_ACCEPTED, 0, 0));
    CHECK(took(taa1_seal_book(S(ring), NULL, 0, NULL, 0), TAA1_ACCEPTED, 0, 0, 0));
    CHECK(took(taa1_open_book(S(ring), NULL, 0, NULL, 0), TAA1_ACCEPTED, 0, 0, 0));
    CHECK(took(taa1_seal_book(NULL, 0, NULL, 0, NULL, 0), TAA1_WRONG_LENGTH, 0, 0, 0));
    CHECK(is(taa1_ta12_class(S(session_key), NULL, 0, 0x9240, 0x6db6, NULL, 0),
             TAA1_ACCEPTED, 0, 0));
    CHECK(is(taa1_ta12_class(NULL, 0, NULL, 0, 0x9240, 0x6db6, NULL, 0),
             TAA1_WRONG_LENGTH, 0, 0));
    CHECK(is(taa1_lineage(NULL, 0, NULL, 0), TAA1_ACCEPTED, 0, 0));
    CHECK(is(taa1_plain_to_columns(NULL, 0, NULL, 0), TAA1_ACCEPTED, 0, 0));
    CHECK(is(taa1_plain_from_columns(NULL, 0, NULL, 0), TAA1_ACCEPTED, 0, 0));
    CHECK(is(taa1_sealed_to_columns(NULL, 0, NULL, 0), TAA1_ACCEPTED, 0, 0));
    CHECK(is(taa1_sealed_from_columns(NULL, 0, NULL, 0), TAA1_ACCEPTED, 0, 0));
    give_back(ring);
    give_back(session_key);
}

static void texts(void)
{
    CHECK(strcmp(taa1_refusal_text(TAA1_OUTPUT_SHORT), "output shorter than the result") == 0);
    CHECK(strcmp(taa1_refusal_text(TAA1_ACCEPTED), "accepted") == 0);
    CHECK(strcmp(taa1_refusal_text(TAA1_GROUP_DISAGREES + 1), "not in the list") == 0);
    CHECK(strcmp(taa1_refusal_text(UINT32_MAX), "not in the list") == 0);
}

static void release(void)
{
    taa1_release_numbers numbers = taa1_release();
    char text[64];
    CHECK(numbers.major == TAA1_VERSION_MAJOR && numbers.minor == TAA1_VERSION_MINOR);
    CHECK(numbers.patch == TAA1_VERSION_PATCH);
    snprintf(text, sizeof text, "%u.%u.%u", numbers.major, numbers.minor, numbers.patch);
    CHECK(strcmp(text, TAA1_VERSION) == 0);
}

int main(void)
{
    static const size_t records[] = {0, 1, 2, 3, 4, 5, 17, TAA1_MOST_RECORDS - 1, TAA1_MOST_RECORDS};
    srand(1);
    for (int at_end = 0; at_end < 2; at_end++) {
        for (int longer = -8; longer <= 8; longer++)
            single_calls(at_end, longer);
        for (size_t i = 0; i < sizeof records / sizeof *records; i++) {
            books(at_end, records[i]);
            classes(at_end, records[i]);
            sheets(at_end, records[i]);
            columns(at_end, records[i], TAA1_PLAIN_RECORD_BYTES,
                    taa1_plain_to_columns, taa1_plain_from_columns);
            columns(at_end, records[i], TAA1_SEALED_RECORD_BYTES,
                    taa1_sealed_to_columns, taa1_sealed_from_columns);
            tallies(at_end, records[i]);
        }
        too_long(at_end);
    }
    nulls();
    texts();
    release();
    printf("%zu checks between guard pages, %zu failed\n", checks, failures);
    return failures != 0;
}
