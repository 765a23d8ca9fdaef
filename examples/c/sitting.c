/* SPDX-License-Identifier: MIT */
/*
 * Plays a sitting: makes the ring, and the ring of the one-sided sitting, works
 * the lineage of its keys, seals the model book, opens it and seals it again, then
 * opens the candidate's book and gives part marks for the text that seals no key.
 *
 *     sitting [FOLDER]    the folder with the five files; samples by default
 */
#include <stdio.h>
#include <stdlib.h>
#include <string.h>

#include "taa1.h"

enum { LONGEST = TAA1_MOST_RECORDS * TAA1_SHEET_RECORD_BYTES };

/* A file's bytes. One more than the longest sheet or book has, so that the engine
 * sees that one is too long. */
typedef struct {
    size_t length;
    uint8_t bytes[LONGEST + 1];
} contents;

static void fail(const char *what, const char *why) {
    fprintf(stderr, "sitting: %s%s\n", what, why);
    exit(EXIT_FAILURE);
}

static void read_file(const char *folder, const char *name, contents *file) {
    char path[4096];
    int length = snprintf(path, sizeof path, "%s/%s", folder, name);
    if (length < 0 || (size_t)length >= sizeof path) {
        fail(folder, " is too long a name");
    }
    FILE *stream = fopen(path, "rb");
    if (stream == NULL) {
        fail(path, " cannot be read");
    }
    file->length = fread(file->bytes, 1, sizeof file->bytes, stream);
    if (ferror(stream)) {
        fail(path, " cannot be read");
    }
    fclose(stream);
}

static void print_hex(const char *name, const uint8_t *bytes, size_t length) {
    printf("%s ", name);
    for (size_t i = 0; i < length; i++) {
        printf("%02x", bytes[i]);
    }
    putchar('\n');
}

static void print_refusal(FILE *stream, taa1_counted_answer answer) {
    fprintf(stream, "refused %u at %zu (%s), %zu runs\n", (unsigned)answer.refusal, answer.index,
            taa1_refusal_text(answer.refusal), answer.runs);
}

/* Ends the program if a book that the engine must accept is refused. */
static void must_accept(const char *book, taa1_counted_answer answer) {
    if (answer.refusal != TAA1_ACCEPTED) {
        fprintf(stderr, "sitting: %s: ", book);
        print_refusal(stderr, answer);
        exit(EXIT_FAILURE);
    }
}

/* The ring of the sitting in a file of this name. */
static taa1_ring_made make_ring(const char *name, const contents *sitting) {
    if (sitting->length != TAA1_SITTING_BYTES) {
        fprintf(stderr, "sitting: %s does not have %d bytes\n", name, TAA1_SITTING_BYTES);
        exit(EXIT_FAILURE);
    }
    const uint8_t *at = sitting->bytes;
    uint64_t sides = at[78];
    uint16_t response_mask = (uint16_t)(at[79] << 8 | at[80]);
    uint16_t key_mask = (uint16_t)(at[81] << 8 | at[82]);
    taa1_ring_made made = taa1_ring(at, 16, at + 16, 10, at + 26, 10, at + 36, 10, at + 46, 10,
                                    at + 56, 10, at + 66, 12, sides, response_mask, key_mask);
    if (made.refusal != TAA1_ACCEPTED) {
        fprintf(stderr, "sitting: %s: refused %u (%s)\n", name, (unsigned)made.refusal,
                taa1_refusal_text(made.refusal));
        exit(EXIT_FAILURE);
    }
    return made;
}

/* Prints a ring and both responses; each line begins with these words. */
static void print_ring(const char *words, const taa1_ring_made *made) {
    fputs(words, stdout);
    print_hex("ring", made->ring, sizeof made->ring);
    fputs(words, stdout);
    print_hex("response 1", made->response1, sizeof made->response1);
    fputs(words, stdout);
    print_hex("response 2", made->response2, sizeof made->response2);
}

/* The checks of a sealed record's text that fail, a bit for each, of how many. */
typedef struct {
    unsigned failed;
    int count;
} checks;

static checks checks_of(const uint8_t *ring, const uint8_t *record) {
    const uint8_t *d = ring, *o = ring + 10, *g = ring + 36, *text = record + 6;
    taa1_version version = {(uint16_t)(record[4] << 8 | record[5])};
    switch (record[0]) {
    case TAA1_KIND_TA31:
        return (checks){taa1_ta32(text, 15, d, 10, version).failed_checks, TAA1_TA32_CHECKS};
    case TAA1_KIND_TA51:
        return (checks){taa1_ta52(text, 15, o, 16, version).failed_checks, TAA1_TA52_CHECKS};
    case TAA1_KIND_TA51_G:
        return (checks){taa1_ta52(text, 15, g, 16, version).failed_checks, TAA1_TA52_CHECKS};
    case TAA1_KIND_TA81:
        return (checks){taa1_ta82(text, 15, o, 16, version).failed_checks, TAA1_TA82_CHECKS};
    case TAA1_KIND_TA81_G:
        return (checks){taa1_ta82(text, 15, g, 16, version).failed_checks, TAA1_TA82_CHECKS};
    default:
        return (checks){taa1_ta92(text, 15, o, 16, version).failed_checks, TAA1_TA92_CHECKS};
    }
}

/* Part marks: which checks of a record fail, leftmost first. */
static void print_marks(size_t index, checks of) {
    printf("record %zu, of %d checks failed:", index, of.count);
    for (int place = 0; place < of.count; place++) {
        if (of.failed >> place & 1) {
            printf(" %d", place);
        }
    }
    putchar('\n');
}

int main(int argc, char **argv) {
    static contents sitting, one_sided, sheet, plain, candidate;
    static uint8_t values[LONGEST], sealed[LONGEST], opened[LONGEST], again[LONGEST];
    const char *folder = argc > 1 ? argv[1] : "samples";
    read_file(folder, "sitting.bin", &sitting);
    read_file(folder, "one-sided.bin", &one_sided);
    read_file(folder, "lineage.sheet", &sheet);
    read_file(folder, "plain.book", &plain);
    read_file(folder, "candidate.book", &candidate);

    taa1_ring_made made = make_ring("sitting.bin", &sitting);
    const uint8_t *ring = made.ring;
    const size_t ring_length = sizeof made.ring;
    print_ring("", &made);
    taa1_ring_made of_one_side = make_ring("one-sided.bin", &one_sided);
    print_ring("one-sided ", &of_one_side);

    taa1_book_answer worked = taa1_lineage(sheet.bytes, sheet.length, values, sizeof values);
    if (worked.refusal != TAA1_ACCEPTED) {
        fprintf(stderr, "sitting: lineage.sheet: refused %u at %zu (%s)\n",
                (unsigned)worked.refusal, worked.index, taa1_refusal_text(worked.refusal));
        return EXIT_FAILURE;
    }
    printf("lineage %zu records, %zu bytes\n", worked.index, worked.written);
    for (size_t at = 0; at < worked.written; at += TAA1_SHEET_VALUE_BYTES) {
        print_hex("lineage", values + at, TAA1_SHEET_VALUE_BYTES);
    }

    taa1_counted_answer answer =
        taa1_seal_book(ring, ring_length, plain.bytes, plain.length, sealed, sizeof sealed);
    must_accept("plain.book", answer);
    const size_t sealed_length = answer.written;
    printf("sealed %zu records, %zu bytes, %zu runs\n", answer.index, sealed_length, answer.runs);
    for (size_t at = 0; at < sealed_length; at += TAA1_SEALED_RECORD_BYTES) {
        print_hex("sealed", sealed + at, TAA1_SEALED_RECORD_BYTES);
    }

    answer = taa1_open_book(ring, ring_length, sealed, sealed_length, opened, sizeof opened);
    must_accept("the sealed book", answer);
    if (answer.written != plain.length || memcmp(opened, plain.bytes, plain.length) != 0) {
        fail("the opened book", " is not the plain book");
    }
    printf("opened %zu records, %zu bytes, %zu runs: the plain book\n", answer.index,
           answer.written, answer.runs);

    answer = taa1_seal_book(ring, ring_length, opened, answer.written, again, sizeof again);
    must_accept("the opened book", answer);
    if (answer.written != sealed_length || memcmp(again, sealed, sealed_length) != 0) {
        fail("the book sealed again", " is another");
    }
    printf("sealed again %zu records, %zu bytes, %zu runs: the same bytes\n", answer.index,
           answer.written, answer.runs);

    answer = taa1_open_book(ring, ring_length, candidate.bytes, candidate.length, opened,
                            sizeof opened);
    if (answer.refusal != TAA1_ACCEPTED) {
        print_refusal(stdout, answer);
        if (answer.refusal == TAA1_FLAG_SET) {
            const uint8_t *record = candidate.bytes + answer.index * TAA1_SEALED_RECORD_BYTES;
            print_marks(answer.index, checks_of(ring, record));
        }
    } else {
        printf("accepted %zu records, %zu bytes, %zu runs\n", answer.index, answer.written,
               answer.runs);
    }

    if (fflush(stdout) != 0 || ferror(stdout)) {
        fail("standard output", " cannot be written");
    }
    return EXIT_SUCCESS;
}
