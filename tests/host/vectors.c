/* Runs calls with their right results through the C library, and compares every byte.
 *
 *     vectors FILE
 *
 * One call a line, fields apart by one space, bytes in hex, "-" for no bytes:
 *
 *     START_STORE schema run refusal
 *     TRANSACT request fresh records_len answer_len refusal answer records
 *     MARK mark_len refusal mark
 *     START_MIRROR schema run refusal
 *     HEAR record answer n highest level
 *     ROW table id there
 *     COLUMN table id column count atoms
 *
 * Buffers and areas are full of rubbish before a call, stand between guard bytes, and what a refusal must leave alone is compared with a copy.
 * A failed check is told with its line; the last line is 'N passed, M failed'. */
#include <stdio.h>
#include <stdlib.h>
#include <string.h>
#include "maqdufesh.h"

enum { MOST = 40000, GUARD = 64, RUBBISH = 0xA5 };

static unsigned long line_number, passed, failed;

static void check(int right, const char *what) {
    if (right) {
        passed++;
    } else {
        failed++;
        if (failed <= 20) printf("line %lu: %s\n", line_number, what);
    }
}

/* A buffer of some length, between guard bytes. */
struct buffer {
    uint8_t bytes[GUARD + MOST + GUARD];
    size_t length;
};

static uint8_t *start_of(struct buffer *b) { return b->bytes + GUARD; }

static void fill(struct buffer *b, size_t length) {
    if (length > MOST) {
        fprintf(stderr, "line %lu: a buffer of %zu bytes\n", line_number, length);
        exit(2);
    }
    b->length = length;
    memset(b->bytes, RUBBISH, GUARD + length + GUARD);
}

static int guarded(const struct buffer *b) {
    for (size_t i = 0; i < GUARD; i++)
        if (b->bytes[i] != RUBBISH || b->bytes[GUARD + b->length + i] != RUBBISH) return 0;
    return 1;
}

/* Whether a buffer holds some bytes, and zeros after them. */
static int holds(const struct buffer *b, const uint8_t *bytes, size_t length) {
    if (length > b->length || memcmp(b->bytes + GUARD, bytes, length) != 0) return 0;
    for (size_t i = length; i < b->length; i++)
        if (b->bytes[GUARD + i] != 0) return 0;
    return guarded(b);
}

/* The fields of a line. */
static char *next_field(char **at) {
    char *field = *at;
    if (field == NULL) {
        fprintf(stderr, "line %lu: a field is missing\n", line_number);
        exit(2);
    }
    char *space = strchr(field, ' ');
    if (space) *space = 0;
    *at = space ? space + 1 : NULL;
    return field;
}

static unsigned long next_number(char **at) { return strtoul(next_field(at), NULL, 10); }

static int digit(char c) {
    if (c >= '0' && c <= '9') return c - '0';
    if (c >= 'a' && c <= 'f') return c - 'a' + 10;
    fprintf(stderr, "line %lu: no hex digit: %c\n", line_number, c);
    exit(2);
}

static size_t next_bytes(char **at, uint8_t *out, size_t most) {
    const char *field = next_field(at);
    if (strcmp(field, "-") == 0) return 0;
    size_t n = strlen(field) / 2;
    if (n > most) {
        fprintf(stderr, "line %lu: %zu bytes\n", line_number, n);
        exit(2);
    }
    for (size_t i = 0; i < n; i++) out[i] = (uint8_t)(digit(field[2 * i]) << 4 | digit(field[2 * i + 1]));
    return n;
}

static struct buffer area_of_store, area_of_mirror, records, answer, out;
static uint8_t before[MOST], given[MOST], wanted[MOST], more[MOST], fresh[MOST];

static void keep(const struct buffer *b) { memcpy(before, b->bytes + GUARD, b->length); }

static int unchanged(const struct buffer *b) { return memcmp(before, b->bytes + GUARD, b->length) == 0 && guarded(b); }

static void start(char *at, int mirror) {
    struct buffer *area = mirror ? &area_of_mirror : &area_of_store;
    size_t n = next_bytes(&at, given, MOST);
    unsigned long run = next_number(&at);
    unsigned long refusal = next_number(&at);
    fill(area, mirror ? MAQ_MIRROR_AREA : MAQ_STORE_AREA);
    keep(area);
    unsigned long got = mirror ? maq_mirror_start(start_of(area), area->length, given, n, (uint32_t)run)
                               : maq_store_start(start_of(area), area->length, given, n, (uint32_t)run);
    check(got == refusal, "the refusal of a start");
    check(refusal ? unchanged(area) : guarded(area), "the area at a start");
}

static void transact(char *at) {
    size_t n = next_bytes(&at, given, MOST);
    size_t m = next_bytes(&at, fresh, MOST);
    fill(&records, next_number(&at));
    fill(&answer, next_number(&at));
    unsigned long refusal = next_number(&at);
    size_t text = next_bytes(&at, wanted, MOST);
    size_t sent = next_bytes(&at, more, MOST);
    keep(&area_of_store);
    unsigned long got = maq_store_transact(start_of(&area_of_store), area_of_store.length, given, n, fresh, m, start_of(&records), records.length,
                                           start_of(&answer), answer.length);
    check(got == refusal, "the refusal of a transact");
    check(holds(&answer, wanted, text), "the answer of a transact");
    check(holds(&records, more, sent), "the records of a transact");
    check(refusal || sent == 0 ? unchanged(&area_of_store) : guarded(&area_of_store), "the store's area at a transact");
}

static void mark(char *at) {
    fill(&out, next_number(&at));
    unsigned long refusal = next_number(&at);
    size_t n = next_bytes(&at, wanted, MOST);
    keep(&area_of_store);
    check(maq_store_mark(start_of(&area_of_store), area_of_store.length, start_of(&out), out.length) == refusal, "the refusal of a mark");
    check(holds(&out, wanted, n) && unchanged(&area_of_store), "the bytes of a mark");
}

static uint32_t answer_number(const char *word) {
    if (strcmp(word, "repeat") == 0) return MAQ_REPEAT;
    if (strcmp(word, "behind") == 0) return MAQ_BEHIND;
    if (strcmp(word, "heard") == 0) return MAQ_HEARD;
    if (strcmp(word, "applied") == 0) return MAQ_APPLIED;
    return (uint32_t)strtoul(word, NULL, 10);
}

static void put_number(uint8_t *at, unsigned long n) {
    for (int i = 0; i < 4; i++) at[i] = (uint8_t)(n >> (24 - 8 * i));
}

static void hear(char *at) {
    size_t n = next_bytes(&at, given, MOST);
    uint32_t right = answer_number(next_field(&at));
    keep(&area_of_mirror);
    check(maq_mirror_hear(start_of(&area_of_mirror), area_of_mirror.length, given, n) == right, "what a mirror says of a record");
    check(right < MAQ_REPEAT ? unchanged(&area_of_mirror) : guarded(&area_of_mirror), "the mirror's area at an arrival");
    put_number(wanted, next_number(&at));
    put_number(more, next_number(&at));
    wanted[4] = (uint8_t)next_number(&at);
    fill(&out, MAQ_PROGRESS);
    check(maq_mirror_progress(start_of(&area_of_mirror), area_of_mirror.length, start_of(&out), out.length) == 0, "the answer to progress");
    check(holds(&out, wanted, MAQ_PROGRESS), "n and level");
    check(memcmp(start_of(&area_of_mirror) + MAQ_STORE_AREA, more, 4) == 0, "the highest heard");
}

static void row(char *at) {
    unsigned long table = next_number(&at);
    next_bytes(&at, given, 16);
    wanted[0] = (uint8_t)next_number(&at);
    fill(&out, 1);
    check(maq_mirror_has_row(start_of(&area_of_mirror), area_of_mirror.length, (uint32_t)table, given, start_of(&out), 1) == 0, "the answer to has_row");
    check(holds(&out, wanted, 1), "whether a row is there");
}

static void column(char *at) {
    unsigned long table = next_number(&at);
    next_bytes(&at, given, 16);
    unsigned long c = next_number(&at);
    wanted[0] = (uint8_t)next_number(&at);
    next_bytes(&at, wanted + 1, MAQ_COLUMN - 1);
    fill(&out, MAQ_COLUMN);
    check(maq_mirror_column(start_of(&area_of_mirror), area_of_mirror.length, (uint32_t)table, given, (uint32_t)c, start_of(&out), out.length) == 0,
          "the answer to column");
    check(holds(&out, wanted, MAQ_COLUMN), "a column");
}

/* What no vector has: lengths that are not those of a call, and areas that are in disorder. */
static void lengths(void) {
    static const uint8_t id[16];
    fill(&area_of_mirror, MAQ_MIRROR_AREA);
    fill(&out, MAQ_PROGRESS);
    check(maq_mirror_progress(start_of(&area_of_mirror), MAQ_MIRROR_AREA, start_of(&out), MAQ_PROGRESS) == MAQ_DISORDERED && holds(&out, given, 0), "progress in disorder");
    fill(&out, MAQ_PROGRESS + 1);
    check(maq_mirror_progress(start_of(&area_of_mirror), MAQ_MIRROR_AREA, start_of(&out), out.length) == MAQ_WRONG_LENGTH && holds(&out, given, 0), "progress into 6 bytes");
    fill(&out, 2);
    check(maq_mirror_has_row(start_of(&area_of_mirror), MAQ_MIRROR_AREA, 0, id, start_of(&out), 2) == MAQ_WRONG_LENGTH && holds(&out, given, 0), "has_row into 2 bytes");
    fill(&out, MAQ_COLUMN - 1);
    check(maq_mirror_column(start_of(&area_of_mirror), MAQ_MIRROR_AREA, 0, id, 0, start_of(&out), out.length) == MAQ_WRONG_LENGTH && holds(&out, given, 0), "column into 100 bytes");
    fill(&out, 9);
    fill(&area_of_store, MAQ_STORE_AREA);
    check(maq_store_mark(start_of(&area_of_store), MAQ_STORE_AREA, start_of(&out), 9) == MAQ_DISORDERED && holds(&out, given, 0), "a mark in disorder");
    fill(&out, 8);
    check(maq_store_mark(start_of(&area_of_store), MAQ_STORE_AREA, start_of(&out), 8) == MAQ_WRONG_LENGTH && holds(&out, given, 0), "a mark into 8 bytes");
    check(maq_store_start(start_of(&area_of_store), MAQ_STORE_AREA - 1, id, 0, 1) == MAQ_WRONG_LENGTH, "a store in a short area");
    check(maq_mirror_start(start_of(&area_of_mirror), MAQ_MIRROR_AREA - 1, id, 0, 1) == MAQ_WRONG_LENGTH, "a mirror in a short area");
    check(maq_store_area_len() == MAQ_STORE_AREA && maq_mirror_area_len() == MAQ_MIRROR_AREA, "the areas' lengths");
}

int main(int argc, char **argv) {
    static char line[1 << 20];
    FILE *in = argc == 2 ? fopen(argv[1], "r") : NULL;
    if (in == NULL) {
        fprintf(stderr, argc == 2 ? "vectors: cannot read %s\n" : "usage: vectors FILE%.0s\n", argc == 2 ? argv[1] : "");
        return 2;
    }
    lengths();
    while (fgets(line, sizeof line, in)) {
        line_number++;
        line[strcspn(line, "\n")] = 0;
        char *at = line;
        const char *call = next_field(&at);
        if (strcmp(call, "START_STORE") == 0) start(at, 0);
        else if (strcmp(call, "START_MIRROR") == 0) start(at, 1);
        else if (strcmp(call, "TRANSACT") == 0) transact(at);
        else if (strcmp(call, "MARK") == 0) mark(at);
        else if (strcmp(call, "HEAR") == 0) hear(at);
        else if (strcmp(call, "ROW") == 0) row(at);
        else if (strcmp(call, "COLUMN") == 0) column(at);
        else check(0, "an unknown call");
    }
    fclose(in);
    printf("%lu lines\n%lu passed, %lu failed\n", line_number, passed, failed);
    return failed != 0;
}
