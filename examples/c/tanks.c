/* A store of two tanks, and the display over one of them, which loses and repeats what it is sent.
 * Build and run: examples/c/run */
#include <stdio.h>
#include <string.h>
#include "maqdufesh.h"

static const char schema[] =
    "{\"name\":\"plating\",\"version\":\"1.0.0\",\"tables\":{\"Tank\":{\"isRoot\":true,\"indexes\":[[\"name\"]],\"columns\":{"
    "\"name\":{\"type\":\"string\",\"mutable\":false},"
    "\"acid\":{\"type\":{\"key\":{\"type\":\"integer\",\"minInteger\":0,\"maxInteger\":140},\"min\":0,\"max\":1}}}}}}";

static const char *requests[] = {
    "[\"plating\",{\"op\":\"insert\",\"table\":\"Tank\",\"row\":{\"name\":\"nickel\",\"acid\":42}},{\"op\":\"insert\",\"table\":\"Tank\",\"row\":{\"name\":\"chrome\"}}]",
    "[\"plating\",{\"op\":\"mutate\",\"table\":\"Tank\",\"where\":[[\"name\",\"==\",\"nickel\"]],\"mutations\":[[\"acid\",\"+=\",3]]}]",
    "[\"plating\",{\"op\":\"update\",\"table\":\"Tank\",\"where\":[[\"name\",\"==\",\"nickel\"]],\"row\":{\"acid\":[\"set\",[]]}}]",
    "[\"plating\",{\"op\":\"insert\",\"table\":\"Tank\",\"row\":{\"name\":\"nickel\"}}]",
    "[\"plating\",{\"op\":\"select\",\"table\":\"Tank\",\"where\":[]}]",
};

static uint8_t store[MAQ_STORE_AREA], mirror[MAQ_MIRROR_AREA];
static uint8_t records[MAQ_LEAST_RECORDS], answer[4000], mark[MAQ_MARK];
static uint8_t nickel[16];

/* The length of a record, by its kind. */
static size_t length_of(uint8_t kind) { return kind == 1 || kind == 2 ? 26 : kind == 3 ? 128 : kind == 4 || kind == 5 ? 9 : 0; }

/* 16 ids; firmware takes them from its random source. */
static void make_fresh(uint8_t *fresh, int call) {
    for (int i = 0; i < MAQ_FRESH; i++) fresh[i] = (uint8_t)(i * 7 + call * 31 + 1);
    for (int i = 0; i < 16; i++) fresh[16 * i] = (uint8_t)(call * 16 + i + 1);
}

static const char *said(uint32_t answer) {
    return answer == MAQ_REPEAT ? "repeat" : answer == MAQ_BEHIND ? "behind" : answer == MAQ_HEARD ? "heard" : answer == MAQ_APPLIED ? "applied" : "refused";
}

/* What the display over the nickel tank may show: a value only where it is level. */
static void show(void) {
    uint8_t progress[MAQ_PROGRESS], column[MAQ_COLUMN];
    maq_mirror_progress(mirror, sizeof mirror, progress, sizeof progress);
    unsigned n = (unsigned)progress[0] << 24 | progress[1] << 16 | progress[2] << 8 | progress[3];
    maq_mirror_column(mirror, sizeof mirror, 0, nickel, 1, column, sizeof column);
    if (!progress[4]) printf("  display: record %u, NOT LEVEL, shows no value\n", n);
    else if (column[0] == 0) printf("  display: record %u, level, no reading of acid\n", n);
    else printf("  display: record %u, level, acid %u.%u\n", n, column[8] / 10, column[8] % 10);
}

static void hear(const uint8_t *record, size_t length) {
    printf("  kind %u, %3zu bytes: %s\n", record[0], length, said(maq_mirror_hear(mirror, sizeof mirror, record, length)));
}

int main(void) {
    uint8_t fresh[MAQ_FRESH];
    size_t length = sizeof schema - 1;
    if (maq_store_start(store, sizeof store, (const uint8_t *)schema, length, 1) != MAQ_ACCEPTED) return 1;
    if (maq_mirror_start(mirror, sizeof mirror, (const uint8_t *)schema, length, 1) != MAQ_ACCEPTED) return 1;
    for (int i = 0; i < (int)(sizeof requests / sizeof *requests); i++) {
        make_fresh(fresh, i);
        if (i == 0) memcpy(nickel, fresh, 16);
        uint32_t refusal = maq_store_transact(store, sizeof store, (const uint8_t *)requests[i], strlen(requests[i]), fresh, sizeof fresh, records,
                                              sizeof records, answer, sizeof answer);
        printf("%s\n", requests[i]);
        if (refusal) printf("  refusal %u\n", refusal);
        else printf("  %.*s\n", (int)sizeof answer, answer);
        /* the radio loses the second transaction's records, and sends the others' twice */
        for (size_t at = 0; at < sizeof records && length_of(records[at]) != 0; at += length_of(records[at])) {
            if (i == 1) continue;
            hear(records + at, length_of(records[at]));
            hear(records + at, length_of(records[at]));
        }
        maq_store_mark(store, sizeof store, mark, sizeof mark);
        hear(mark, sizeof mark);
        show();
    }
    return 0;
}
