/* How long calls take: the median and the 99th percentile of each kind, in microseconds and as a multiple of copying a store's area once in the
 * same run, so that figures of different machines can be compared. It asserts nothing about time.
 *
 *     bench [ROUNDS]
 *
 * By a schema of one table and by one of four (two indexes, strong and weak references), on stores of 1, 8 and 32 rows: a round (of 1,000) is a transact that
 * commits a change, one of no operation, one that selects, a mark, and a question to a mirror; arrivals are 10 a round. A mark judges the area; a transact of no
 * operation does that, commits and writes the area; the rest of a transact is its operations, and the records. */
#include <stdio.h>
#include <stdlib.h>
#include <string.h>
#include <time.h>
#include "maqdufesh.h"

enum { MOST = 200000 };

static const char one[] =
    "{\"name\":\"plating\",\"version\":\"1.0.0\",\"tables\":{\"Tank\":{\"isRoot\":true,\"indexes\":[[\"name\"]],\"columns\":{"
    "\"name\":{\"type\":\"string\"},\"acid\":{\"type\":{\"key\":{\"type\":\"integer\",\"minInteger\":0},\"min\":0,\"max\":1}},"
    "\"limits\":{\"type\":{\"key\":\"integer\",\"min\":0,\"max\":4}}}}}}";

static const char four[] =
    "{\"name\":\"plating\",\"version\":\"1.0.0\",\"tables\":{"
    "\"Tank\":{\"isRoot\":true,\"indexes\":[[\"name\"],[\"place\",\"acid\"]],\"maxRows\":32,\"columns\":{"
    "\"name\":{\"type\":\"string\"},\"place\":{\"type\":\"string\"},\"acid\":{\"type\":{\"key\":{\"type\":\"integer\",\"minInteger\":0,\"maxInteger\":100000},\"min\":0,\"max\":1}},"
    "\"limits\":{\"type\":{\"key\":\"integer\",\"min\":0,\"max\":4}},\"probe\":{\"type\":{\"key\":{\"type\":\"uuid\",\"refTable\":\"Probe\"},\"min\":0,\"max\":1}},"
    "\"alarms\":{\"type\":{\"key\":{\"type\":\"uuid\",\"refTable\":\"Alarm\",\"refType\":\"weak\"},\"min\":0,\"max\":4}}}},"
    "\"Probe\":{\"columns\":{\"serial\":{\"type\":\"string\"},\"live\":{\"type\":\"boolean\"},\"kind\":{\"type\":{\"key\":{\"type\":\"string\",\"maxLength\":12}}}}},"
    "\"Alarm\":{\"isRoot\":true,\"columns\":{\"text\":{\"type\":{\"key\":{\"type\":\"string\",\"minLength\":1,\"maxLength\":20}}},\"level\":{\"type\":\"integer\"}}},"
    "\"Shift\":{\"isRoot\":true,\"maxRows\":3,\"columns\":{\"who\":{\"type\":\"string\"},\"begun\":{\"type\":\"integer\",\"mutable\":false}}}}}";

static const char *schema;
static size_t schema_len;

static uint8_t area[MAQ_STORE_AREA], copy[MAQ_STORE_AREA], mirror[MAQ_MIRROR_AREA];
static uint8_t records[MAQ_LEAST_RECORDS], answer[65536], fresh[MAQ_FRESH];
static double times[MOST];
static size_t taken;
static double unit;

static double now(void) {
    struct timespec t;
    clock_gettime(CLOCK_MONOTONIC, &t);
    return (double)t.tv_sec * 1e6 + (double)t.tv_nsec / 1e3;
}

static int by_size(const void *a, const void *b) {
    double x = *(const double *)a, y = *(const double *)b;
    return x < y ? -1 : x > y;
}

static void take_time(double since) {
    if (taken < MOST) times[taken++] = now() - since;
}

/* The median of what was taken, told in a line; and begins anew. */
static double tell(const char *what) {
    char line[120];
    snprintf(line, sizeof line, schema == four ? "%s, four tables" : schema == one ? "%s, one table" : "%s", what);
    qsort(times, taken, sizeof *times, by_size);
    double median = times[taken / 2], late = times[taken * 99 / 100];
    if (unit > 0) printf("%-48s %8zu %10.2f %10.2f %8.1f %8.1f\n", line, taken, median, late, median / unit, late / unit);
    else printf("%-48s %8zu %10.2f %10.2f %8.1f %8.1f\n", line, taken, median, late, 1.0, late / median);
    taken = 0;
    return median;
}

static unsigned long calls;

static void make_fresh(void) {
    calls++;
    for (int i = 0; i < MAQ_FRESH; i++) fresh[i] = 0;
    for (int i = 0; i < 16; i++) {
        fresh[16 * i] = (uint8_t)(i + 1);
        for (int k = 0; k < 4; k++) fresh[16 * i + 1 + k] = (uint8_t)(calls >> (24 - 8 * k));
    }
}

static void ask(const char *request) {
    make_fresh();
    uint32_t refusal = maq_store_transact(area, sizeof area, (const uint8_t *)request, strlen(request), fresh, sizeof fresh, records, sizeof records,
                                          answer, sizeof answer);
    if (refusal != MAQ_ACCEPTED || strstr((char *)answer, "\"error\"") != NULL) {
        fprintf(stderr, "bench: refusal %u, answer %.200s, of %.200s\n", refusal, answer, request);
        exit(1);
    }
}

static void timed(const char *request) {
    double since = now();
    ask(request);
    take_time(since);
}

/* A store of so many tanks. */
static void set_up(int rows) {
    char request[400];
    if (maq_store_start(area, sizeof area, (const uint8_t *)schema, schema_len, 1) != MAQ_ACCEPTED) exit(1);
    for (int i = 0; i < rows; i++) {
        snprintf(request, sizeof request, "[\"plating\",{\"op\":\"insert\",\"table\":\"Tank\",\"row\":{\"name\":\"tank %d\",\"acid\":%d,\"limits\":[\"set\",[1,2,3]]}}]", i, i);
        ask(request);
    }
}

static void transacts(int rows, int rounds) {
    char request[400], what[80];
    set_up(rows);
    for (int i = 0; i < rounds; i++) {
        snprintf(request, sizeof request, "[\"plating\",{\"op\":\"update\",\"table\":\"Tank\",\"where\":[[\"name\",\"==\",\"tank %d\"]],\"row\":{\"acid\":%d}}]", i % rows, i + 1000);
        timed(request);
        if (records[0] == 0) exit(1);
    }
    snprintf(what, sizeof what, "transact that commits, %d rows", rows);
    tell(what);
    for (int i = 0; i < rounds; i++) timed("[\"plating\"]");
    snprintf(what, sizeof what, "transact of no operation, %d rows", rows);
    tell(what);
    for (int i = 0; i < rounds; i++) {
        double since = now();
        uint8_t mark[MAQ_MARK];
        if (maq_store_mark(area, sizeof area, mark, sizeof mark) != MAQ_ACCEPTED) exit(1);
        take_time(since);
    }
    snprintf(what, sizeof what, "mark, %d rows", rows);
    tell(what);
    for (int i = 0; i < rounds; i++) timed("[\"plating\",{\"op\":\"select\",\"table\":\"Tank\",\"where\":[]}]");
    snprintf(what, sizeof what, "transact that selects, %d rows", rows);
    tell(what);
}

static size_t length_of(uint8_t kind) { return kind == 1 || kind == 2 ? 26 : kind == 3 ? 128 : kind == 4 || kind == 5 ? 9 : 0; }

/* Arrivals at a mirror of so many rows, which it applies. */
static void arrivals(int rows, int count) {
    char request[400], what[80];
    set_up(0);
    maq_mirror_start(mirror, sizeof mirror, (const uint8_t *)schema, schema_len, 1);
    for (int turn = 0; taken < (size_t)count; turn++) {
        int i = turn % rows;
        if (turn < rows) snprintf(request, sizeof request, "[\"plating\",{\"op\":\"insert\",\"table\":\"Tank\",\"row\":{\"name\":\"tank %d\",\"acid\":%d}}]", i, i);
        else snprintf(request, sizeof request, "[\"plating\",{\"op\":\"update\",\"table\":\"Tank\",\"where\":[[\"name\",\"==\",\"tank %d\"]],\"row\":{\"acid\":%d}}]", i, turn);
        ask(request);
        for (size_t at = 0; at < sizeof records && length_of(records[at]) != 0; at += length_of(records[at])) {
            double since = now();
            uint32_t said = maq_mirror_hear(mirror, sizeof mirror, records + at, length_of(records[at]));
            if (turn >= rows) take_time(since);
            if (said != MAQ_APPLIED) exit(1);
        }
    }
    snprintf(what, sizeof what, "arrival, %d rows", rows);
    tell(what);
    for (int i = 0; i < count / 10; i++) {
        double since = now();
        uint8_t out[MAQ_PROGRESS];
        if (maq_mirror_progress(mirror, sizeof mirror, out, sizeof out) != MAQ_ACCEPTED || out[4] != 1) exit(1);
        take_time(since);
    }
    snprintf(what, sizeof what, "progress, %d rows", rows);
    tell(what);
}

/* All of it, by one schema. */
static void by(const char *text, size_t len, int rounds) {
    schema = text;
    schema_len = len;
    for (int i = 0; i < rounds; i++) {
        double since = now();
        if (maq_store_start(copy, sizeof copy, (const uint8_t *)schema, schema_len, 1) != MAQ_ACCEPTED) exit(1);
        take_time(since);
    }
    tell("start of a store");
    for (int rows = 1; rows <= 32; rows = rows == 1 ? 8 : rows * 4) {
        transacts(rows, rounds);
        arrivals(rows, rounds * 10);
    }
}

int main(int argc, char **argv) {
    int rounds = argc > 1 ? atoi(argv[1]) : 1000;
    if (rounds < 1 || rounds > 10000) {
        fprintf(stderr, "usage: bench [ROUNDS], 1 to 10000\n");
        return 2;
    }
    printf("%-48s %8s %10s %10s %8s %8s\n", "", "calls", "median us", "99% us", "copies", "99%");
    for (int i = 0; i < rounds; i++) {
        double since = now();
        for (int k = 0; k < 100; k++) {
            memcpy(copy, area, sizeof area);
            __asm__ volatile("" : : "r"(copy) : "memory");
        }
        times[taken++] = (now() - since) / 100;
    }
    unit = tell("copying a store's area");
    by(one, sizeof one - 1, rounds);
    by(four, sizeof four - 1, rounds);
    return 0;
}
