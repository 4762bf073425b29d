/* How much stack each call takes: it runs in a thread whose stack was filled with a pattern, and what is no longer the pattern was used, the thread's own few
 * thousand bytes among it. Told are the most of all calls of a kind. */
#include <pthread.h>
#include <stdio.h>
#include <stdlib.h>
#include <string.h>
#include "maqdufesh.h"

enum { STACK = 1 << 20, PATTERN = 0xa5 };

static const char schema[] =
    "{\"name\":\"d\",\"version\":\"1.0.0\",\"tables\":{"
    "\"R\":{\"isRoot\":true,\"indexes\":[[\"name\"]],\"columns\":{\"name\":{\"type\":\"string\"},"
    "\"ns\":{\"type\":{\"key\":{\"type\":\"integer\",\"minInteger\":-9},\"min\":0,\"max\":\"unlimited\"}},"
    "\"to\":{\"type\":{\"key\":{\"type\":\"uuid\",\"refTable\":\"N\"},\"min\":0,\"max\":4}},"
    "\"look\":{\"type\":{\"key\":{\"type\":\"uuid\",\"refTable\":\"N\",\"refType\":\"weak\"},\"min\":0,\"max\":4}}}},"
    "\"N\":{\"columns\":{\"tag\":{\"type\":\"string\"},\"ok\":{\"type\":\"boolean\"}}}}}";

/* Inserts with named uuids and sets, mutates, selects, an update, a delete, a long string, deep JSON, and requests that are refused. */
static const char *requests[] = {
    "[\"d\",{\"op\":\"insert\",\"table\":\"N\",\"uuid-name\":\"a\",\"row\":{\"tag\":\"pH-1\",\"ok\":true}},"
    "{\"op\":\"insert\",\"table\":\"R\",\"row\":{\"name\":\"x\",\"ns\":[\"set\",[4,1,3,2]],\"to\":[\"named-uuid\",\"a\"],\"look\":[\"set\",[[\"named-uuid\",\"a\"]]]}}]",
    "[\"d\",{\"op\":\"mutate\",\"table\":\"R\",\"where\":[[\"name\",\"==\",\"x\"],[\"ns\",\"includes\",[\"set\",[1,2]]]],\"mutations\":[[\"ns\",\"*=\",3],[\"ns\",\"delete\",3],[\"ns\",\"insert\",7],[\"ns\",\"%=\",100]]}]",
    "[\"d\",{\"op\":\"select\",\"table\":\"R\",\"where\":[]},{\"op\":\"select\",\"table\":\"R\",\"where\":[[\"ns\",\"excludes\",5]],\"columns\":[\"name\",\"_uuid\"]}]",
    "[\"d\",{\"op\":\"update\",\"table\":\"R\",\"where\":[[\"name\",\"!=\",\"y\"]],\"row\":{\"name\":\"\\u0041bcdefghijklmnopqrstuvwx\"}}]",
    "[\"d\",{\"op\":\"insert\",\"table\":\"R\",\"row\":{\"name\":\"a string of more than 24 bytes\"}}]",
    "[\"d\",{\"op\":\"comment\",\"comment\":\"x\",\"comment\":[[[[[[[[[[]]]]]]]]]]}]",
    "[\"d\",{\"op\":\"delete\",\"table\":\"R\",\"where\":[]}]",
    "[\"d\",{\"op\":\"insert\",\"table\":\"N\",\"row\":{}}",
    "[\"other\"]",
};

static uint8_t store[MAQ_STORE_AREA], mirror[MAQ_MIRROR_AREA], records[MAQ_LEAST_RECORDS], answer[60000], mark[MAQ_MARK], fresh[MAQ_FRESH], out[MAQ_COLUMN], id[16];
static const char *request;
static uint8_t *arrival;
static size_t arrival_len;
static size_t most[8];

static void *nothing(void *p) { return p; }
static void *start_store(void *p) { maq_store_start(store, sizeof store, (const uint8_t *)schema, strlen(schema), 1); return p; }
static void *start_mirror(void *p) { maq_mirror_start(mirror, sizeof mirror, (const uint8_t *)schema, strlen(schema), 1); return p; }
static void *transact(void *p) {
    maq_store_transact(store, sizeof store, (const uint8_t *)request, strlen(request), fresh, sizeof fresh, records, sizeof records, answer, sizeof answer);
    return p;
}
static void *ask_mark(void *p) { maq_store_mark(store, sizeof store, mark, sizeof mark); return p; }
static void *hear(void *p) { maq_mirror_hear(mirror, sizeof mirror, arrival, arrival_len); return p; }
static void *progress(void *p) { maq_mirror_progress(mirror, sizeof mirror, out, MAQ_PROGRESS); return p; }
static void *column(void *p) { maq_mirror_column(mirror, sizeof mirror, 0, id, 0, out, MAQ_COLUMN); return p; }

static void measure(int kind, void *(*f)(void *)) {
    static uint8_t *stack;
    pthread_attr_t attr;
    pthread_t thread;
    if (stack == NULL) stack = aligned_alloc(4096, STACK);
    memset(stack, PATTERN, STACK);
    pthread_attr_init(&attr);
    if (pthread_attr_setstack(&attr, stack, STACK) || pthread_create(&thread, &attr, f, NULL) || pthread_join(thread, NULL)) {
        fprintf(stderr, "stack: no thread\n");
        exit(1);
    }
    pthread_attr_destroy(&attr);
    size_t at = 0;
    while (at < STACK && stack[at] == PATTERN) at++;
    if (most[kind] < STACK - at) most[kind] = STACK - at;
}

static void fill(int call) {
    for (int i = 0; i < MAQ_FRESH; i++) fresh[i] = (uint8_t)(i % 16 == 0 ? 16 * call + i / 16 + 1 : call);
}

static size_t length_of(uint8_t kind) { return kind == 1 || kind == 2 ? 26 : kind == 3 ? 128 : kind == 4 || kind == 5 ? 9 : 0; }

int main(void) {
    static const char *names[] = {"the thread alone", "start", "transact", "mark", "hear", "progress", "column"};
    measure(0, nothing);
    measure(1, start_store);
    measure(1, start_mirror);
    for (size_t k = 0; k < sizeof requests / sizeof *requests; k++) {
        request = requests[k];
        fill((int)k);
        measure(2, transact);
        measure(3, ask_mark);
        for (size_t at = 0; at < sizeof records && length_of(records[at]); at += arrival_len) {
            arrival = records + at;
            arrival_len = length_of(records[at]);
            if (records[at] == 1) memcpy(id, records + at + 10, 16);
            measure(4, hear);
            measure(5, progress);
            measure(6, column);
        }
        arrival = mark;
        arrival_len = sizeof mark;
        measure(4, hear);
    }
    for (int i = 0; i < 7; i++) printf("%-16s %7zu bytes\n", names[i], most[i]);
    return 0;
}
