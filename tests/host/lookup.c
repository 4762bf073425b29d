/* Times the searches for rows by table and id, and by id alone, in one library or in several, in turn: each id of a store is found, and as many
 * absent ones are missed. Every answer is compared with the right one. The libraries are made of the crate `lookups` (tests/host/lookup).
 *
 *     lookup check LIB...      compares only; the last line is 'N passed, M failed'
 *     lookup REPEATS LIB...    prints nanoseconds a search, the least of so many repeats, in each library, and the last's beside the first's */
#include <dlfcn.h>
#include <stdint.h>
#include <stdio.h>
#include <stdlib.h>
#include <string.h>
#include <time.h>

enum { ROW = 625, ROWS = 32, ID = 16, KEY = 17, ASKED = 8192, LIBS = 4, MOST = 9999 };

typedef uint64_t (*call)(const uint8_t *rows, size_t n, const uint8_t *asked, size_t count);

static call calls[LIBS][2]; /* by key, by id */
static int libs;
static uint8_t rows[ROWS][ROW], keys[ASKED][KEY], ids[ASKED][ID];
static unsigned long passed, failed;

static uint64_t state = 88172645463325252u;

static uint64_t chance(void)
{
    state ^= state << 13;
    state ^= state >> 7;
    state ^= state << 17;
    return state;
}

static double now(void)
{
    struct timespec t;
    clock_gettime(CLOCK_MONOTONIC, &t);
    return (double)t.tv_sec * 1e9 + (double)t.tv_nsec;
}

static int by_key(const void *a, const void *b)
{
    return memcmp(a, b, KEY);
}

/* An id: any bytes, or, where ids are alike, such as a counter gives: the last four are any. */
static void make_id(uint8_t *id, int alike)
{
    for (int k = 0; k < ID; k++)
        id[k] = alike && k < 12 ? 7 : (uint8_t)chance();
}

/* n rows in order, as many in each of the tables as may be. */
static void make_rows(int n, int tables, int alike)
{
    memset(rows, 0, sizeof rows);
    for (int i = 0; i < n; i++) {
        rows[i][0] = (uint8_t)(i * tables / n);
        make_id(rows[i] + 1, alike);
    }
    qsort(rows, (size_t)n, ROW, by_key);
}

/* Each row's key and as many absent ones, in turn, or in an order that is another each time; how many of all that are asked are there. */
static uint64_t make_asked(int n, int alike, int shuffled)
{
    uint8_t all[2 * ROWS][KEY];
    uint64_t there = 0;
    int place[2 * ROWS];
    for (int i = 0; i < 2 * n; i++) {
        memcpy(all[i], rows[i % n], KEY);
        if (i >= n)
            make_id(all[i] + 1, alike);
        place[i] = i;
    }
    for (int k = 0; k < ASKED; k++) {
        int i = k % (2 * n);
        if (shuffled) {
            int j = i + (int)(chance() % (uint64_t)(2 * n - i)), p = place[i];
            place[i] = place[j];
            place[j] = p;
        }
        there += place[i] < n;
        memcpy(keys[k], all[place[i]], KEY);
        memcpy(ids[k], all[place[i]] + 1, ID);
    }
    return there;
}

static uint64_t ask(int lib, int way, int n)
{
    return calls[lib][way](rows[0], (size_t)n, way == 0 ? keys[0] : ids[0], ASKED);
}

static void check(int way, int n, uint64_t there)
{
    for (int l = 0; l < libs; l++)
        ask(l, way, n) == there ? passed++ : failed++;
}

static void measure(int way, int n, int repeats)
{
    double least[LIBS];
    for (int r = 0; r < repeats; r++)
        for (int l = 0; l < libs; l++) {
            double from = now();
            ask(l, way, n);
            double time = (now() - from) / ASKED;
            if (r == 0 || time < least[l])
                least[l] = time;
        }
    printf("   ");
    for (int l = 0; l < libs; l++)
        printf(" %6.2f", least[l]);
    printf("  %4.2f", least[libs - 1] / least[0]);
}

static void store(int n, int tables, int alike, int shuffled, int repeats)
{
    make_rows(n, tables, alike);
    uint64_t there = make_asked(n, alike, shuffled);
    if (repeats > 0)
        printf("%4d %7d   %-5s   %-8s", n, tables, alike ? "alike" : "any", shuffled ? "shuffled" : "in turn");
    for (int way = 0; way < 2; way++) {
        check(way, n, there);
        if (repeats > 0)
            measure(way, n, repeats);
    }
    if (repeats > 0)
        printf("\n");
}

static void stores(int repeats)
{
    static const int sizes[] = {1, 2, 4, 8, 16, 31, 32}, tables[] = {1, 4};
    for (int shuffled = 0; shuffled < 2; shuffled++)
        for (int alike = 0; alike < 2; alike++)
            for (int t = 0; t < 2; t++)
                for (int s = 0; s < 7; s++)
                    if (tables[t] <= sizes[s])
                        store(sizes[s], tables[t], alike, shuffled, repeats);
}

/* Rows that are not in order have no key and no id. */
static void disordered(void)
{
    make_rows(ROWS, 1, 0);
    make_asked(ROWS, 0, 0);
    uint8_t row[ROW];
    memcpy(row, rows[3], ROW);
    memcpy(rows[3], rows[20], ROW);
    memcpy(rows[20], row, ROW);
    check(0, ROWS, 0);
    check(1, ROWS, 0);
}

static int load(const char *path)
{
    void *lib = dlopen(path, RTLD_NOW | RTLD_LOCAL);
    if (lib == NULL) {
        fprintf(stderr, "lookup: %s\n", dlerror());
        return 0;
    }
    calls[libs][0] = (call)(uintptr_t)dlsym(lib, "lookups_keys");
    calls[libs][1] = (call)(uintptr_t)dlsym(lib, "lookups_ids");
    libs++;
    return calls[libs - 1][0] != NULL && calls[libs - 1][1] != NULL;
}

int main(int argc, char **argv)
{
    int repeats = argc > 1 && strcmp(argv[1], "check") != 0 ? atoi(argv[1]) : 0;
    if (argc < 3 || argc > 2 + LIBS || repeats < 0 || repeats > MOST) {
        fprintf(stderr, "lookup: check or 1 to %d repeats, then 1 to %d libraries\n", MOST, LIBS);
        return 2;
    }
    for (int i = 2; i < argc; i++)
        if (!load(argv[i]))
            return 2;
    if (repeats > 0)
        printf("rows  tables   ids     order        by table and id: ns, last/first    by id alone: ns, last/first\n");
    stores(repeats);
    disordered();
    printf("%lu passed, %lu failed\n", passed, failed);
    return failed != 0;
}
