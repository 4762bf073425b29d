/* Two libraries of include/maqdufesh.h beside each other: each gets the same calls in turn, on buffers of its own; every byte is compared, every call timed.
 *
 *     bench LIBRARY PLAIN [REPEATS | check]
 *
 * On stores of 1, 8, 31 and 32 rows in four tables (indexes, strong and weak references, maxRows): 1,000 requests of which 640 change rows, marks between them, then
 * their records at a mirror, some repeated, some late, and questions to it. An insert that makes a row be collected needs a free row: on 32 rows a delete and insert
 * stands for it. On 32 rows in two chains of strong references: a commit after which no row, one chain or both go, ids ascending, descending and to and fro along a chain.
 * Once with zeros in the output buffers before each call, once with rubbish. REPEATS (5) times; a time is the middle of the repeats' medians, a ratio LIBRARY's to PLAIN's.
 * `check` only compares. After the first repeat, not timed: requests, areas and records with a byte changed, so that neither library may save itself a test.
 * A call passes where both left the same bytes; it fails where they did not, and where it did not do what its kind says. */
#include <dlfcn.h>
#include <signal.h>
#include <stdarg.h>
#include <stdbool.h>
#include <stddef.h>
#include <stdio.h>
#include <stdlib.h>
#include <string.h>
#include <time.h>
#include "maqdufesh.h"

enum { ANSWER = 16384, REQUESTS = 1000, STARTS = 300, SPOILS = 1000, SIZES = 4, FILLS = 2, MOST_REPEATS = 99, MOST_CALLS = 20000, LOG_BYTES = 1 << 22, LOG_ENTRIES = 20000 };
enum { ROWS_AT = 1400, MOST_ROWS = 32, MOST_TOLD = 20, CHAIN = 15, CHAIN_CALLS = 100 };

/* What is told of: sums first, then kinds of calls. A mean is that of the kinds' medians by their shares, which is steadier than a median over
 * kinds of different lengths. Calls that only make a state are SETUP. */
enum line {
    ALL, COMMITS, ALL_MEAN, COMMITS_MEAN, UPDATE, MUTATE, REPLACE, COLLECT, FOUR, BY_NAME, NO_ROW, WHOLE, FAILING, NONE, CHAINS_STAY, CHAIN_GOES, CHAINS_GO, MARK, ARRIVALS, APPLIED, REPEATED, BEHIND, HEARD, PROGRESS, HAS_ROW,
    COLUMN, STORE_START, MIRROR_START, SETUP, SPOILED, LINES
};
static const char *const names[LINES] = {
    "all transacts", "commits that change rows", "all transacts, mean of kinds", "commits, mean of kinds", "update by name", "mutate", "delete and insert", "insert and collect", "four operations", "select by name",
    "select of no row", "select of a table", "failing", "no operation", "two chains, no row goes", "two chains, 15 rows go", "two chains, 30 rows go", "mark", "all arrivals", "arrival, applied", "arrival, repeated", "arrival, before its turn", "arrival, a mark",
    "progress", "has row", "column", "start of a store", "start of a mirror", "setting up", "a byte changed"};

/* How many of 100 requests are of each kind from UPDATE to NONE. */
static const int shares[] = {24, 14, 10, 8, 8, 8, 4, 10, 10, 4};

/* Rows of each table, by size. A tank has a probe, strongly, but for the one tank of the smallest store; alarms weakly. */
static const struct { int tanks, probes, alarms, shifts, all; } sizes[SIZES] = {{1, 0, 0, 0, 1}, {3, 3, 1, 1, 8}, {12, 12, 4, 3, 31}, {12, 12, 5, 3, 32}};

static const char schema_text[] =
    "{'name':'plating','version':'1.0.0','tables':{"
    "'Tank':{'isRoot':true,'maxRows':16,'indexes':[['name'],['place','level']],'columns':{"
    "'name':{'type':'string'},'place':{'type':{'key':{'type':'string','maxLength':12}}},"
    "'level':{'type':{'key':{'type':'integer','minInteger':0,'maxInteger':1000000}}},"
    "'limits':{'type':{'key':'integer','min':0,'max':4}},"
    "'probe':{'type':{'key':{'type':'uuid','refTable':'Probe'},'min':0,'max':1}},"
    "'alarms':{'type':{'key':{'type':'uuid','refTable':'Alarm','refType':'weak'},'min':0,'max':'unlimited'}}}},"
    "'Probe':{'indexes':[['serial']],'columns':{'serial':{'type':'string'},'live':{'type':'boolean'},"
    "'kind':{'type':{'key':{'type':'string','maxLength':12}}}}},"
    "'Alarm':{'isRoot':true,'indexes':[['text']],'columns':{"
    "'text':{'type':{'key':{'type':'string','minLength':1,'maxLength':20}}},'grade':{'type':'integer'}}},"
    "'Shift':{'isRoot':true,'maxRows':3,'columns':{'who':{'type':'string'},'begun':{'type':'integer','mutable':false}}}}}";

/* Two chains of links, each held by a head. */
static const char chains_text[] =
    "{'name':'plating','version':'1.0.0','tables':{"
    "'Head':{'isRoot':true,'columns':{'name':{'type':'string'},'turn':{'type':'integer'},'next':{'type':{'key':{'type':'uuid','refTable':'Link'},'min':0,'max':1}}}},"
    "'Link':{'columns':{'next':{'type':{'key':{'type':'uuid','refTable':'Link'},'min':0,'max':1}}}}}}";

/* Requests that fail, with the error or the refusal that they must get. On a full store it is "resources exhausted" where `inserts`: the row that is one too many comes first. */
static const struct { const char *text, *error; uint32_t refusal; bool inserts; } faults[] = {
    {"['plating',{'op':'update','table':'Tank','where':[['name','==','tank 0']],'row':{'depth':1}}]", "syntax error", 0, false},
    {"['plating',{'op':'select','table':'Vat','where':[]}]", "syntax error", 0, false},
    {"['plating',{'op':'wait','table':'Tank','where':[],'until':'==','columns':['name'],'rows':[],'timeout':0}]", "syntax error", 0, false},
    {"['plating',{'op':'update','table':'Tank','where':[['name','==','tank 0']],'row':{'level':-1}}]", "constraint violation", 0, false},
    {"['plating',{'op':'update','table':'Shift','where':[],'row':{'begun':7}}]", "constraint violation", 0, false},
    {"['plating',{'op':'update','table':'Tank','where':[],'row':{'limits':9}},{'op':'abort'}]", "aborted", 0, false},
    {"['plating',{'op':'insert','table':'Tank','row':{'name':'tank 0','level':999999}}]", "constraint violation", 0, true},
    {"['plating',{'op':'update','table':'Tank','where':[],'row':{'probe':['uuid','deadbeef-0000-4000-8000-0123456789ab']}}]", "referential integrity violation", 0, false},
    {"['plating',{'op':'delete','table':'Shift','where':[]},{'op':'insert','table':'Shift','row':{'who':'a'}},{'op':'insert','table':'Shift','row':{'who':'b'}},"
     "{'op':'insert','table':'Shift','row':{'who':'c'}},{'op':'insert','table':'Shift','row':{'who':'d'}}]", "constraint violation", 0, true},
    {"['plating',{'op':'mutate','table':'Tank','where':[['name','==','tank 0']],'mutations':[['level','/=',0]]}]", "domain error", 0, false},
    {"['plating',{'op':'mutate','table':'Tank','where':[],'mutations':[['level','*=',9223372036854775807]]}]", "range error", 0, false},
    {"['plating',{'op':'delete','table':'Tank','where':[['name','==','tank 0']]},{'op':'insert','table':'Probe','row':{'serial':'x'},'uuid-name':'p'},"
     "{'op':'insert','table':'Probe','row':{'serial':'y'},'uuid-name':'p'}]", "duplicate uuid-name", 0, true},
    {"['plating',{'op':'update','table':'Tank','where':[],'row':{'name':'a name of twenty-five byte'}}]", "resources exhausted", 0, false},
    {"['plating',{'op':'select','table':'Tank','where':[]},]", NULL, MAQ_BAD_REQUEST, false},
    {"['planting',{'op':'select','table':'Tank','where':[]}]", NULL, MAQ_OTHER_DATABASE, false},
};
enum { FAULTS = sizeof faults / sizeof *faults };

/* ---- The libraries, their buffers, and one call. */

struct library {
    uint64_t (*store_len)(void), (*mirror_len)(void);
    uint32_t (*store_start)(uint8_t *, size_t, const uint8_t *, size_t, uint32_t);
    uint32_t (*transact)(uint8_t *, size_t, const uint8_t *, size_t, const uint8_t *, size_t, uint8_t *, size_t, uint8_t *, size_t);
    uint32_t (*mark)(const uint8_t *, size_t, uint8_t *, size_t);
    uint32_t (*mirror_start)(uint8_t *, size_t, const uint8_t *, size_t, uint32_t);
    uint32_t (*hear)(uint8_t *, size_t, const uint8_t *, size_t);
    uint32_t (*progress)(const uint8_t *, size_t, uint8_t *, size_t);
    uint32_t (*has_row)(const uint8_t *, size_t, uint32_t, const uint8_t *, uint8_t *, size_t);
    uint32_t (*column)(const uint8_t *, size_t, uint32_t, const uint8_t *, uint32_t, uint8_t *, size_t);
};

/* All that a call may write, and its result. The gaps that alignment leaves are compared too. */
struct buffers {
    _Alignas(64) uint8_t area[MAQ_STORE_AREA];
    _Alignas(64) uint8_t mirror[MAQ_MIRROR_AREA];
    _Alignas(64) uint8_t records[MAQ_LEAST_RECORDS];
    _Alignas(64) uint8_t answer[ANSWER];
    _Alignas(64) uint8_t mark[MAQ_MARK];
    _Alignas(64) uint8_t progress[MAQ_PROGRESS];
    _Alignas(64) uint8_t has_row[1];
    _Alignas(64) uint8_t column[MAQ_COLUMN];
    _Alignas(64) uint32_t said;
};
static const struct { const char *name; size_t at; } parts[] = {
    {"result", offsetof(struct buffers, said)}, {"column", offsetof(struct buffers, column)}, {"has row", offsetof(struct buffers, has_row)},
    {"progress", offsetof(struct buffers, progress)}, {"mark", offsetof(struct buffers, mark)}, {"answer", offsetof(struct buffers, answer)},
    {"records", offsetof(struct buffers, records)}, {"mirror's area", offsetof(struct buffers, mirror)}, {"area", offsetof(struct buffers, area)}};

static struct library libraries[2];
static struct buffers sides[2] __attribute__((aligned(4096)));
static uint8_t rubbish[MAQ_LEAST_RECORDS];
static bool rubbishy;

/* What a call reads. */
static uint8_t schema[4096], fresh[MAQ_FRESH];
static char request[8192];
static size_t schema_len, request_len, answer_len = ANSWER;
static const uint8_t *record;
static size_t record_len;

/* Samples of a repeat, and the medians of all repeats, in nanoseconds. */
static uint32_t samples[LINES][2][MOST_CALLS];
static size_t taken[LINES];
static double medians[SIZES][FILLS][LINES][MOST_REPEATS][2];

static unsigned long long passed, failed, compared, calls, turns[LINES];

static enum line current;             /* the line of the call that runs */

static uint64_t now(void) {
    struct timespec t;
    clock_gettime(CLOCK_MONOTONIC, &t);
    return (uint64_t)t.tv_sec * 1000000000u + (uint64_t)t.tv_nsec;
}

static uint32_t call(const struct library *l, struct buffers *b, enum line line) {
    uint32_t table = record == NULL ? 0 : record[9];
    switch (line) {
    case STORE_START: return l->store_start(b->area, sizeof b->area, schema, schema_len, 1);
    case MIRROR_START: return l->mirror_start(b->mirror, sizeof b->mirror, schema, schema_len, 1);
    case MARK: return l->mark(b->area, sizeof b->area, b->mark, sizeof b->mark);
    case APPLIED: return l->hear(b->mirror, sizeof b->mirror, record, record_len);
    case PROGRESS: return l->progress(b->mirror, sizeof b->mirror, b->progress, sizeof b->progress);
    case HAS_ROW: return l->has_row(b->mirror, sizeof b->mirror, table, record + 10, b->has_row, sizeof b->has_row);
    case COLUMN: return l->column(b->mirror, sizeof b->mirror, table, record + 10, record[26], b->column, sizeof b->column);
    default: return l->transact(b->area, sizeof b->area, (const uint8_t *)request, request_len, fresh, sizeof fresh, b->records, sizeof b->records, b->answer, answer_len);
    }
}

static void fill(uint8_t *bytes, size_t len) {
    if (rubbishy) memcpy(bytes, rubbish, len);
    else memset(bytes, 0, len);
}

/* Zeros or rubbish where a call must write all. */
static void prepare(struct buffers *b, enum line line) {
    switch (line) {
    case STORE_START: fill(b->area, sizeof b->area); break;
    case MIRROR_START: fill(b->mirror, sizeof b->mirror); break;
    case MARK: fill(b->mark, sizeof b->mark); break;
    case APPLIED: break;
    case PROGRESS: fill(b->progress, sizeof b->progress); break;
    case HAS_ROW: fill(b->has_row, sizeof b->has_row); break;
    case COLUMN: fill(b->column, sizeof b->column); break;
    default: fill(b->records, sizeof b->records); fill(b->answer, sizeof b->answer);
    }
}

static void keep(enum line line, const uint32_t took[2]) {
    if (taken[line] == MOST_CALLS) return;
    for (int s = 0; s < 2; s++) samples[line][s][taken[line]] = took[s];
    taken[line]++;
}

/* Tells of a failure: the request, and the first library's answer with points for what is not ASCII. */
static void fault(enum line line, const char *what) {
    char answer[200];
    size_t len = 0;
    if (failed++ >= MOST_TOLD) return;
    for (; len < sizeof answer - 1 && sides[0].answer[len] != 0; len++) answer[len] = sides[0].answer[len] >= 32 && sides[0].answer[len] < 127 ? (char)sides[0].answer[len] : '.';
    answer[len] = 0;
    fprintf(stderr, "call %llu, %s: %s; status %u, last request %.*s, answer %s\n", calls, names[line], what, sides[0].said, (int)request_len, request, answer);
}

/* Where the two differ first; then they are made alike, so that the next difference is another. */
static void tell_difference(enum line line) {
    const uint8_t *a = (const uint8_t *)&sides[0], *b = (const uint8_t *)&sides[1];
    size_t at = 0, part = 0;
    char what[120];
    while (a[at] == b[at]) at++;
    while (parts[part].at > at) part++;
    snprintf(what, sizeof what, "%s differs, byte %zu: %02x and %02x", parts[part].name, at - parts[part].at, a[at], b[at]);
    fault(line, what);
    sides[1] = sides[0];
}

/* The call of one kind, timed as one of another, by both libraries: which is first alternates. */
static void both(enum line kind, enum line line) {
    uint32_t took[2];
    int first = (int)(turns[line]++ & 1);
    calls++;
    current = line;
    for (int i = 0; i < 2; i++) prepare(&sides[first ^ i], kind);
    for (int i = 0; i < 2; i++) {
        int s = first ^ i;
        uint64_t since = now();
        uint32_t said = call(&libraries[s], &sides[s], kind);
        took[s] = (uint32_t)(now() - since);
        sides[s].said = said;
    }
    compared += sizeof sides[0];
    if (memcmp(&sides[0], &sides[1], sizeof sides[0]) == 0) passed++;
    else tell_difference(line);
    keep(line, took);
    if (line >= UPDATE && line <= NONE) keep(ALL, took);
    if (line >= UPDATE && line <= FOUR) keep(COMMITS, took);
    if (line >= APPLIED && line <= HEARD) keep(ARRIVALS, took);
}

static void must(bool holds, enum line line, const char *what) {
    if (!holds) fault(line, what);
}

/* ---- Requests. */

static int size;                      /* of sizes */
static struct { uint8_t probes[16][16], alarms[5][16]; } ids, kept_ids;
static unsigned long transacts;

/* What the request at hand must do. A row that is inserted and collected at once is unseen: no record tells of it. */
static struct { int inserts, deletes, unseen, shown; const char *error; uint32_t refusal; } plan;

/* Adds to the request, with quotes for apostrophes. */
static void say(const char *form, ...) {
    va_list rest;
    va_start(rest, form);
    size_t from = request_len;
    request_len += (size_t)vsnprintf(request + from, sizeof request - from, form, rest);
    va_end(rest);
    for (; from < request_len; from++)
        if (request[from] == '\'') request[from] = '"';
}

static void say_uuid(const uint8_t *id) {
    say("['uuid','");
    for (int i = 0; i < 16; i++) say(i == 4 || i == 6 || i == 8 || i == 10 ? "-%02x" : "%02x", id[i]);
    say("']");
}

static void begin(void) {
    request_len = 0;
    memset(&plan, 0, sizeof plan);
    memset(fresh, 0, sizeof fresh);
    transacts++;
    for (int i = 0; i < 16; i++) {
        for (int k = 0; k < 4; k++) fresh[16 * i + k] = (uint8_t)(transacts * 2654435761u >> (24 - 8 * k));
        for (int k = 0; k < 4; k++) fresh[16 * i + 4 + k] = (uint8_t)(transacts >> (24 - 8 * k));
        fresh[16 * i + 15] = (uint8_t)(i + 1);
    }
}

/* A level that no tank has had: by request and tank. A mutation adds 16. */
static int level(int n, int tank) { return 32 * (n + 1) + tank; }

static void say_tank(int n, int k) {
    say("{'op':'insert','table':'Tank','row':{'name':'tank %d','place':'hall %d','level':%d,'limits':['set',[3,1,2]]", k, n % 3, level(n, k));
}

static void ask_update(int n, int k) {
    say("['plating',{'op':'update','table':'Tank','where':[['name','==','tank %d']],'row':{'level':%d,'place':'hall %d'}}]", k, level(n, k), n % 3);
}

static void ask_mutate(int n, int k) {
    say("['plating',{'op':'mutate','table':'Tank','where':[['name','==','tank %d']],'mutations':[['level','+=',16],['limits','delete',%d],['limits','insert',['set',[%d]]]]}]", k,
        3 + n % 2, 4 - n % 2);
}

/* A tank, or an alarm, which tanks refer to weakly. */
static void ask_replace(int n, int k) {
    int alarms = sizes[size].alarms, a = alarms == 0 ? 0 : n % alarms;
    plan.inserts = plan.deletes = 1;
    if (alarms > 0 && n % 3 == 0) {
        say("['plating',{'op':'delete','table':'Alarm','where':[['text','==','alarm %d']]},{'op':'insert','table':'Alarm','row':{'text':'alarm %d','grade':%d}}]", a, a, n);
        memcpy(ids.alarms[a], fresh + 16, 16);
        return;
    }
    say("['plating',{'op':'delete','table':'Tank','where':[['name','==','tank %d']]},", k);
    say_tank(n, k);
    if (sizes[size].probes > 0) {
        say(",'probe':");
        say_uuid(ids.probes[k]);
    }
    if (alarms > 0) {
        say(",'alarms':");
        say_uuid(ids.alarms[a]);
    }
    say("}}]");
}

/* A new probe for a tank; the old one has no tank then, and goes. Where tanks have none the new one goes. */
static void ask_collect(int n, int k) {
    plan.inserts = 1;
    plan.unseen = sizes[size].probes == 0;
    say("['plating',{'op':'insert','table':'Probe','row':{'serial':'serial %d','live':true,'kind':'pH'},'uuid-name':'p'},", n);
    say("{'op':'update','table':'Tank','where':[['name','==','tank %d']],'row':{", k);
    if (plan.unseen) say("'level':%d}}]", level(n, k));
    else say("'probe':['named-uuid','p']}}]");
    memcpy(ids.probes[k], fresh, 16);
}

static void ask_four(int n, int k) {
    int alarms = sizes[size].alarms, other = (k + 1) % sizes[size].tanks;
    plan.shown = 1;
    say("['plating',{'op':'update','table':'Tank','where':[['name','==','tank %d']],'row':{'level':%d}},", k, level(n, k));
    say("{'op':'mutate','table':'Tank','where':[['name','==','tank %d']],'mutations':[['level','+=',16]", other);
    if (alarms > 0) {
        say(",['alarms','insert',");
        say_uuid(ids.alarms[n % alarms]);
        say("]");
    }
    say("]},");
    if (sizes[size].probes > 0) {
        say("{'op':'update','table':'Probe','where':[['_uuid','==',");
        say_uuid(ids.probes[k]);
        say("]],'row':{'live':%s,'kind':'kind %d'}},", n % 2 == 0 ? "true" : "false", n);
    } else say("{'op':'update','table':'Tank','where':[],'row':{'place':'place %d'}},", n);
    say("{'op':'select','table':'Tank','where':[['name','==','tank %d'],['limits','includes',1]]}]", other);
}

static void ask_whole(int n) {
    static const char *const tables[] = {"Tank", "Probe", "Tank", "Alarm", "Tank", "Tank", "Shift", "Tank"};
    const char *table = tables[n / 10 % 8];
    plan.shown = *table == 'A' ? sizes[size].alarms : *table == 'S' ? sizes[size].shifts : *table == 'P' ? sizes[size].probes : sizes[size].tanks;
    say("['plating',{'op':'select','table':'%s','where':[]}]", table);
}

static void ask_failing(int n) {
    int i = n % FAULTS;
    plan.error = faults[i].inserts && sizes[size].all == MOST_ROWS ? "resources exhausted" : faults[i].error;
    plan.refusal = faults[i].refusal;
    say("%s", faults[i].text);
}

static int failing;                   /* requests of the run so far that were to fail */

static void ask(enum line line, int n) {
    int k = (n * 7 + n / 100) % sizes[size].tanks;
    begin();
    switch (line) {
    case UPDATE: ask_update(n, k); break;
    case MUTATE: ask_mutate(n, k); break;
    case REPLACE: ask_replace(n, k); break;
    case COLLECT: ask_collect(n, k); break;
    case FOUR: ask_four(n, k); break;
    case BY_NAME: plan.shown = 1; say("['plating',{'op':'select','table':'Tank','where':[['name','==','tank %d']]}]", k); break;
    case NO_ROW: say("['plating',{'op':'select','table':'Tank','where':[['name','==','tank %d']]}]", 100 + k); break;
    case WHOLE: ask_whole(n); break;
    case FAILING: ask_failing(failing++); break;
    default: say("['plating']");
    }
}

/* ---- What a request did, and whether its kind is to do that. */

static struct counts { int changed, errors, refused, inserted, deleted, collected, selected; } counts[SIZES];
static uint8_t before[MAQ_STORE_AREA];
static int born, gone, columns;       /* records of the last transact */

static uint8_t record_log[LOG_BYTES];
static struct { size_t at, len; } entries[LOG_ENTRIES];
static size_t entry_count, set_up_count;

static size_t length_of(uint8_t kind) { return kind == 1 || kind == 2 ? 26 : kind == 3 ? 128 : kind == 4 || kind == 5 ? 9 : 0; }

static void log_entry(const uint8_t *bytes, size_t len) {
    size_t at = entry_count == 0 ? 0 : entries[entry_count - 1].at + entries[entry_count - 1].len;
    if (entry_count == LOG_ENTRIES || at + len > LOG_BYTES) exit(3);
    memcpy(record_log + at, bytes, len);
    entries[entry_count].at = at;
    entries[entry_count++].len = len;
}

/* The last transact's records into the log. */
static void log_records(void) {
    const uint8_t *r = sides[0].records;
    size_t at = 0, len;
    born = gone = columns = 0;
    while (at < MAQ_LEAST_RECORDS && (len = length_of(r[at])) != 0) {
        born += r[at] == 1;
        gone += r[at] == 2;
        columns += r[at] == 3;
        log_entry(r + at, len);
        at += len;
    }
}

/* The first library's answer, with an end. */
static const char *answer_text(void) {
    static char text[ANSWER + 1];
    const uint8_t *end = memchr(sides[0].answer, 0, answer_len);
    size_t len = end == NULL ? answer_len : (size_t)(end - sides[0].answer);
    memcpy(text, sides[0].answer, len);
    text[len] = 0;
    return text;
}

static int times_in(const char *text, const char *word) {
    int n = 0;
    while ((text = strstr(text, word)) != NULL) n++, text++;
    return n;
}

/* A commit that changed rows: no other number of rows, and its records are those of its kind. */
static void check_commit(enum line line, bool changed, int collected) {
    must(changed && columns > 0, line, "changed nothing");
    must(born == plan.inserts - plan.unseen && gone == plan.deletes + collected - plan.unseen, line, "records of other rows");
    must(collected == (line == COLLECT), line, "collected another number of rows");
    if (line == FOUR) must(times_in(answer_text(), "\"count\":1") == 3, line, "not four operations on a row each");
}

static void check(enum line line) {
    const char *answer = answer_text();
    bool changed = memcmp(before, sides[0].area, sizeof before) != 0, error = strstr(answer, "\"error\"") != NULL;
    bool commits = line >= UPDATE && line <= FOUR;
    int rows = sides[0].area[ROWS_AT], collected = commits ? before[ROWS_AT] + plan.inserts - plan.deletes - rows : 0;
    char told[64];
    snprintf(told, sizeof told, "{\"error\":\"%s\"}", plan.error == NULL ? "" : plan.error);
    must(rows == sizes[size].all, line, "another number of rows");
    must(sides[0].said == plan.refusal, line, "another status");
    must(plan.error == NULL ? !error : strstr(answer, told) != NULL, line, "another error");
    must(times_in(answer, "\"_uuid\"") == plan.shown, line, "another number of rows shown");
    must(sides[0].answer[ANSWER - 1] == 0 && sides[0].records[MAQ_LEAST_RECORDS - 1] == 0, line, "a buffer's last byte is not zero");
    if (commits) check_commit(line, changed, collected);
    else must(!changed && sides[0].records[0] == 0, line, "changed something");
    if (line == NONE) must(strcmp(answer, "[]") == 0, line, "another answer");
    counts[size].changed += changed;
    counts[size].errors += error;
    counts[size].refused += sides[0].said != MAQ_ACCEPTED;
    counts[size].inserted += commits ? plan.inserts : 0;
    counts[size].deleted += commits ? plan.deletes : 0;
    counts[size].collected += collected;
    counts[size].selected += line == BY_NAME || line == NO_ROW || line == WHOLE;
}

/* ---- A store of a size, its requests, and a mirror. */

static void set_up_row(void) {
    both(SETUP, SETUP);
    must(sides[0].said == MAQ_ACCEPTED && strstr(answer_text(), "error") == NULL, SETUP, "no row made");
    log_records();
}

static void make_schema(const char *text, size_t len) {
    schema_len = len;
    for (size_t i = 0; i < len; i++) schema[i] = text[i] == '\'' ? '"' : (uint8_t)text[i];
}

static void set_up(void) {
    failing = 0;
    entry_count = 0;
    both(STORE_START, SETUP);
    for (int a = 0; a < sizes[size].alarms; a++) {
        begin();
        say("['plating',{'op':'insert','table':'Alarm','row':{'text':'alarm %d','grade':%d}}]", a, a);
        memcpy(ids.alarms[a], fresh, 16);
        set_up_row();
    }
    for (int k = 0; k < sizes[size].tanks; k++) {
        begin();
        say("['plating',");
        if (sizes[size].probes > 0) say("{'op':'insert','table':'Probe','row':{'serial':'first %d'},'uuid-name':'p'},", k);
        say_tank(0, k);
        if (sizes[size].probes > 0) say(",'probe':['named-uuid','p']");
        say("}}]");
        memcpy(ids.probes[k], fresh, 16);
        set_up_row();
    }
    for (int i = 0; i < sizes[size].shifts; i++) {
        begin();
        say("['plating',{'op':'insert','table':'Shift','row':{'who':'shift %d','begun':%d}}]", i, 6 + 8 * i);
        set_up_row();
    }
    must(sides[0].area[ROWS_AT] == sizes[size].all, SETUP, "another number of rows");
    set_up_count = entry_count;
}

/* The kind of request n: kinds by their shares, 37 apart. A full store has no row for an insert before another goes. */
static enum line kind_of(int n) {
    int place = n * 37 % 100, line = 0;
    while (place >= shares[line]) place -= shares[line++];
    return UPDATE + line == COLLECT && sizes[size].all == MOST_ROWS ? REPLACE : (enum line)(UPDATE + line);
}

static void run_requests(void) {
    for (int n = 1; n <= REQUESTS; n++) {
        enum line line = kind_of(n);
        ask(line, n);
        memcpy(before, sides[0].area, sizeof before);
        both(line, line);
        log_records();
        check(line);
        if (n % 4 != 0) continue;
        both(MARK, MARK);
        must(sides[0].said == MAQ_ACCEPTED && sides[0].mark[0] == 5 && memcmp(sides[0].mark + 1, sides[0].area, 8) == 0, MARK, "another mark");
        log_entry(sides[0].mark, MAQ_MARK);
    }
}

static void hear(size_t i, enum line line, uint32_t expected) {
    record = record_log + entries[i].at;
    record_len = entries[i].len;
    both(APPLIED, line);
    must(sides[0].said == expected, line, "another status");
}

/* Questions about the record that was applied last. */
static void ask_mirror(void) {
    both(PROGRESS, PROGRESS);
    must(sides[0].said == MAQ_ACCEPTED && memcmp(sides[0].progress, record + 5, 4) == 0, PROGRESS, "another number");
    if (*record > 3) return;
    both(HAS_ROW, HAS_ROW);
    must(sides[0].said == MAQ_ACCEPTED && *sides[0].has_row == (*record != 2), HAS_ROW, "another answer");
    if (*record < 3) return;
    both(COLUMN, COLUMN);
    must(sides[0].said == MAQ_ACCEPTED && memcmp(sides[0].column, record + 27, MAQ_COLUMN) == 0, COLUMN, "another value");
}

static bool is_mark(size_t i) { return record_log[entries[i].at] == 5; }

/* The log at a mirror: of 8 records one is lost until the next was heard, one comes twice. At the end its rows are the store's. */
static void run_mirror(void) {
    both(MIRROR_START, SETUP);
    for (size_t i = 0; i < set_up_count; i++) hear(i, SETUP, MAQ_APPLIED);
    for (size_t i = set_up_count; i < entry_count; i++) {
        if (is_mark(i)) {
            hear(i, HEARD, MAQ_HEARD);
            continue;
        }
        if (i % 8 == 5 && i + 1 < entry_count && !is_mark(i + 1)) hear(i + 1, BEHIND, MAQ_BEHIND);
        hear(i, APPLIED, MAQ_APPLIED);
        if (i % 8 == 2) hear(i, REPEATED, MAQ_REPEAT);
        if (i % 4 == 1) ask_mirror();
    }
    both(PROGRESS, PROGRESS);
    must(sides[0].progress[4] == 1, PROGRESS, "not level");
    must(memcmp(sides[0].mirror, sides[0].area, MAQ_STORE_AREA) == 0, PROGRESS, "the mirror's rows are not the store's");
}

/* ---- Collection along chains. */

static struct buffers kept;

/* What link i of a chain is in order of ids: they ascend, descend, or go to and fro along it. */
static int place_of(int order, int i) { return order == 0 ? i : order == 1 ? CHAIN - 1 - i : i % 2 == 0 ? i / 2 : CHAIN - 1 - i / 2; }

/* A chain: its links by their ids, then the head. */
static void set_up_chain(int head, int order) {
    int link[CHAIN];
    for (int i = 0; i < CHAIN; i++) link[place_of(order, i)] = i;
    begin();
    say("['plating',");
    for (int at = 0; at < CHAIN; at++) {
        say("{'op':'insert','table':'Link','uuid-name':'l%d','row':{", link[at]);
        if (link[at] + 1 < CHAIN) say("'next':['named-uuid','l%d']", link[at] + 1);
        say("}},");
    }
    say("{'op':'insert','table':'Head','row':{'name':'head %d','next':['named-uuid','l0']}}]", head);
    set_up_row();
}

static void ask_chains(enum line line, int turn) {
    begin();
    say("['plating',{'op':'update','table':'Head','where':[");
    if (line == CHAIN_GOES) say("['name','==','head %d']", turn % 2);
    say("],'row':{'turn':%d", turn + 1);
    if (line != CHAINS_STAY) say(",'next':['set',[]]");
    say("}}]");
}

/* Each call is undone before the next. */
static void run_chains(void) {
    static const int left[] = {2 * CHAIN + 2, CHAIN + 2, 2};
    make_schema(chains_text, sizeof chains_text - 1);
    for (int order = 0; order < 3; order++) {
        entry_count = 0;
        both(STORE_START, SETUP);
        for (int head = 0; head < 2; head++) set_up_chain(head, order);
        kept = sides[0];
        for (int i = 0; i < 3 * CHAIN_CALLS; i++) {
            enum line line = (enum line)(CHAINS_STAY + i % 3);
            for (int s = 0; s < 2; s++) sides[s] = kept;
            ask_chains(line, i / 3);
            both(line, line);
            must(sides[0].said == MAQ_ACCEPTED && sides[0].area[ROWS_AT] == left[i % 3], line, "another number of rows left");
        }
    }
    make_schema(schema_text, sizeof schema_text - 1);
}

/* ---- A byte changed. */

static uint32_t seed = 1;
static unsigned statuses[104], spoiled_errors;

static uint32_t any(uint32_t below) {
    seed = seed * 1664525u + 1013904223u;
    return (uint32_t)((uint64_t)seed * below >> 32);
}

/* A call, whose effect is undone. */
static void spoiled(enum line kind) {
    both(kind, SPOILED);
    statuses[sides[0].said < 104 ? sides[0].said : 103]++;
    spoiled_errors += kind == SPOILED && strstr(answer_text(), "\"error\"") != NULL;
    for (int s = 0; s < 2; s++) sides[s] = kept;
    ids = kept_ids;
    answer_len = ANSWER;
}

/* A request in which a byte is another, or one that gets little room for its answer. */
static void spoil_request(int i) {
    static const char likely[] = "\"\"[]{}:,,019-.eE\\u _apt=<>!";
    ask(kind_of(i), REQUESTS + i);
    if (i % 8 == 0) answer_len = 64 + any(200);
    else if (i % 8 == 1) memmove(fresh + 16 * any(16), i % 3 == 0 ? sides[0].area + ROWS_AT + 2 : fresh + 16 * any(16), 16);
    else request[any((uint32_t)request_len)] = i % 4 == 2 ? (char)any(256) : likely[any(sizeof likely - 1)];
    spoiled(SPOILED);
}

/* An area in which a byte is another, or whose numbers are nearly spent. */
static void spoil_area(int i) {
    uint32_t at = any(i % 4 == 0 ? MAQ_STORE_AREA : ROWS_AT + 1 + 625 * (uint32_t)sizes[size].all), bit = 1u << any(8);
    ask(kind_of(i), REQUESTS + i);
    for (int s = 0; s < 2; s++) {
        if (i % 8 == 0) memset(sides[s].area + 4, 255, 4);
        else sides[s].area[at] ^= (uint8_t)bit;
        sides[s].mirror[i % 16 == 1 ? MAQ_STORE_AREA + at % 6 : at] ^= (uint8_t)bit;
    }
    spoiled(i % 3 == 0 ? MARK : i % 3 == 1 ? SPOILED : PROGRESS);
}

/* Any record of the log as the next one, half of them with a byte that is another. */
static void spoil_record(int i) {
    uint8_t bytes[128];
    size_t entry = any((uint32_t)entry_count);
    uint32_t number = 1;
    record_len = entries[entry].len;
    memcpy(bytes, record_log + entries[entry].at, record_len);
    for (int k = 4; k-- > 0; number >>= 8) {
        number += sides[0].mirror[4 + k];
        bytes[5 + k] = (uint8_t)number;
    }
    if (i % 2 == 0) bytes[any((uint32_t)record_len)] ^= (uint8_t)(1u << any(8));
    if (i % 32 == 1) record_len--;
    record = bytes;
    spoiled(APPLIED);
    record = NULL;
}

static void run_spoiled(void) {
    kept = sides[0];
    kept_ids = ids;
    for (int i = 1; i <= SPOILS; i++) {
        spoil_request(i);
        spoil_area(i);
        spoil_record(i);
    }
}

static void run_starts(void) {
    for (int i = 0; i < STARTS; i++) {
        both(STORE_START, STORE_START);
        must(sides[0].said == MAQ_ACCEPTED, STORE_START, "refused");
        both(MIRROR_START, MIRROR_START);
        must(sides[0].said == MAQ_ACCEPTED, MIRROR_START, "refused");
    }
}

/* ---- Medians and the table. */

static int by_number(const void *a, const void *b) {
    uint32_t x = *(const uint32_t *)a, y = *(const uint32_t *)b;
    return x < y ? -1 : x > y;
}

static int by_size(const void *a, const void *b) {
    double x = *(const double *)a, y = *(const double *)b;
    return x < y ? -1 : x > y;
}

static double median(uint32_t *of, size_t count) {
    if (count == 0) return 0;
    qsort(of, count, sizeof *of, by_number);
    return count % 2 == 1 ? of[count / 2] : (of[count / 2 - 1] + (double)of[count / 2]) / 2;
}

/* The mean of the kinds' medians up to a last kind, by their shares. A kind that the size does not have is left out. */
static double mean_to(enum line last, int fills, int repeat, int s) {
    double sum = 0, share = 0;
    for (int line = UPDATE; line <= (int)last; line++) {
        if (taken[line] == 0) continue;
        sum += shares[line - UPDATE] * medians[size][fills][line][repeat][s];
        share += shares[line - UPDATE];
    }
    return sum / share;
}

static void run(int repeat, int fills) {
    rubbishy = fills == 1;
    memset(taken, 0, sizeof taken);
    memset(&counts[size], 0, sizeof counts[size]);
    if (size == 0) run_starts();
    set_up();
    run_requests();
    run_mirror();
    if (repeat == 0) run_spoiled();
    if (sizes[size].all == MOST_ROWS) run_chains();
    for (int line = 0; line < LINES; line++)
        for (int s = 0; s < 2; s++) medians[size][fills][line][repeat][s] = median(samples[line][s], taken[line]);
    for (int s = 0; s < 2; s++) {
        medians[size][fills][ALL_MEAN][repeat][s] = mean_to(NONE, fills, repeat, s);
        medians[size][fills][COMMITS_MEAN][repeat][s] = mean_to(FOUR, fills, repeat, s);
    }
}

/* The middle, the least and the most over the repeats: of a library's time, or of the ratio (s is 2). */
static void over(int fills, int line, int s, int repeats, double found[3]) {
    double all[MOST_REPEATS];
    for (int i = 0; i < repeats; i++) {
        const double *m = medians[size][fills][line][i];
        all[i] = s < 2 ? m[s] / 1000 : m[1] > 0 ? m[0] / m[1] : 0;
    }
    qsort(all, (size_t)repeats, sizeof *all, by_size);
    found[0] = repeats % 2 == 1 ? all[repeats / 2] : (all[repeats / 2 - 1] + all[repeats / 2]) / 2;
    found[1] = all[0];
    found[2] = all[repeats - 1];
}

static void tell_line(int line, int repeats) {
    double own[3], plain[3], zeroed[3], filled[3];
    char rows[12] = "";
    over(0, line, 0, repeats, own);
    over(0, line, 1, repeats, plain);
    over(0, line, 2, repeats, zeroed);
    over(1, line, 2, repeats, filled);
    if (own[0] <= 0) return;
    if (line < STORE_START) snprintf(rows, sizeof rows, "%d", sizes[size].all);
    printf("| %s | %s | %.2f | %.2f | %.2f | %.2f to %.2f | %.2f | %.2f to %.2f |\n", size == 0 || (line >= CHAINS_STAY && line <= CHAINS_GO) ? names[line] : "", rows, own[0], plain[0], zeroed[0], zeroed[1],
           zeroed[2], filled[0], filled[1], filled[2]);
}

static void tell_table(int repeats) {
    printf("| Call | Rows | Project, us | Plain, us | Ratio, zeroed | least to most | Ratio, rubbish | least to most |\n|---|---|---|---|---|---|---|---|\n");
    for (int line = 0; line < SETUP; line++)
        for (size = 0; size < (line < STORE_START ? SIZES : 1); size++) tell_line(line, repeats);
    printf("\n");
}

static uint32_t floor_of(int what) {
    uint64_t since = now();
    if (what == 1) memcpy(before, sides[0].area, sizeof before);
    if (what == 2) {
        memset(sides[0].records, 0, sizeof sides[0].records);
        memset(sides[0].answer, 0, sizeof sides[0].answer);
    }
    __asm__ volatile("" : : "r"(before), "r"(&sides[0]) : "memory");
    return (uint32_t)(now() - since);
}

static void tell_floors(void) {
    double floors[3];
    for (int what = 0; what < 3; what++) {
        for (int i = 0; i < 1000; i++) samples[SETUP][0][i] = floor_of(what);
        floors[what] = median(samples[SETUP][0], 1000) / 1000;
    }
    printf("Floors, each with the timer's own: copying an area %.2f us, zeroing both output buffers %.2f us, the timer %.3f us.\n", floors[1], floors[2], floors[0]);
}

/* What the requests of one run did, by size: it must be what their shares say. */
static void tell_mix(void) {
    int commits = 0, faulty = shares[FAILING - UPDATE] * REQUESTS / 100, collects = shares[COLLECT - UPDATE] * REQUESTS / 100;
    for (int line = UPDATE; line <= FOUR; line++) commits += shares[line - UPDATE] * REQUESTS / 100;
    for (size = 0; size < SIZES; size++) {
        const struct counts *c = &counts[size];
        printf("%d rows: of %d requests %d changed rows, %d selected, %d gave an error, %d were refused; %d rows inserted, %d deleted, %d collected.\n", sizes[size].all,
               REQUESTS, c->changed, c->selected, c->errors, c->refused, c->inserted, c->deleted, c->collected);
        must(c->changed == commits && 2 * c->changed >= REQUESTS, ALL, "another number of requests changed rows");
        must(c->errors + c->refused == faulty && c->errors > 0 && c->refused > 0, FAILING, "another number of requests failed");
        must(c->collected == (sizes[size].all == MOST_ROWS ? 0 : collects) && c->inserted == c->deleted + c->collected, COLLECT, "another number of rows collected");
    }
}

/* How often a call with a byte changed got each status. */
static void tell_spoiled(void) {
    printf("With a byte changed, not timed:");
    for (int i = 0; i < 104; i++)
        if (statuses[i] > 0) printf(" status %d %u times,", i, statuses[i]);
    printf(" and an error in the answer %u times.\n", spoiled_errors);
    must(statuses[0] > 0 && statuses[1] > 0 && statuses[4] > 0 && statuses[6] > 0 && statuses[7] > 0 && statuses[8] > 0, SPOILED, "too few kinds of refusals");
}

/* ---- The program. */

static void *need(void *handle, const char *name) {
    void *found = dlsym(handle, name);
    if (found == NULL) {
        fprintf(stderr, "bench: %s\n", dlerror());
        exit(2);
    }
    return found;
}

/* The functions of a library, in the order of struct library, which has nothing else. */
static void load(struct library *l, const char *path) {
    static const char *const functions[] = {"store_area_len", "mirror_area_len", "store_start", "store_transact", "store_mark", "mirror_start", "mirror_hear",
                                            "mirror_progress", "mirror_has_row", "mirror_column"};
    void *found[sizeof functions / sizeof *functions], *handle = dlopen(path, RTLD_NOW | RTLD_LOCAL);
    char name[40];
    _Static_assert(sizeof found == sizeof *l, "a function for each name");
    if (handle == NULL) {
        fprintf(stderr, "bench: %s\n", dlerror());
        exit(2);
    }
    for (size_t i = 0; i < sizeof functions / sizeof *functions; i++) {
        snprintf(name, sizeof name, "maq_%s", functions[i]);
        found[i] = need(handle, name);
    }
    memcpy(l, found, sizeof found);
    must(l->store_len() == MAQ_STORE_AREA && l->mirror_len() == MAQ_MIRROR_AREA, SETUP, "another length of an area");
}

static void make_inputs(void) {
    make_schema(schema_text, sizeof schema_text - 1);
    for (size_t i = 0; i < sizeof rubbish; i++) rubbish[i] = (uint8_t)(1 + any(255));
}

/* A library that panics or crashes ends the program, as a failure. */
static void crashed(int signal_number) {
    fault(current, signal_number == SIGABRT ? "a library aborted" : "a library crashed");
    printf("%llu passed, %llu failed\n", passed, failed);
    fflush(NULL);
    _Exit(1);
}

int main(int argc, char **argv) {
    bool only_check = argc == 4 && strcmp(argv[3], "check") == 0;
    int repeats = only_check ? 1 : argc == 4 ? atoi(argv[3]) : 5;
    if (argc < 3 || argc > 4 || repeats < 1 || repeats > MOST_REPEATS) {
        fprintf(stderr, "usage: bench LIBRARY PLAIN [REPEATS | check], REPEATS from 1 to %d\n", MOST_REPEATS);
        return 2;
    }
    for (int s = 0; s < 2; s++) load(&libraries[s], argv[1 + s]);
    make_inputs();
    signal(SIGABRT, crashed);
    signal(SIGSEGV, crashed);
    for (int repeat = 0; repeat < repeats; repeat++)
        for (size = 0; size < SIZES; size++)
            for (int fills = 0; fills < FILLS; fills++) run(repeat, fills);
    if (!only_check) {
        tell_table(repeats);
        tell_floors();
    }
    tell_mix();
    tell_spoiled();
    printf("Compared: %llu calls, %llu bytes of each library.\n%llu passed, %llu failed\n", calls, compared, passed, failed);
    return failed > 0;
}
