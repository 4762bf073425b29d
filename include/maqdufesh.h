/* Maqdufesh: a table store for plating baths, and the mirror that a display keeps of it.
 *
 * A store takes requests (the params of RFC 7047's "transact") and writes change records for a radio line. A mirror hears those records,
 * in any order, some lost, some twice, and says how far it has followed and whether what it shows is the store's state: whether it is level.
 *
 * Every call takes areas and buffers of the caller, keeps nothing between calls, allocates nothing and calls nothing of its own.
 * A buffer is a pointer and its length in bytes. Two buffers of one call must not overlap. A pointer with length 0 must still not be null.
 * An area is the caller's to keep, byte for byte: a call on an area whose bytes are not in good order is refused (1).
 *
 * A call returns 0 where it is accepted and else its refusal, the first that applies in this order:
 *
 *     2  a length: an area, the fresh ids, or a buffer is not as long as below
 *     1  the area is not in good order
 *     3  the schema is not accepted
 *     4  the request: above 8,192 bytes, deeper than 12 levels, no JSON, no array that begins with a string, above 16 operations, or one that is no object
 *     5  the request is for another database
 *     6  of the fresh ids two are equal, one is all zero, or one is a row's
 *     7  the answer's text is longer than its buffer
 *    10  the commit's records would pass the last record number
 *     8  a record that is not one: its kind, length, number, id, table, column or value, or one that does not fit the rows
 *     9  a record of another run
 *
 * A refused call leaves the area as it was and every other buffer that it writes to all zero. In an accepted call bytes beyond what was written are zero.
 *
 * Stack, as measured (docs/PERFORMANCE.md): a transact 57,000 bytes, a mark and a mirror's calls 29,000, a start 25,000. Give a transact 96 KB. */
#ifndef MAQDUFESH_H
#define MAQDUFESH_H

#include <stddef.h>
#include <stdint.h>

#ifdef __cplusplus
extern "C" {
#endif

/* Refusals, by name. */
enum {
    MAQ_ACCEPTED = 0,
    MAQ_DISORDERED = 1,
    MAQ_WRONG_LENGTH = 2,
    MAQ_BAD_SCHEMA = 3,
    MAQ_BAD_REQUEST = 4,
    MAQ_OTHER_DATABASE = 5,
    MAQ_BAD_FRESH_IDS = 6,
    MAQ_ANSWER_TOO_LONG = 7,
    MAQ_BAD_RECORD = 8,
    MAQ_OTHER_RUN = 9,
    MAQ_NUMBERS_SPENT = 10,
    /* What maq_mirror_hear says of a record that it does not refuse. */
    MAQ_REPEAT = 100,  /* a record that was applied before */
    MAQ_BEHIND = 101,  /* a record after the next one: heard, not applied */
    MAQ_HEARD = 102,   /* a mark */
    MAQ_APPLIED = 103  /* the next record: n has moved by one */
};

/* Lengths in bytes. */
enum {
    MAQ_STORE_AREA = 21401,
    MAQ_MIRROR_AREA = 21407,
    MAQ_FRESH = 256,            /* 16 fresh ids of 16 bytes, one for each operation */
    MAQ_LEAST_RECORDS = 26249,  /* the records of the largest commit */
    MAQ_LEAST_ANSWER = 64,
    MAQ_MARK = 9,
    MAQ_PROGRESS = 5,
    MAQ_COLUMN = 101
};

uint64_t maq_store_area_len(void);
uint64_t maq_mirror_area_len(void);

/* Starts a store in an area of MAQ_STORE_AREA bytes, whatever they held: no rows, number 0. A run tells one life of a store from the next.
 * 2: the area's length. 3: the schema's text, at most 4,096 bytes. */
uint32_t maq_store_start(uint8_t *area, size_t area_len, const uint8_t *schema, size_t schema_len, uint32_t run);

/* Runs a request: ["database", operation, ..]. fresh: 256 random bytes, new at each call. records: at least 26,249 bytes, filled with the
 * records of the commit one after another, up to the first zero kind; none where it changed nothing or did not commit. answer: at least 64
 * bytes, filled with the result's text, up to the first zero byte or the end.
 * An operation that fails is no refusal: the answer tells the error, and nothing is changed.
 * 2, 1, 4, 5, 6, 7, 10. */
uint32_t maq_store_transact(uint8_t *area, size_t area_len, const uint8_t *request, size_t request_len, const uint8_t *fresh, size_t fresh_len,
                            uint8_t *records, size_t records_len, uint8_t *answer, size_t answer_len);

/* Writes a mark, which tells the last number given out, to at least 9 bytes. To be sent between calls, as often as wanted. 2, 1. */
uint32_t maq_store_mark(const uint8_t *area, size_t area_len, uint8_t *mark, size_t mark_len);

/* Starts a mirror in an area of MAQ_MIRROR_AREA bytes, of the store with this schema and run. 2, 3. */
uint32_t maq_mirror_start(uint8_t *area, size_t area_len, const uint8_t *schema, size_t schema_len, uint32_t run);

/* Hears one record or mark. Returns a refusal (2, 1, 8, 9) or one of MAQ_REPEAT, MAQ_BEHIND, MAQ_HEARD, MAQ_APPLIED. */
uint32_t maq_mirror_hear(uint8_t *area, size_t area_len, const uint8_t *record, size_t record_len);

/* How far the mirror has followed: out is 5 bytes, the number n of the last record applied, most significant byte first, and 1 where the
 * mirror is level: it has heard something, n is the highest number heard, and n is 0 or ends a commit. Its rows are then the store's after
 * that commit. 2, 1. */
uint32_t maq_mirror_progress(const uint8_t *area, size_t area_len, uint8_t *out, size_t out_len);

/* Whether a table, by its number in the schema's text from 0, has the row of an id of 16 bytes: out is 1 byte, 0 or 1. 2, 1. */
uint32_t maq_mirror_has_row(const uint8_t *area, size_t area_len, uint32_t table, const uint8_t *id, uint8_t *out, size_t out_len);

/* A row's column, by its number in the table from 0: out is 101 bytes, the count and four atoms of 25 bytes, all zero where row or column
 * is missing. An integer's atom is 8 bytes of two's complement, a boolean's 1, a uuid's 16, a string's its length and its bytes; the rest zero.
 * 2, 1. */
uint32_t maq_mirror_column(const uint8_t *area, size_t area_len, uint32_t table, const uint8_t *id, uint32_t column, uint8_t *out, size_t out_len);

#ifdef __cplusplus
}
#endif
#endif
