/* The lent table and the writer: two proved functions on values that the caller holds.
 *
 * Duties of the caller. They are trusted; nothing in the library can test them.
 *  - A pointer is valid for the length given with it: readable, and writable where it is not const.
 *  - What is lent for writing overlaps nothing else that is lent.
 *  - A pointer is NULL only where its length is 0.
 *  - Nothing else writes to what is lent during a call.
 * Under these duties every call takes every input and ends. A refusal changes nothing.
 *
 * Lengths of tables count rows, all others bytes. Dates are numbers YYYYMMDD, 1980 to 2079. */
#ifndef CROWNHAZEL_TABLES_H
#define CROWNHAZEL_TABLES_H

#include <stddef.h>
#include <stdint.h>

#ifdef __cplusplus
extern "C" {
#endif

/* The form of a file: 0 (nothing after a record), 1 (LF) or 2 (CR LF). */
struct form {
    uint64_t line_end;
};

struct key {
    uint8_t bank[5], branch[5], currency[3], decimals, account[11];
};

struct head {
    struct key key;
    uint32_t old_date;
    int64_t old_balance;
    uint32_t new_date;
    int64_t new_balance;
};

struct movement {
    uint8_t internal[4], code[2];
    uint32_t booked;
    uint8_t reject[2];
    uint32_t value;
    uint8_t label[31];
    uint32_t entry;
    uint8_t exempt, unavailable;
    int64_t amount;
    uint8_t reference[16];
    uint64_t complements; /* how many it has */
};

/* Number and record of a refusal, both 0 where there is none; then what is answered, 0 with a refusal. */
struct table_answer {
    uint64_t number, record, movements;
};

struct write_answer {
    uint64_t number, record, bytes;
};

/* Fills the first rows of a table with the movements of statement k, which counts from 1. */
struct table_answer movements(struct form form, const uint8_t *file, size_t file_len, uint64_t k,
                              struct movement *table, size_t table_len);

/* Writes a statement, 120 bytes a record and no line ends. The complements have 73 bytes each. */
struct write_answer write_statement(struct head head, const struct movement *table, size_t table_len,
                                    const uint8_t *complements, size_t complements_len, uint8_t *out, size_t out_len);

#ifdef __cplusplus
}
#endif

#endif
