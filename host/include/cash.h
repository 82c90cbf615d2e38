/* The cash desk's way into the proved library: the balance in value of an account, day by day.
 *
 * Duties of the caller. They are trusted; nothing in the library can test them.
 *  - A pointer is valid for the length given with it: readable, and writable where it is not const.
 *  - What is lent for writing overlaps nothing else that is lent.
 *  - A pointer is NULL only where its length is 0.
 *  - Nothing else writes to what is lent during a call.
 * Under these duties every call takes every input and ends. A refusal changes nothing.
 *
 * Days are numbers YYYYMMDD, 1980 to 2079. docs/TREASURER.md says what the amounts mean. */
#ifndef CROWNHAZEL_CASH_H
#define CROWNHAZEL_CASH_H

#include <stddef.h>
#include <stdint.h>

#ifdef __cplusplus
extern "C" {
#endif

/* The numbers of the rules that a caller needs to lend a table. */
enum {
    CROWNHAZEL_KEY = 25,       /* bytes of an account key: 5 bank, 5 branch, 3 currency, 1 decimals, 11 account */
    CROWNHAZEL_MOST_DAYS = 400 /* days of the longest span */
};

/* Fills the first numbers of a table with the balance in value at the end of each day from first to last, both counted:
 * the account's first old balance held plus all movements whose value date is that day or earlier. Answers the number
 * of days, packed as in crownhazel.h; refuses with 21, 27, 25 or 18, record 0. `table_len` counts numbers. */
uint64_t crownhazel_position(const uint8_t *journal, size_t journal_len, const uint8_t *key, size_t key_len,
                             uint64_t first, uint64_t last, int64_t *table, size_t table_len);

/* The new balance of an entry of a sound journal, without testing it: crownhazel_position tests it, and crownhazel_used
 * in the collector's archive. Entries are numbered from 1; 0 where there is no such entry. Of a journal that is not
 * sound it says what stands there. */
int64_t crownhazel_balance(const uint8_t *journal, size_t journal_len, uint64_t entry);

/* The day so many days after a day; 0 where either is not a day from 1980 to 2079. */
uint64_t crownhazel_day(uint64_t day, uint64_t after);

#ifdef __cplusplus
}
#endif

#endif
