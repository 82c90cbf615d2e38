/* The collector's way into the proved library: functions that each answer one 64-bit number. Of a delivery's answer two
 * more functions give what was expected.
 *
 * Duties of the caller. They are trusted; nothing in the library can test them.
 *  - A pointer is valid for the length given with it: readable, and writable where it is not const.
 *  - Journal, file and row do not overlap.
 *  - A pointer is NULL only where its length is 0.
 *  - Nothing else writes to journal, file or row during a call.
 * Under these duties every call takes every input and ends. A refusal changes nothing.
 *
 * docs/COLLECTOR.md says what the answers mean and what to do about a refusal. */
#ifndef CROWNHAZEL_H
#define CROWNHAZEL_H

#include <stdbool.h>
#include <stddef.h>
#include <stdint.h>

#ifdef __cplusplus
extern "C" {
#endif

/* The numbers of the rules that a caller needs to lend a buffer. */
enum {
    CROWNHAZEL_RECORD = 120,          /* bytes of a record, and of a body line */
    CROWNHAZEL_CONTENTS = 7680,       /* bytes of a journal before its body lines */
    CROWNHAZEL_MOST_LINES = 100000,   /* body lines of the longest journal */
    CROWNHAZEL_MOST_ENTRIES = 128,    /* statements that a journal holds at most */
    CROWNHAZEL_MOST_RECORDS = 20000,  /* records of the longest file */
    CROWNHAZEL_ROW = 41               /* bytes of a row: what an entry says of its statement */
};

/* Judges a file. The line-end number is 0 (nothing after a record), 1 (LF) or 2 (CR LF). */
uint64_t crownhazel_check(uint64_t line_end, const uint8_t *file, size_t file_len);

/* Blanks a buffer of a right length: 7,680 bytes and 120 for each body line. What it held is gone. */
uint64_t crownhazel_open(uint8_t *journal, size_t journal_len);

/* Stores the statements of a file that the journal does not hold yet: all of them or, where it refuses, none. A
 * statement follows the last of its account where it begins on the day of that one's new date or later, with that one's
 * new balance. So deliver the oldest file first: what lies between two that are stored can never be stored. */
uint64_t crownhazel_deliver(uint8_t *journal, size_t journal_len, uint64_t line_end, const uint8_t *file,
                            size_t file_len);

/* Say what was expected of a file that is refused with 22, asked with the same journal and file, before the delivery or
 * after it: the new date of the last statement of the refused one's account, YYYYMMDD, and its new balance, as the
 * delivery then sees them, those of statements stored earlier from the same file included. Both are 0 for every other
 * answer; a balance can also be 0 beside a 22, a date cannot. They change nothing. */
uint64_t crownhazel_expected_date(const uint8_t *journal, size_t journal_len, uint64_t line_end, const uint8_t *file,
                                  size_t file_len);
int64_t crownhazel_expected_balance(const uint8_t *journal, size_t journal_len, uint64_t line_end, const uint8_t *file,
                                    size_t file_len);

/* Says where the body of an entry stands. Entries are numbered from 1, in order of first arrival. */
uint64_t crownhazel_entry(const uint8_t *journal, size_t journal_len, uint64_t entry);

/* Tests whether a journal is sound, and says how much of it is used. */
uint64_t crownhazel_used(const uint8_t *journal, size_t journal_len);

/* Says what an entry of a sound journal says, without testing it again: where its body stands, as crownhazel_entry does,
 * and in the row's first 41 bytes the account key (5 bank, 5 branch, 3 currency, 1 decimals, 11 account), the old date
 * and the new one (8 digits each, YYYYMMDD). Ask crownhazel_used first. Of a journal that is not sound it says what
 * stands there. */
uint64_t crownhazel_listed(const uint8_t *journal, size_t journal_len, uint64_t entry, uint8_t *row, size_t row_len);

/* Judges the length of a file alone: the refusals 1 to 3, which come before all others, or the number of records. A file
 * of that length that is refused here is refused so by crownhazel_check, whatever its bytes. */
uint64_t crownhazel_length(uint64_t line_end, uint64_t length);

/* Says on what day a file begins: the earliest old balance date of its statements. Judges the file first, and refuses it
 * where crownhazel_check does, with the same number. */
uint64_t crownhazel_earliest(uint64_t line_end, const uint8_t *file, size_t file_len);

/* An answer: bits 0-19, 20-39 and 40-59 hold a field each, bits 60-63 the kind. A day takes two fields: bits 0-39. */
enum {
    CROWNHAZEL_ANSWERED = 0,
    CROWNHAZEL_REFUSED = 1
};

static inline uint32_t crownhazel_field(uint64_t answer, unsigned first_bit) {
    return (uint32_t)(answer >> first_bit) & 0xFFFFFu;
}

static inline unsigned crownhazel_kind(uint64_t answer) {
    return (unsigned)(answer >> 60);
}

static inline bool crownhazel_is_refused(uint64_t answer) {
    return crownhazel_kind(answer) == CROWNHAZEL_REFUSED;
}

/* Of a refusal, whichever function gave it: the record, counted from 1 or 0 for none, and the number. */
static inline uint32_t crownhazel_record(uint64_t refusal) {
    return crownhazel_field(refusal, 0);
}

static inline uint32_t crownhazel_refusal(uint64_t refusal) {
    return crownhazel_field(refusal, 20);
}

/* Of crownhazel_check: how many there are in the file. */
static inline uint32_t crownhazel_statements(uint64_t checked) {
    return crownhazel_field(checked, 0);
}

static inline uint32_t crownhazel_movements(uint64_t checked) {
    return crownhazel_field(checked, 20);
}

static inline uint32_t crownhazel_complements(uint64_t checked) {
    return crownhazel_field(checked, 40);
}

/* Of crownhazel_deliver: how many statements were stored, and how many the journal held already. */
static inline uint32_t crownhazel_stored(uint64_t delivered) {
    return crownhazel_field(delivered, 0);
}

static inline uint32_t crownhazel_held(uint64_t delivered) {
    return crownhazel_field(delivered, 20);
}

/* Of crownhazel_entry and crownhazel_listed: how many records the body has, and its first body line, counted from 0. */
static inline uint32_t crownhazel_records(uint64_t entry) {
    return crownhazel_field(entry, 0);
}

static inline uint32_t crownhazel_first_line(uint64_t entry) {
    return crownhazel_field(entry, 20);
}

/* Of crownhazel_used: entries used, body lines used, body lines in all. */
static inline uint32_t crownhazel_entries_used(uint64_t used) {
    return crownhazel_field(used, 0);
}

static inline uint32_t crownhazel_lines_used(uint64_t used) {
    return crownhazel_field(used, 20);
}

static inline uint32_t crownhazel_lines(uint64_t used) {
    return crownhazel_field(used, 40);
}

/* Of crownhazel_length: how many records a file of that length has. */
static inline uint32_t crownhazel_records_in(uint64_t judged) {
    return crownhazel_field(judged, 0);
}

/* Of crownhazel_earliest: the day as a number YYYYMMDD, 0 for a file without a statement. */
static inline uint64_t crownhazel_day_of(uint64_t begun) {
    return begun & 0xFFFFFFFFFFu;
}

/* The words of the list of refusals. */
static inline const char *crownhazel_words(uint32_t refusal) {
    switch (refusal) {
    case 1: return "line-end number not 0, 1, 2";
    case 2: return "length not a multiple of 120, 121, 122 for it";
    case 3: return "more than 20,000 records";
    case 4: return "wrong line end after a record";
    case 5: return "byte not permitted";
    case 6: return "unknown record code";
    case 7: return "record out of place";
    case 8: return "zone against its table line, or amount not as above";
    case 9: return "date that does not exist";
    case 10: return "key, or 05's positions 3-40, differ";
    case 11: return "second MMO in a movement";
    case 12: return "order of dates, seen at the 04 or 07";
    case 13: return "sum wrong, seen at the 07";
    case 14: return "file ends inside a statement";
    case 15: return "record that would be a statement's 10,000th";
    case 18: return "lent table too short";
    case 20: return "output shorter than the statement";
    case 21: return "not a sound journal, or a length that none has";
    case 22: return "statement does not follow";
    case 23: return "contents table full";
    case 24: return "too few body lines left";
    case 25: return "no such entry, or no statement of that account";
    case 27: return "span that is empty, too long or has a date that does not exist";
    default: return "no refusal of this library";
    }
}

#ifdef __cplusplus
}
#endif

#endif
