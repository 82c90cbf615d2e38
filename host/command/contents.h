/* What a journal holds, told by the library: there is no reader of entries here. */
#ifndef COMMAND_CONTENTS_H
#define COMMAND_CONTENTS_H

#include <stdbool.h>
#include <stddef.h>
#include <stdint.h>

#include "bytes.h"
#include "cash.h"
#include "crownhazel.h"
#include "sha256.h"

/* An entry of a journal. The row holds zones of fixed width, one after another. */
struct entry {
    uint8_t row[CROWNHAZEL_ROW];
    uint32_t first_line;
    uint32_t records;
    char checksum[CHECKSUM_DIGITS + 1]; /* of its body, where it begins and ends on one day; else none */
};

/* Where the zones of a row begin, and their widths: the account key, which is the first five, and the dates. */
enum {
    ROW_BANK = 0,
    ROW_BRANCH = 5,
    ROW_CURRENCY = 10,
    ROW_DECIMALS = 13,
    ROW_ACCOUNT = 14,
    ROW_KEY = CROWNHAZEL_KEY, /* bytes of the key */
    ROW_OLD_DATE = ROW_KEY,
    ROW_NEW_DATE = 33
};

struct contents {
    struct entry entries[CROWNHAZEL_MOST_ENTRIES];
    size_t count;
    size_t lines_used;
    size_t lines;
};

/* Tests a journal, once, and takes what it holds. Answers the library's number: a refusal where it is not sound. */
uint64_t read_contents(const struct bytes *journal, struct contents *contents);

/* Reads a journal, tests it and takes what it holds. Its bytes are the caller's to let go. Answers a status, with a
 * message where it is not STATUS_DONE; then there is nothing to let go. */
int look_into(const char *name, struct bytes *journal, struct contents *contents);

/* Lists the entries of a sound journal, which is not tested again; their number. */
size_t list_entries(const struct bytes *journal, struct entry entries[CROWNHAZEL_MOST_ENTRIES]);

/* Whether two entries are of one account, and whether one among several is of the very statement, as far as it could
 * follow itself: of those of one day the bodies are compared, of others the dates are enough. */
bool same_account(const struct entry *one, const struct entry *other);
bool has_statement(const struct entry *entries, size_t count, const struct entry *entry);

/* Below 0 where one begins before another has ended, 0 where on that very day, above 0 where days lie between. */
int gap_between(const struct entry *before, const struct entry *after);

/* Whether one ends on an earlier day than another. */
bool ends_before(const struct entry *one, const struct entry *other);

/* The last of several entries that is of an entry's account; NULL where there is none. */
const struct entry *last_of_account(const struct entry *entries, size_t count, const struct entry *entry);

/* An account: its first and its last entry, counted from 0, and how many it has. */
struct account {
    size_t first, last;
    size_t statements;
};

/* The accounts among the entries, in order of first arrival. */
struct accounts {
    struct account list[CROWNHAZEL_MOST_ENTRIES];
    size_t count;
};

void find_accounts(const struct contents *contents, struct accounts *accounts);

/* How many statements one journal holds that another does not. Both are sound. */
size_t lacking(const struct bytes *journal, const struct contents *contents, const struct bytes *other,
               const struct contents *other_contents);

/* How many whole body lines stand behind the table; 0 where there is not even that. */
size_t lines_of(const struct bytes *journal);

#endif
