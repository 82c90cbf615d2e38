#include "contents.h"

#include <string.h>

#include "journal.h"
#include "say.h"
#include "status.h"

static const uint8_t *body_of(const struct bytes *journal, const struct entry *entry) {
    return journal->first + CROWNHAZEL_CONTENTS + (size_t)CROWNHAZEL_RECORD * entry->first_line;
}

static void take_checksum(const struct bytes *journal, struct entry *entry) {
    entry->checksum[0] = '\0';
    if (gap_between(entry, entry) == 0) {
        struct bytes body = {.first = (uint8_t *)body_of(journal, entry),
                             .length = (size_t)CROWNHAZEL_RECORD * entry->records};
        checksum_of(&body, entry->checksum);
    }
}

/* Entry after entry, up to the first that there is not. */
size_t list_entries(const struct bytes *journal, struct entry entries[CROWNHAZEL_MOST_ENTRIES]) {
    size_t count = 0;
    while (count < CROWNHAZEL_MOST_ENTRIES) {
        struct entry *entry = &entries[count];
        uint64_t listed = crownhazel_listed(journal->first, journal->length, count + 1, entry->row, sizeof entry->row);
        if (crownhazel_is_refused(listed)) {
            break;
        }
        entry->first_line = crownhazel_first_line(listed);
        entry->records = crownhazel_records(listed);
        take_checksum(journal, entry);
        count++;
    }
    return count;
}

uint64_t read_contents(const struct bytes *journal, struct contents *contents) {
    uint64_t used = crownhazel_used(journal->first, journal->length);
    if (crownhazel_is_refused(used)) {
        return used;
    }
    contents->count = list_entries(journal, contents->entries);
    contents->lines_used = crownhazel_lines_used(used);
    contents->lines = crownhazel_lines(used);
    return used;
}

/* No lock: the file is read as a whole, and a delivery puts another one in its place. */
int look_into(const char *name, struct bytes *journal, struct contents *contents) {
    struct place place;
    int status = find_existing_journal(name, &place);
    if (status != STATUS_DONE) {
        return status;
    }
    status = read_journal(&place, journal);
    leave_place(&place);
    if (status != STATUS_DONE) {
        return status;
    }
    uint64_t used = read_contents(journal, contents);
    if (crownhazel_is_refused(used)) {
        status = refused_by(name, used, name, lines_of(journal));
        let_go(journal);
    }
    return status;
}

bool same_account(const struct entry *one, const struct entry *other) {
    return memcmp(one->row, other->row, ROW_KEY) == 0;
}

bool has_statement(const struct entry *entries, size_t count, const struct entry *entry) {
    size_t at = 0;
    while (at < count && (memcmp(entries[at].row, entry->row, CROWNHAZEL_ROW) != 0 ||
                          strcmp(entries[at].checksum, entry->checksum) != 0)) {
        at++;
    }
    return at < count;
}

/* Dates stand as digits, the year first. */
int gap_between(const struct entry *before, const struct entry *after) {
    return memcmp(after->row + ROW_OLD_DATE, before->row + ROW_NEW_DATE, ROW_NEW_DATE - ROW_OLD_DATE);
}

bool ends_before(const struct entry *one, const struct entry *other) {
    return memcmp(one->row + ROW_NEW_DATE, other->row + ROW_NEW_DATE, CROWNHAZEL_ROW - ROW_NEW_DATE) < 0;
}

const struct entry *last_of_account(const struct entry *entries, size_t count, const struct entry *entry) {
    while (count > 0 && !same_account(&entries[count - 1], entry)) {
        count--;
    }
    return count == 0 ? NULL : &entries[count - 1];
}

/* The account of an entry, which is a new one where none has its key. */
static struct account *account_of(const struct contents *contents, size_t entry, struct accounts *accounts) {
    size_t at = 0;
    while (at < accounts->count &&
           !same_account(&contents->entries[accounts->list[at].first], &contents->entries[entry])) {
        at++;
    }
    if (at == accounts->count) {
        accounts->list[accounts->count++] = (struct account){.first = entry};
    }
    return &accounts->list[at];
}

void find_accounts(const struct contents *contents, struct accounts *accounts) {
    accounts->count = 0;
    for (size_t i = 0; i < contents->count; i++) {
        struct account *account = account_of(contents, i, accounts);
        account->last = i;
        account->statements++;
    }
}

static bool same_body(const struct bytes *journal, const struct entry *entry, const struct bytes *other,
                      const struct entry *other_entry) {
    size_t length = (size_t)CROWNHAZEL_RECORD * entry->records;
    return entry->records == other_entry->records &&
           memcmp(body_of(journal, entry), body_of(other, other_entry), length) == 0;
}

size_t lacking(const struct bytes *journal, const struct contents *contents, const struct bytes *other,
               const struct contents *other_contents) {
    size_t count = 0;
    for (size_t i = 0; i < contents->count; i++) {
        size_t at = 0;
        while (at < other_contents->count &&
               !same_body(journal, &contents->entries[i], other, &other_contents->entries[at])) {
            at++;
        }
        count += at == other_contents->count;
    }
    return count;
}

size_t lines_of(const struct bytes *journal) {
    return journal->length < CROWNHAZEL_CONTENTS ? 0 : (journal->length - CROWNHAZEL_CONTENTS) / CROWNHAZEL_RECORD;
}
