/* A small collector: a journal in memory, one file delivered twice, then what the journal holds.
 * Exit status: 0 done, 1 refused, 2 usage, 3 system. */
#include <errno.h>
#include <inttypes.h>
#include <stdio.h>
#include <stdlib.h>
#include <string.h>

#include "crownhazel.h"

enum { DONE = 0, REFUSED = 1, USAGE = 2, SYSTEM = 3 };

/* Room for so many records in the journal. */
enum { LINES = 1000, JOURNAL_BYTES = CROWNHAZEL_CONTENTS + CROWNHAZEL_RECORD * LINES };

static uint8_t journal[JOURNAL_BYTES];

/* A file in memory. */
struct bytes {
    uint8_t *first;
    size_t length;
};

/* Any number goes to the library as it is: which of them are line ends is for the library to say. */
static bool read_number(const char *text, uint64_t *number) {
    char *end = NULL;
    if (*text < '0' || *text > '9') {
        return false;
    }
    *number = strtoumax(text, &end, 10);
    return *end == '\0';
}

/* Makes room for more bytes. */
static bool grow(struct bytes *file, size_t *room) {
    size_t larger = *room == 0 ? 65536 : 2 * *room;
    uint8_t *first = realloc(file->first, larger);
    if (first == NULL) {
        return false;
    }
    file->first = first;
    *room = larger;
    return true;
}

/* Reads a stream to its end. */
static bool read_stream(FILE *stream, struct bytes *file) {
    size_t room = 0;
    while (!feof(stream) && !ferror(stream)) {
        if (file->length == room && !grow(file, &room)) {
            return false;
        }
        file->length += fread(file->first + file->length, 1, room - file->length, stream);
    }
    return !ferror(stream);
}

/* Reads a whole file, or says why it cannot. */
static bool read_file(const char *name, struct bytes *file) {
    FILE *stream = fopen(name, "rb");
    bool whole = stream != NULL && read_stream(stream, file);
    if (!whole) {
        fprintf(stderr, "example: %s: %s\n", name, strerror(errno));
    }
    if (stream != NULL) {
        fclose(stream);
    }
    return whole;
}

/* Prints a refusal with the words of the list. */
static int refused(const char *call, uint64_t answer) {
    uint32_t number = crownhazel_refusal(answer);
    fprintf(stderr, "example: %s refused with %" PRIu32 " at record %" PRIu32 ": %s\n", call, number,
            crownhazel_record(answer), crownhazel_words(number));
    return REFUSED;
}

/* Prints where the account of a statement that does not follow ends: so the bank can be asked for what lies between. */
static void print_expected(uint64_t line_end, const struct bytes *file) {
    uint64_t date = crownhazel_expected_date(journal, sizeof journal, line_end, file->first, file->length);
    int64_t balance = crownhazel_expected_balance(journal, sizeof journal, line_end, file->first, file->length);
    if (date != 0) {
        fprintf(stderr, "example: expected %" PRIu64 " with %" PRId64 "\n", date, balance);
    }
}

static int deliver(uint64_t line_end, const struct bytes *file) {
    uint64_t answer = crownhazel_deliver(journal, sizeof journal, line_end, file->first, file->length);
    if (crownhazel_is_refused(answer)) {
        print_expected(line_end, file);
        return refused("delivery", answer);
    }
    printf("stored %" PRIu32 ", held %" PRIu32 "\n", crownhazel_stored(answer), crownhazel_held(answer));
    return DONE;
}

/* Prints where the body of an entry stands, and the account key in its row. */
static void print_entry(uint32_t number, uint64_t answer, const uint8_t row[CROWNHAZEL_ROW]) {
    const char *key = (const char *)row;
    printf("entry %" PRIu32 ": first line %" PRIu32 ", records %" PRIu32 ", ", number, crownhazel_first_line(answer),
           crownhazel_records(answer));
    printf("account %.5s %.5s %.3s %.1s %.11s\n", key, key + 5, key + 10, key + 13, key + 14);
}

/* One test of the journal says how many entries there are; then each is listed without another. */
static int print_entries(void) {
    uint64_t used = crownhazel_used(journal, sizeof journal);
    if (crownhazel_is_refused(used)) {
        return refused("journal", used);
    }
    for (uint32_t number = 1; number <= crownhazel_entries_used(used); number++) {
        uint8_t row[CROWNHAZEL_ROW];
        uint64_t answer = crownhazel_listed(journal, sizeof journal, number, row, sizeof row);
        if (crownhazel_is_refused(answer)) {
            return refused("entry", answer);
        }
        print_entry(number, answer, row);
    }
    return DONE;
}

/* The second delivery stores nothing: send it twice, store it once. */
static int collect(uint64_t line_end, const struct bytes *file) {
    uint64_t opened = crownhazel_open(journal, sizeof journal);
    if (crownhazel_is_refused(opened)) {
        return refused("opening", opened);
    }
    int status = deliver(line_end, file);
    if (status == DONE) {
        status = deliver(line_end, file);
    }
    return status == DONE ? print_entries() : status;
}

int main(int count, char **arguments) {
    uint64_t line_end;
    if (count != 3 || !read_number(arguments[1], &line_end)) {
        fputs("usage: example LINE_END FILE\n  LINE_END is 0 (none), 1 (LF) or 2 (CR LF)\n", stderr);
        return USAGE;
    }
    struct bytes file = {NULL, 0};
    int status = read_file(arguments[2], &file) ? collect(line_end, &file) : SYSTEM;
    free(file.first);
    if (fflush(stdout) != 0 || ferror(stdout)) {
        fputs("example: the answers could not be written\n", stderr);
        return SYSTEM;
    }
    return status;
}
