/* Runs the cases that the independent implementation wrote, with its answers, against the cash desk's functions; or
 * measures one of them.
 *
 * usage: cash CASES
 *        cash time JOURNAL KEY FIRST LAST TIMES
 *
 * The format of the file is in host/oracle/README.md. Each case compares the whole answer, every amount filled, and
 * that all else that was lent is as it was. The first differences are printed. The last line is 'N passed, M failed',
 * counted in cases, and the status is 0 only where M is 0. */
#define _DEFAULT_SOURCE
#include <inttypes.h>
#include <stdio.h>
#include <stdlib.h>
#include <string.h>
#include <time.h>

#include "answers.h"
#include "cash.h"

enum {
    MOST_JOURNAL = 1 << 24,  /* bytes of a journal in a case */
    MOST_KEY = 1 << 16,      /* bytes of a key */
    MOST_ROWS = 1 << 13,     /* numbers of a table */
    MOST_QUESTIONS = 1 << 20 /* entries or days in a case */
};

_Static_assert(__BYTE_ORDER__ == __ORDER_LITTLE_ENDIAN__, "numbers of a case are read as they stand");

static struct loan journals, keys, tables;

/* The amounts expected. */
static int64_t amounts[MOST_ROWS];

/* A journal stays for the cases after it. It is given without the blanks at its end. */
static void take_journal(struct source *source) {
    if (take_number(source, 1) == 0) {
        return;
    }
    journals.slice = lend(journals.shelf, take_length(source, 8, MOST_JOURNAL));
    size_t used = take_length(source, 4, journals.slice.length);
    take(source, journals.slice.first, used);
    memset(journals.slice.first + used, ' ', journals.slice.length - used);
    keep(&journals);
}

static void print_answer(const char *word, uint64_t answer) {
    if (crownhazel_is_refused(answer)) {
        printf("%s refusal %" PRIu32 " record %" PRIu32, word, crownhazel_refusal(answer), crownhazel_record(answer));
    } else {
        printf("%s %" PRIu32 " days", word, crownhazel_field(answer, 0));
    }
    printf(" (0x%016" PRIX64 ")", answer);
}

static bool is_answer(const struct place *place, uint64_t expected, uint64_t came) {
    if (came != expected && begin_difference(place)) {
        print_answer("expected", expected);
        print_answer(", came", came);
        printf("\n");
    }
    return came == expected;
}

/* Whether the first numbers of the table are those expected. */
static bool are_amounts(const struct place *place, size_t count) {
    const int64_t *came = (const int64_t *)tables.slice.first;
    for (size_t i = 0; i < count; i++) {
        if (came[i] != amounts[i]) {
            if (begin_difference(place)) {
                printf("day %zu: expected %" PRId64 ", came %" PRId64 "\n", i + 1, amounts[i], came[i]);
            }
            return false;
        }
    }
    return true;
}

/* One call; a of its answer is the number of days. Only the amounts expected may change. */
static bool ask_position(const struct place *place, uint64_t first, uint64_t last, struct answer expected,
                         unsigned way) {
    unsigned journal_ways = ways(journals.slice);
    unsigned input_ways = journal_ways * ways(keys.slice);
    int64_t *table = (int64_t *)lent(tables.slice, way / input_ways);
    fill(tables.slice.first, tables.slice.length);
    keep(&tables);
    keep(&keys);
    uint64_t came = crownhazel_position(lent(journals.slice, way % journal_ways), journals.slice.length,
                                        lent(keys.slice, way % input_ways / journal_ways), keys.slice.length, first,
                                        last, table, tables.slice.length / sizeof *table);
    bool same = is_answer(place, packed(expected), came);
    same &= are_amounts(place, expected.a);
    same &= is_untouched(place, &tables, expected.a * sizeof *table);
    same &= is_untouched(place, &keys, 0);
    same &= is_untouched(place, &journals, 0);
    return same;
}

static bool run_position(struct source *source, const struct place *place) {
    bool same = true;
    take_journal(source);
    keys.slice = take_bytes(source, keys.shelf, MOST_KEY);
    uint64_t first = take_number(source, 8);
    uint64_t last = take_number(source, 8);
    size_t rows = take_length(source, 8, MOST_ROWS);
    tables.slice = lend(tables.shelf, rows * sizeof(int64_t));
    struct answer expected = take_answer(source);
    if (expected.a > rows) {
        fault(source, "expects more days than its table has");
        return false;
    }
    take(source, (uint8_t *)amounts, expected.a * sizeof(int64_t));
    unsigned all = ways(journals.slice) * ways(keys.slice) * ways(tables.slice);
    for (unsigned way = 0; way < all && !source->broken; way++) {
        same &= ask_position(place, first, last, expected, way);
    }
    return same;
}

/* Of a journal that is not sound any balance may come. */
static bool ask_balance(const struct place *place, uint64_t entry, bool told, int64_t expected) {
    bool same = true;
    for (unsigned way = 0; way < ways(journals.slice); way++) {
        int64_t came = crownhazel_balance(lent(journals.slice, way), journals.slice.length, entry);
        bool right = !told || came == expected;
        if (!right && begin_difference(place)) {
            printf("entry %" PRIu64 ": expected %" PRId64 ", came %" PRId64 "\n", entry, expected, came);
        }
        same &= right;
    }
    return same;
}

static bool run_balances(struct source *source, const struct place *place) {
    bool same = true;
    take_journal(source);
    bool told = take_number(source, 1) != 0;
    for (size_t left = take_length(source, 4, MOST_QUESTIONS); left > 0 && !source->broken; left--) {
        uint64_t entry = take_number(source, 8);
        int64_t expected = (int64_t)take_number(source, 8);
        same &= ask_balance(place, entry, told, expected);
    }
    return same && is_untouched(place, &journals, 0);
}

static bool run_days(struct source *source, const struct place *place) {
    bool same = true;
    for (size_t left = take_length(source, 4, MOST_QUESTIONS); left > 0 && !source->broken; left--) {
        uint64_t day = take_number(source, 8);
        uint64_t after = take_number(source, 8);
        uint64_t expected = take_number(source, 8);
        uint64_t came = crownhazel_day(day, after);
        if (came != expected && begin_difference(place)) {
            printf("%" PRIu64 " days after %" PRIu64 ": expected %" PRIu64 ", came %" PRIu64 "\n", after, day, expected,
                   came);
        }
        same &= came == expected;
    }
    return same;
}

static bool run(struct source *source, struct place *place) {
    switch (take_number(source, 1)) {
    case 'P': place->kind = "position case"; return run_position(source, place);
    case 'B': place->kind = "balance case"; return run_balances(source, place);
    case 'D': place->kind = "day case"; return run_days(source, place);
    default: fault(source, "has a case of no kind"); return false;
    }
}

static int replay(const char *file) {
    catch_signals();
    journals = new_loan("journal", MOST_JOURNAL);
    keys = new_loan("key", MOST_KEY);
    tables = new_loan("table", MOST_ROWS * sizeof(int64_t));
    journals.slice = lend(journals.shelf, 0);
    keep(&journals);
    replay_file(file, "case", "CHPOSITN", run);
    return finish();
}

static uint64_t now(void) {
    struct timespec time;
    clock_gettime(CLOCK_MONOTONIC, &time);
    return (uint64_t)time.tv_sec * 1000000000 + (uint64_t)time.tv_nsec;
}

static int by_size(const void *one, const void *other) {
    uint64_t a = *(const uint64_t *)one, b = *(const uint64_t *)other;
    return (a > b) - (a < b);
}

/* The time of each of so many calls, in order of size; false where one is refused. */
static bool time_calls(struct slice journal, const char *key, uint64_t first, uint64_t last, uint64_t *elapsed,
                       size_t times) {
    int64_t table[CROWNHAZEL_MOST_DAYS];
    for (size_t i = 0; i < times; i++) {
        uint64_t start = now();
        uint64_t answer = crownhazel_position(journal.first, journal.length, (const uint8_t *)key, strlen(key), first,
                                              last, table, CROWNHAZEL_MOST_DAYS);
        elapsed[i] = now() - start;
        if (crownhazel_is_refused(answer)) {
            fprintf(stderr, "cash: refused with %" PRIu32 "\n", crownhazel_refusal(answer));
            return false;
        }
    }
    qsort(elapsed, times, sizeof *elapsed, by_size);
    return true;
}

/* The best and the median time of a position on a journal in memory, in nanoseconds. */
static int measure(char **arguments) {
    struct slice journal = {new_memory(MOST_JOURNAL), 0};
    size_t times = strtoull(arguments[4], NULL, 10);
    uint64_t *elapsed = (uint64_t *)new_memory((times + 1) * sizeof *elapsed);
    FILE *file = fopen(arguments[0], "rb");
    bool right = file != NULL && times > 0;
    if (right) {
        journal.length = fread(journal.first, 1, MOST_JOURNAL, file);
        right = time_calls(journal, arguments[1], strtoull(arguments[2], NULL, 10), strtoull(arguments[3], NULL, 10),
                           elapsed, times);
        fclose(file);
    }
    if (right) {
        printf("best %" PRIu64 " ns, median %" PRIu64 " ns, of %zu\n", elapsed[0], elapsed[times / 2], times);
    }
    free(elapsed);
    free(journal.first);
    return right ? 0 : 2;
}

int main(int count, char **arguments) {
    if (count == 2) {
        return replay(arguments[1]);
    }
    if (count == 7 && strcmp(arguments[1], "time") == 0) {
        return measure(arguments + 2);
    }
    fputs("usage: cash CASES\n       cash time JOURNAL KEY FIRST LAST TIMES\n", stderr);
    return 2;
}
