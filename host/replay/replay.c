/* Runs the cases that the independent implementation wrote, with its answers, against the exported functions.
 *
 * usage: replay CHECKS SERIES NEIGHBOURS
 *
 * The format of the three files is in host/oracle/README.md. They are read case by case; no more than the largest file
 * and the largest journal are in memory, and what neighbours.h keeps. The first differences are printed in full. The
 * last line is 'N passed, M failed', counted in cases, and the status is 0 only where M is 0. A file that cannot be
 * read to its end is one failure more. */
#include <inttypes.h>
#include <stdio.h>
#include <stdlib.h>
#include <string.h>

#include "answers.h"
#include "neighbours.h"

enum {
    MOST_FILE = 1 << 22,    /* bytes of a file in a case */
    MOST_JOURNAL = 1 << 24, /* bytes of a journal in a case */
    MOST_ROW = 1000,        /* bytes of a row in a case */
    BEFORE_ROW = 64,        /* bytes before a row that are looked at too */
    ROW_SHELF = 1 << 16,    /* room for both, in whole pages */
    UNTOUCHED = '#'         /* what stands in and before a row that was not written */
};

static struct shelf files, journals, rows;
static uint8_t *file_copy;

static struct slice take_file(struct source *source) {
    return take_bytes(source, files, MOST_FILE);
}

/* The answer that the header takes out of a number. */
static struct answer unpacked(char call, uint64_t number) {
    struct answer answer = {.kind = crownhazel_kind(number)};
    if (crownhazel_is_refused(number)) {
        answer.number = crownhazel_refusal(number);
        answer.record = crownhazel_record(number);
    } else if (call == 'C') {
        answer.a = crownhazel_statements(number);
        answer.b = crownhazel_movements(number);
        answer.c = crownhazel_complements(number);
    } else if (call == 'D' || call == 'H') {
        answer.a = crownhazel_stored(number);
        answer.b = crownhazel_held(number);
    } else if (call == 'E' || call == 'L') {
        answer.a = crownhazel_records(number);
        answer.b = crownhazel_first_line(number);
    } else if (call == 'U') {
        answer.a = crownhazel_entries_used(number);
        answer.b = crownhazel_lines_used(number);
        answer.c = crownhazel_lines(number);
    } else if (call == 'R') {
        answer.a = crownhazel_records_in(number);
    } else if (call == 'F') {
        answer.a = (uint32_t)crownhazel_day_of(number); /* one that does not fit shows in the whole number */
    }
    return answer;
}

static bool same_answer(struct answer one, struct answer other) {
    return one.kind == other.kind && one.number == other.number && one.record == other.record && one.a == other.a
        && one.b == other.b && one.c == other.c;
}

static void print_answer(const char *word, struct answer answer, uint64_t number) {
    printf("%s kind %" PRIu32 " number %" PRIu32 " record %" PRIu32 " fields %" PRIu32 " %" PRIu32 " %" PRIu32
           " (0x%016" PRIX64 ")",
           word, answer.kind, answer.number, answer.record, answer.a, answer.b, answer.c, number);
}

/* Whether a call answered as expected, as one number and field by field. */
static bool is_answer(const struct place *place, struct answer expected, uint64_t came) {
    struct answer fields = unpacked(place->call, came);
    if (came == packed(expected) && same_answer(fields, expected)) {
        return true;
    }
    if (begin_difference(place)) {
        print_answer("expected", expected, packed(expected));
        print_answer(", came", fields, came);
        printf("\n");
    }
    return false;
}

/* Whether the journal has the bytes expected. */
static bool is_journal(const struct place *place, uint64_t expected, struct slice journal) {
    uint64_t came = hash(journal);
    if (came != expected && begin_difference(place)) {
        printf("expected a journal of hash 0x%016" PRIX64 ", came 0x%016" PRIX64 "\n", expected, came);
    }
    return came == expected;
}

/* Whether the file is as it was. */
static bool is_file(const struct place *place, struct slice file) {
    bool same = memcmp(file_copy, file.first, file.length) == 0;
    if (!same && begin_difference(place)) {
        printf("the file was changed\n");
    }
    return same;
}

/* Whether the row begins with the bytes expected, and all else in it and before it is as it was. */
static bool is_row(const struct place *place, struct slice put, struct slice row) {
    uint8_t expected[BEFORE_ROW + MOST_ROW];
    const uint8_t *came = row.first - BEFORE_ROW;
    size_t length = BEFORE_ROW + row.length, i = 0;
    memset(expected, UNTOUCHED, sizeof expected);
    memcpy(expected + BEFORE_ROW, put.first, put.length);
    while (i < length && came[i] == expected[i]) {
        i++;
    }
    if (i < length && begin_difference(place)) {
        ptrdiff_t offset = (ptrdiff_t)i - BEFORE_ROW;
        printf("expected 0x%02X at offset %td of the row, came 0x%02X\n", expected[i], offset, came[i]);
    }
    return i == length;
}

/* A function that a file and its line-end number are given to. */
typedef uint64_t judge_file(uint64_t line_end, const uint8_t *file, size_t file_len);

static bool judge(const struct place *place, struct answer expected, judge_file *call, uint64_t line_end,
                  struct slice file) {
    bool same = true;
    for (unsigned way = 0; way < ways(file); way++) {
        same &= is_answer(place, expected, call(line_end, lent(file, way), file.length));
        same &= is_file(place, file);
    }
    return same;
}

/* One file, its line-end number, what the check answers, what its length alone answers, and its earliest old balance
 * date. */
static bool run_file(struct source *source, struct place *place) {
    uint64_t line_end = take_number(source, 8);
    struct slice file = take_file(source);
    struct answer checked = take_answer(source);
    struct answer by_length = take_answer(source);
    struct answer earliest = take_answer(source);
    if (source->broken) {
        return true;
    }
    memcpy(file_copy, file.first, file.length);
    place->operation = 1;
    bool same = judge(place, checked, crownhazel_check, line_end, file);
    place->operation = 2;
    place->call = 'R';
    same &= is_answer(place, by_length, crownhazel_length(line_end, file.length));
    place->operation = 3;
    place->call = 'F';
    same &= judge(place, earliest, crownhazel_earliest, line_end, file);
    return same;
}

/* A length that no file needs to have. */
static bool run_length(struct source *source, const struct place *place) {
    uint64_t line_end = take_number(source, 8);
    uint64_t length = take_number(source, 8);
    struct answer expected = take_answer(source);
    return source->broken || is_answer(place, expected, crownhazel_length(line_end, length));
}

static bool run_check(struct source *source, struct place *place) {
    place->call = (char)take_number(source, 1);
    switch (place->call) {
    case 'C':
        return run_file(source, place);
    case 'R':
        return run_length(source, place);
    default:
        fault(source, "has a case that there is not");
        return false;
    }
}

static bool run_open(struct source *source, const struct place *place, struct slice journal) {
    struct answer expected = take_answer(source);
    uint64_t after = take_number(source, 8);
    bool same = true;
    for (unsigned way = 0; way < ways(journal) && !source->broken; way++) {
        same &= is_answer(place, expected, crownhazel_open(lent(journal, way), journal.length));
        same &= is_journal(place, after, journal);
    }
    return same;
}

static bool run_entry(struct source *source, const struct place *place, struct slice journal) {
    uint64_t entry = take_number(source, 8);
    struct answer expected = take_answer(source);
    uint64_t after = take_number(source, 8);
    bool same = true;
    for (unsigned way = 0; way < ways(journal) && !source->broken; way++) {
        same &= is_answer(place, expected, crownhazel_entry(lent(journal, way), journal.length, entry));
        same &= is_journal(place, after, journal);
    }
    return same;
}

static bool run_used(struct source *source, const struct place *place, struct slice journal) {
    struct answer expected = take_answer(source);
    uint64_t after = take_number(source, 8);
    bool same = true;
    for (unsigned way = 0; way < ways(journal) && !source->broken; way++) {
        same &= is_answer(place, expected, crownhazel_used(lent(journal, way), journal.length));
        same &= is_journal(place, after, journal);
    }
    return same;
}

/* The journal is looked at after the next call that has its hash. */
static bool run_listed(struct source *source, const struct place *place, struct slice journal) {
    uint64_t entry = take_number(source, 8);
    struct slice row = lend(rows, take_length(source, 8, MOST_ROW));
    struct answer expected = take_answer(source);
    struct slice put = take_bytes(source, files, row.length);
    bool same = true;
    for (unsigned way = 0; way < ways(journal) * ways(row) && !source->broken; way++) {
        uint8_t *lent_journal = lent(journal, way % ways(journal));
        uint8_t *lent_row = lent(row, way / ways(journal));
        memset(row.first - BEFORE_ROW, UNTOUCHED, BEFORE_ROW + row.length);
        uint64_t came = crownhazel_listed(lent_journal, journal.length, entry, lent_row, row.length);
        same &= is_answer(place, expected, came);
        same &= is_row(place, put, row);
    }
    return same;
}

static struct expectation take_expectation(struct source *source) {
    uint64_t date = take_number(source, 8);
    return (struct expectation){date, (int64_t)take_number(source, 8)};
}

/* A delivery as it is lent. */
struct delivery {
    struct slice journal, file;
    uint8_t *lent_journal, *lent_file;
    uint64_t line_end;
};

/* What was expected of a file: asked with the journal as it is, which stays so. */
static bool is_expected(const struct place *place, const char *when, struct expectation expected,
                        const struct delivery *delivery, struct expectation *came) {
    const uint8_t *journal = delivery->lent_journal, *file = delivery->lent_file;
    size_t journal_len = delivery->journal.length, file_len = delivery->file.length;
    uint64_t before = hash(delivery->journal);
    came->date = crownhazel_expected_date(journal, journal_len, delivery->line_end, file, file_len);
    came->balance = crownhazel_expected_balance(journal, journal_len, delivery->line_end, file, file_len);
    bool same = came->date == expected.date && came->balance == expected.balance;
    if (!same && begin_difference(place)) {
        printf("asked %s the delivery: expected %" PRIu64 " with %" PRId64 ", came %" PRIu64 " with %" PRId64 "\n",
               when, expected.date, expected.balance, came->date, came->balance);
    }
    return is_journal(place, before, delivery->journal) && same;
}

/* A file of no bytes changes no journal, so that it can be delivered in both ways. What was expected is asked before
 * the delivery and after it. Of a delivery of hers the last answer is kept as it came. */
static bool run_delivery(struct source *source, const struct place *place, struct slice journal) {
    uint64_t line_end = take_number(source, 8);
    struct slice file = take_file(source);
    struct answer expected = take_answer(source);
    struct expectation expectation = take_expectation(source);
    uint64_t after = take_number(source, 8);
    struct delivered came = {0};
    bool same = true;
    memcpy(file_copy, file.first, file.length);
    for (unsigned way = 0; way < ways(journal) * ways(file) && !source->broken; way++) {
        uint8_t *lent_journal = lent(journal, way % ways(journal));
        uint8_t *lent_file = lent(file, way / ways(journal));
        struct delivery delivery = {journal, file, lent_journal, lent_file, line_end};
        same &= is_expected(place, "before", expectation, &delivery, &came.expected);
        came.number = crownhazel_deliver(lent_journal, journal.length, line_end, lent_file, file.length);
        same &= is_answer(place, expected, came.number);
        same &= is_journal(place, after, journal);
        same &= is_expected(place, "after", expectation, &delivery, &came.expected);
        same &= is_file(place, file);
    }
    if (place->call == 'H') {
        keep_answer(source, came);
    }
    return same;
}

/* A new buffer of dots. */
static struct slice take_journal(struct source *source) {
    struct slice journal = lend(journals, take_length(source, 8, MOST_JOURNAL));
    memset(journal.first, '.', journal.length);
    return journal;
}

/* Bytes put into the journal. Those outside it are left out. */
static void poke(struct source *source, struct slice journal) {
    uint64_t offset = take_number(source, 8);
    struct slice bytes = take_file(source);
    if (offset < journal.length) {
        size_t room = journal.length - (size_t)offset;
        memcpy(journal.first + offset, bytes.first, bytes.length < room ? bytes.length : room);
    }
}

static bool run_operation(struct source *source, const struct place *place, struct slice *journal) {
    switch (place->call) {
    case 'J':
        *journal = take_journal(source);
        return true;
    case 'P':
        poke(source, *journal);
        return true;
    case 'O':
        return run_open(source, place, *journal);
    case 'E':
        return run_entry(source, place, *journal);
    case 'D':
    case 'H':
        return run_delivery(source, place, *journal);
    case 'X':
        return end_run(source, place, *journal);
    case 'U':
        return run_used(source, place, *journal);
    case 'L':
        return run_listed(source, place, *journal);
    default:
        fault(source, "has an operation that there is not");
        return false;
    }
}

/* Operations on one journal, in turn. Before the first there is a buffer of no bytes. */
static bool run_series(struct source *source, struct place *place) {
    struct slice journal = lend(journals, 0);
    uint32_t operations = (uint32_t)take_number(source, 4);
    bool same = true;
    begin_runs();
    for (place->operation = 1; place->operation <= operations && !source->broken; place->operation++) {
        place->call = (char)take_number(source, 1);
        same &= run_operation(source, place, &journal);
    }
    return same;
}

/* Runs over the same deliveries of one account, one after another. */
static bool run_neighbours(struct source *source, struct place *place) {
    bool same = run_series(source, place);
    end_runs(source);
    return same;
}

int main(int count, char **arguments) {
    if (count != 4) {
        fputs("usage: replay CHECKS SERIES NEIGHBOURS\n", stderr);
        return 2;
    }
    catch_signals();
    files = new_shelf(MOST_FILE);
    journals = new_shelf(MOST_JOURNAL);
    rows = new_shelf(ROW_SHELF);
    file_copy = new_memory(MOST_FILE);
    replay_file(arguments[1], "check", "CHCHECKS", run_check);
    replay_file(arguments[2], "series", "CHSERIES", run_series);
    replay_file(arguments[3], "neighbours", "CHNEIGHB", run_neighbours);
    print_compared();
    free(file_copy);
    return finish();
}
