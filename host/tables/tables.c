/* Runs the cases that the independent implementation wrote, with its answers, against the lent table and the writer.
 *
 * usage: tables CASES
 *
 * The format of the file is in host/oracle/README.md. Each case compares the whole answer, every field of every row
 * filled, every byte written, and that all else that was lent is as it was. The first differences are printed. The
 * last line is 'N passed, M failed', counted in cases, and the status is 0 only where M is 0. */
#include <inttypes.h>
#include <stdio.h>
#include <stdlib.h>
#include <string.h>

#include "cases.h"
#include "crownhazel.h"
#include "tables.h"

enum {
    MOST_FILE = 1 << 22,        /* bytes of a file in a case */
    MOST_ROWS = 1 << 14,        /* rows of a table */
    MOST_COMPLEMENTS = 1 << 20, /* bytes of complements */
    MOST_OUT = 1 << 21          /* bytes of an output */
};

_Static_assert(sizeof(struct key) == 25 && sizeof(struct head) == 56 && sizeof(struct movement) == 96, "x86-64");
_Static_assert(__BYTE_ORDER__ == __ORDER_LITTLE_ENDIAN__, "numbers of a case are read as they stand");

static struct loan files, tables, complements, outs;

/* What is expected in a table and in an output. */
static struct movement *rows;
static struct shelf records;

/* Refusal, record, and the number of rows or bytes. */
struct answer {
    uint64_t number, record, value;
};

static struct answer take_answer(struct source *source) {
    struct answer answer;
    answer.number = take_number(source, 8);
    answer.record = take_number(source, 8);
    answer.value = take_number(source, 8);
    return answer;
}

static void print_answer(const char *word, struct answer answer) {
    printf("%s number %" PRIu64 " record %" PRIu64 " and %" PRIu64, word, answer.number, answer.record, answer.value);
}

static bool is_answer(const struct place *place, struct answer expected, struct answer came) {
    bool same = came.number == expected.number && came.record == expected.record && came.value == expected.value;
    if (!same && begin_difference(place)) {
        print_answer("expected", expected);
        print_answer(", came", came);
        printf("\n");
    }
    return same;
}

/* The fields of a row, in the order of a case. */
#define FIELD(name) {#name, offsetof(struct movement, name), sizeof ((struct movement *)NULL)->name}
static const struct field {
    const char *name;
    size_t first, length;
} fields[] = {
    FIELD(internal), FIELD(code),   FIELD(booked),      FIELD(reject), FIELD(value),     FIELD(label),
    FIELD(entry),    FIELD(exempt), FIELD(unavailable), FIELD(amount), FIELD(reference), FIELD(complements),
};

enum {
    FIELDS = sizeof fields / sizeof fields[0]
};

/* What stands between the fields stays as it is. */
static void take_row(struct source *source, struct movement *row) {
    for (size_t i = 0; i < FIELDS; i++) {
        take(source, (uint8_t *)row + fields[i].first, fields[i].length);
    }
}

/* The first field that differs, or NULL. */
static const char *difference(const struct movement *one, const struct movement *other) {
    for (size_t i = 0; i < FIELDS; i++) {
        const uint8_t *field = (const uint8_t *)one + fields[i].first;
        if (memcmp(field, (const uint8_t *)other + fields[i].first, fields[i].length) != 0) {
            return fields[i].name;
        }
    }
    return NULL;
}

/* Whether the first rows of the table are those expected. */
static bool are_rows(const struct place *place, uint64_t count) {
    const struct movement *came = (const struct movement *)tables.slice.first;
    for (uint64_t i = 0; i < count; i++) {
        const char *field = difference(&rows[i], &came[i]);
        if (field != NULL) {
            if (begin_difference(place)) {
                printf("row %" PRIu64 ": %s differs\n", i + 1, field);
            }
            return false;
        }
    }
    return true;
}

/* Whether the first bytes of the output are those expected. */
static bool are_records(const struct place *place, struct slice expected) {
    for (size_t i = 0; i < expected.length; i++) {
        if (outs.slice.first[i] != expected.first[i]) {
            if (begin_difference(place)) {
                printf("record %zu, position %zu: expected byte 0x%02X, came 0x%02X\n", i / CROWNHAZEL_RECORD + 1,
                       i % CROWNHAZEL_RECORD + 1, expected.first[i], outs.slice.first[i]);
            }
            return false;
        }
    }
    return true;
}

/* What both kinds of calls take from the file of cases. */
struct call {
    struct form form;
    uint64_t k;
    struct head head;
    struct answer expected;
    struct slice written;
};

/* One call that fills a table. Only the rows expected may change. */
static bool read_once(const struct place *place, const struct call *call, unsigned way) {
    unsigned file_ways = ways(files.slice);
    size_t length = tables.slice.length / sizeof(struct movement);
    fill(tables.slice.first, tables.slice.length);
    keep(&files);
    keep(&tables);
    struct table_answer came = movements(call->form, lent(files.slice, way % file_ways), files.slice.length, call->k,
                                         (struct movement *)lent(tables.slice, way / file_ways), length);
    bool same = is_answer(place, call->expected, (struct answer){came.number, came.record, came.movements});
    same &= is_untouched(place, &files, 0);
    same &= is_untouched(place, &tables, (size_t)call->expected.value * sizeof(struct movement));
    return same;
}

/* One call that writes. Only the bytes expected may change. */
static bool write_once(const struct place *place, const struct call *call, unsigned way) {
    unsigned table_ways = ways(tables.slice);
    unsigned input_ways = table_ways * ways(complements.slice);
    size_t length = tables.slice.length / sizeof(struct movement);
    fill(outs.slice.first, outs.slice.length);
    keep(&tables);
    keep(&complements);
    keep(&outs);
    struct write_answer came = write_statement(call->head, (struct movement *)lent(tables.slice, way % table_ways),
                                               length, lent(complements.slice, way % input_ways / table_ways),
                                               complements.slice.length, lent(outs.slice, way / input_ways),
                                               outs.slice.length);
    bool same = is_answer(place, call->expected, (struct answer){came.number, came.record, came.bytes});
    same &= are_records(place, call->written);
    same &= is_untouched(place, &outs, call->written.length);
    same &= is_untouched(place, &tables, 0);
    same &= is_untouched(place, &complements, 0);
    return same;
}

static bool write_all(const struct place *place, const struct call *call) {
    unsigned all = ways(tables.slice) * ways(complements.slice) * ways(outs.slice);
    bool same = true;
    for (unsigned way = 0; way < all; way++) {
        same &= write_once(place, call, way);
    }
    return same;
}

/* Line end, file, k. */
static void take_question(struct source *source, struct call *call) {
    call->form.line_end = take_number(source, 8);
    files.slice = take_bytes(source, files.shelf, MOST_FILE);
    call->k = take_number(source, 8);
}

static void take_head(struct source *source, struct head *head) {
    take(source, (uint8_t *)&head->key, sizeof head->key);
    head->old_date = (uint32_t)take_number(source, 4);
    head->old_balance = (int64_t)take_number(source, 8);
    head->new_date = (uint32_t)take_number(source, 4);
    head->new_balance = (int64_t)take_number(source, 8);
}

static void lend_table(struct source *source, unsigned width) {
    lend_filled(&tables, take_length(source, width, MOST_ROWS) * sizeof(struct movement));
}

/* The movements of a statement into a table of any length. */
static bool run_reading(struct source *source, const struct place *place) {
    struct call call = {0};
    bool same = true;
    take_question(source, &call);
    lend_table(source, 8);
    call.expected = take_answer(source);
    if (call.expected.value > tables.slice.length / sizeof(struct movement)) {
        fault(source, "expects more rows than its table has");
        return false;
    }
    for (uint64_t i = 0; i < call.expected.value; i++) {
        take_row(source, &rows[i]);
    }
    for (unsigned way = 0; way < ways(files.slice) * ways(tables.slice) && !source->broken; way++) {
        same &= read_once(place, &call, way);
        same &= are_rows(place, call.expected.value);
    }
    return same;
}

/* Values written to an output of any length. */
static bool run_writing(struct source *source, const struct place *place) {
    struct call call = {0};
    take_head(source, &call.head);
    lend_table(source, 4);
    for (size_t i = 0; i < tables.slice.length / sizeof(struct movement); i++) {
        take_row(source, (struct movement *)tables.slice.first + i);
    }
    complements.slice = take_bytes(source, complements.shelf, MOST_COMPLEMENTS);
    lend_filled(&outs, take_length(source, 8, MOST_OUT));
    call.expected = take_answer(source);
    call.written = take_bytes(source, records, MOST_OUT);
    if (call.written.length > outs.slice.length) {
        fault(source, "expects more bytes than its output has");
    }
    return !source->broken && write_all(place, &call);
}

/* A statement read into a table and written from it: the records of the case, with `{` for each of its zeros. */
static bool run_trip(struct source *source, const struct place *place) {
    struct call call = {0};
    take_question(source, &call);
    lend_table(source, 4);
    take_head(source, &call.head);
    complements.slice = take_bytes(source, complements.shelf, MOST_COMPLEMENTS);
    struct slice written = take_bytes(source, records, MOST_OUT);
    lend_filled(&outs, written.length);
    call.expected.value = tables.slice.length / sizeof(struct movement);
    if (source->broken || !read_once(place, &call, 0)) {
        return false;
    }
    call.expected.value = written.length;
    call.written = written;
    return write_all(place, &call);
}

static bool run(struct source *source, struct place *place) {
    switch (take_number(source, 1)) {
    case 'R':
        place->kind = "table case";
        return run_reading(source, place);
    case 'W':
        place->kind = "write case";
        return run_writing(source, place);
    case 'T':
        place->kind = "round trip case";
        return run_trip(source, place);
    default:
        fault(source, "has a case of no kind");
        return false;
    }
}

int main(int count, char **arguments) {
    if (count != 2) {
        fputs("usage: tables CASES\n", stderr);
        return 2;
    }
    catch_signals();
    files = new_loan("file", MOST_FILE);
    tables = new_loan("table", MOST_ROWS * sizeof(struct movement));
    complements = new_loan("complements", MOST_COMPLEMENTS);
    outs = new_loan("output", MOST_OUT);
    rows = (struct movement *)new_memory(MOST_ROWS * sizeof(struct movement));
    records = new_shelf(MOST_OUT);
    replay_file(arguments[1], "case", "CHTABLES", run);
    return finish();
}
