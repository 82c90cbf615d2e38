/* One account among its neighbours; neighbours.h says what each function does. */
#include "neighbours.h"

#include <inttypes.h>
#include <string.h>

#include "crownhazel.h"

enum {
    KEY = 25,             /* bytes of an account key, with which a row begins */
    MOST_HERS = 1000,     /* deliveries of hers in a run */
    MOST_BODIES = 1 << 20 /* bytes of her statements that a journal holds */
};

/* What a run shows of her. */
struct run {
    uint8_t key[KEY];
    struct delivered answers[MOST_HERS];
    size_t deliveries;
    uint8_t bodies[MOST_BODIES];
    size_t length;
    uint32_t statements;
};

/* The first run of a case and the one that goes on, which is the first itself as long as none has ended. */
static struct run kept[2];
static struct run *first = &kept[0], *current = &kept[1];
static uint32_t ended;
static uint64_t runs_compared, answers_compared;

/* Nothing yet of a run. */
static void begin_run(void) {
    current->deliveries = 0;
    current->length = 0;
    current->statements = 0;
}

void begin_runs(void) {
    ended = 0;
    begin_run();
}

void keep_answer(struct source *source, struct delivered answer) {
    if (current->deliveries == MOST_HERS) {
        fault(source, "has more deliveries of one account than a run may have");
        return;
    }
    current->answers[current->deliveries] = answer;
    current->deliveries++;
}

static bool refused_entry(const struct place *place, uint32_t entry, uint64_t answer) {
    if (begin_difference(place)) {
        printf("entry %" PRIu32 " is used and refused with %" PRIu32 "\n", entry, crownhazel_refusal(answer));
    }
    return false;
}

/* Adds the body of an entry of hers. */
static bool add_body(struct source *source, const struct place *place, struct slice journal, uint32_t entry) {
    uint64_t found = crownhazel_entry(journal.first, journal.length, entry);
    if (crownhazel_is_refused(found)) {
        return refused_entry(place, entry, found);
    }
    size_t offset = CROWNHAZEL_CONTENTS + (size_t)CROWNHAZEL_RECORD * crownhazel_first_line(found);
    size_t length = (size_t)CROWNHAZEL_RECORD * crownhazel_records(found);
    if (offset > journal.length || length > journal.length - offset) {
        if (begin_difference(place)) {
            printf("the body of entry %" PRIu32 " does not stand in the journal\n", entry);
        }
        return false;
    }
    if (length > MOST_BODIES - current->length) {
        fault(source, "has more statements of one account than a run may hold");
        return false;
    }
    memcpy(current->bodies + current->length, journal.first + offset, length);
    current->length += length;
    current->statements++;
    return true;
}

/* Gathers what a journal holds of her, in the order of its entries, by the exported functions alone. */
static bool gather(struct source *source, const struct place *place, struct slice journal) {
    uint64_t used = crownhazel_used(journal.first, journal.length);
    if (crownhazel_is_refused(used)) {
        if (begin_difference(place)) {
            printf("the journal is refused with %" PRIu32 "\n", crownhazel_refusal(used));
        }
        return false;
    }
    for (uint32_t entry = 1; entry <= crownhazel_entries_used(used); entry++) {
        uint8_t row[CROWNHAZEL_ROW];
        uint64_t listed = crownhazel_listed(journal.first, journal.length, entry, row, sizeof row);
        if (crownhazel_is_refused(listed)) {
            return refused_entry(place, entry, listed);
        }
        if (memcmp(row, current->key, KEY) == 0 && !add_body(source, place, journal, entry)) {
            return false;
        }
    }
    return true;
}

/* Whether as many statements are held of her as expected, with the bodies expected. */
static bool is_held(const struct place *place, uint32_t statements, uint64_t bodies) {
    uint64_t came = hash((struct slice){current->bodies, current->length});
    bool same = current->statements == statements && came == bodies;
    if (!same && begin_difference(place)) {
        printf("expected %" PRIu32 " statements of hers of hash 0x%016" PRIX64, statements, bodies);
        printf(", came %" PRIu32 " of hash 0x%016" PRIX64 "\n", current->statements, came);
    }
    return same;
}

static bool same_delivered(struct delivered one, struct delivered other) {
    return one.number == other.number && one.expected.date == other.expected.date
        && one.expected.balance == other.expected.balance;
}

static void print_delivered(struct delivered answer) {
    if (crownhazel_is_refused(answer.number)) {
        printf("refused %" PRIu32 " at record %" PRIu32, crownhazel_refusal(answer.number),
               crownhazel_record(answer.number));
    } else {
        printf("stored %" PRIu32 " held %" PRIu32, crownhazel_stored(answer.number), crownhazel_held(answer.number));
    }
    printf(" (0x%016" PRIX64 "), expected %" PRIu64 " with %" PRId64, answer.number, answer.expected.date,
           answer.expected.balance);
}

/* Whether her deliveries were answered as in the first run. */
static bool same_answers(const struct place *place) {
    bool same = current->deliveries == first->deliveries;
    if (!same && begin_difference(place)) {
        printf("run 1 has %zu deliveries of hers, run %" PRIu32 " has %zu\n", first->deliveries, ended + 1,
               current->deliveries);
    }
    for (size_t i = 0; i < current->deliveries && i < first->deliveries; i++) {
        bool alike = same_delivered(first->answers[i], current->answers[i]);
        if (!alike && begin_difference(place)) {
            printf("delivery %zu of hers: in run 1 ", i + 1);
            print_delivered(first->answers[i]);
            printf("; in run %" PRIu32 " ", ended + 1);
            print_delivered(current->answers[i]);
            printf("\n");
        }
        same &= alike;
    }
    return same;
}

/* Whether her held statements are those of the first run, to the byte and in the same order. */
static bool same_bodies(const struct place *place) {
    size_t i = 0;
    while (i < first->length && i < current->length && first->bodies[i] == current->bodies[i]) {
        i++;
    }
    bool same = first->statements == current->statements && i == first->length && i == current->length;
    if (!same && begin_difference(place)) {
        printf("run 1 holds %" PRIu32 " statements of hers in %zu bytes, run %" PRIu32 " %" PRIu32
               " in %zu; they are alike up to byte %zu\n",
               first->statements, first->length, ended + 1, current->statements, current->length, i);
    }
    return same;
}

/* Compares the run with the first of its case. */
static bool is_as_first(struct source *source, const struct place *place) {
    if (memcmp(first->key, current->key, KEY) != 0) {
        fault(source, "has a case of two accounts");
        return false;
    }
    runs_compared++;
    answers_compared += current->deliveries;
    bool same = same_answers(place);
    return same_bodies(place) && same;
}

bool end_run(struct source *source, const struct place *place, struct slice journal) {
    if (take_length(source, 4, KEY) != KEY) {
        fault(source, "has a key of another length");
    }
    take(source, current->key, KEY);
    uint32_t statements = (uint32_t)take_number(source, 4);
    uint64_t bodies = take_number(source, 8);
    if (source->broken) {
        return true;
    }
    bool same = gather(source, place, journal) && is_held(place, statements, bodies);
    if (ended == 0) {
        struct run *run = first;
        first = current;
        current = run;
    } else {
        same &= is_as_first(source, place);
    }
    ended++;
    begin_run();
    return same;
}

void end_runs(struct source *source) {
    if (current->deliveries != 0) {
        fault(source, "has a delivery of one account after its last run");
    }
    if (ended < 2) {
        fault(source, "has a case of less than two runs");
    }
}

void print_compared(void) {
    printf("compared with the first of their case: %" PRIu64 " runs, %" PRIu64 " answers of one account\n",
           runs_compared, answers_compared);
}
