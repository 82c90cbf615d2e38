#include "periods.h"

#include <stdlib.h>
#include <string.h>

#include "crownhazel.h"

static bool add(struct periods *periods, const struct entry *entries, size_t count) {
    if (count == 0) {
        return true;
    }
    struct entry *list = realloc(periods->list, (periods->count + count) * sizeof *list);
    if (list == NULL) {
        return false;
    }
    memcpy(list + periods->count, entries, count * sizeof *list);
    periods->list = list;
    periods->count += count;
    return true;
}

/* There is no reader of records here: a part of the file is delivered to a blank journal in memory, whose entries say
 * what stands in it. */
static bool take_part(struct bytes *journal, uint64_t line_end, const uint8_t *part, size_t length,
                      struct periods *periods, uint64_t *answer) {
    struct entry entries[CROWNHAZEL_MOST_ENTRIES];
    crownhazel_open(journal->first, journal->length);
    *answer = crownhazel_deliver(journal->first, journal->length, line_end, part, length);
    return add(periods, entries, crownhazel_is_refused(*answer) ? 0 : list_entries(journal, entries));
}

enum { MOST_PARTS = 200 };

/* The statements from a byte on, in so many parts at most. Where a statement does not follow those before it, or is one
 * too many for a journal, those before it are a file of their own, and so is the rest. A file with so many breaks says
 * the same again and again, or can never be delivered: after the last part nothing more is looked at. */
static bool take_parts(const struct input *input, size_t at, size_t most, struct bytes *journal,
                       struct periods *periods) {
    size_t width = width_of(input);
    bool good = true;
    for (size_t parts = 0; good && at < input->kept.length && parts < most; parts++) {
        uint64_t answer;
        const uint8_t *rest = input->kept.first + at;
        size_t length = input->kept.length - at;
        good = take_part(journal, input->line_end, rest, length, periods, &answer);
        if (good && crownhazel_is_refused(answer) && crownhazel_record(answer) > 1) {
            length = (crownhazel_record(answer) - 1) * width;
            good = take_part(journal, input->line_end, rest, length, periods, &answer);
        }
        at += length;
    }
    periods->whole = at >= input->kept.length;
    return good;
}

/* The same, with a blank journal for the longest part. */
static bool find_parts(const struct input *input, size_t at, size_t most, struct periods *periods) {
    struct bytes journal = {0};
    *periods = (struct periods){0};
    size_t records = input->kept.length / CROWNHAZEL_RECORD;
    size_t length = CROWNHAZEL_CONTENTS + CROWNHAZEL_RECORD * records;
    bool found = make_room(&journal, length);
    if (found) {
        journal.length = length;
        found = take_parts(input, at, most, &journal, periods);
    }
    let_go(&journal);
    return found;
}

bool find_periods(const struct input *input, struct periods *periods) {
    return find_parts(input, 0, MOST_PARTS, periods);
}

/* It is the first of the part that begins there: nothing stands in its way in a blank journal. */
bool find_statement(const struct input *input, uint32_t record, struct entry *statement) {
    struct periods periods;
    bool found = find_parts(input, (record - 1) * width_of(input), 1, &periods) && periods.count > 0;
    if (found) {
        *statement = periods.list[0];
    }
    forget_periods(&periods);
    return found;
}

void forget_periods(struct periods *periods) {
    free(periods->list);
    *periods = (struct periods){0};
}
