#include "blank.h"

#include "arguments.h"
#include "crownhazel.h"
#include "say.h"
#include "status.h"

int make_blank(const char *name, const char *lines, struct bytes *journal) {
    size_t number = 0;
    bool right = read_number(lines, CROWNHAZEL_MOST_LINES, &number);
    size_t length = CROWNHAZEL_CONTENTS + CROWNHAZEL_RECORD * number;
    *journal = (struct bytes){0};
    if (right && !make_room(journal, length)) {
        return failed(name, "no memory for the journal");
    }
    journal->length = length;
    if (!right || crownhazel_is_refused(crownhazel_open(journal->first, length))) {
        complain(name, "LINES is a whole number from 0 to %d", CROWNHAZEL_MOST_LINES);
        let_go(journal);
        return STATUS_USAGE;
    }
    return STATUS_DONE;
}
