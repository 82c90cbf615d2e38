/* The statements of a file: whose each is, and its dates. */
#ifndef COMMAND_PERIODS_H
#define COMMAND_PERIODS_H

#include <stdbool.h>
#include <stddef.h>

#include "contents.h"
#include "input.h"

/* The entries that its statements would have, in their order. Begins as all zeros, ends with forget_periods. */
struct periods {
    struct entry *list;
    size_t count;
    bool whole; /* all of them were looked at */
};

/* Takes the statements of a file that the check accepts. False with errno where there is no memory. */
bool find_periods(const struct input *input, struct periods *periods);
void forget_periods(struct periods *periods);

/* Takes the one whose 01 is a record of such a file. False with errno where there is no memory. */
bool find_statement(const struct input *input, uint32_t record, struct entry *statement);

#endif
