/* What a journal expected that has refused a file with 22. */
#ifndef COMMAND_EXPECTED_H
#define COMMAND_EXPECTED_H

#include <stdbool.h>
#include <stddef.h>
#include <stdint.h>
#include <stdio.h>

#include "contents.h"
#include "input.h"

/* Why a statement does not follow: it begins later, with another balance; on the very day, with another balance; before
 * a day that the journal holds; or before one that the file alone has. */
enum unfollowed { ONE_IS_MISSING, OTHER_BALANCE, CAN_NEVER_FOLLOW, OUT_OF_ORDER };

struct expected {
    struct entry statement; /* the one that does not follow, as an entry would say it */
    uint64_t date;          /* the new date of its account's last statement, as the delivery has seen it */
    int64_t balance;        /* that one's new balance */
    bool by_file;           /* that one stands before it in the file, and not in the journal */
    uint64_t held_until;    /* the last new date that the journal holds of the account; 0 where it holds none */
    enum unfollowed why;
};

/* Asks what was expected of a file that a journal, whose entries these are, has just refused with 22. False with errno
 * where there is no memory. */
bool find_expected(const struct bytes *journal, const struct entry *entries, size_t count, const struct input *input,
                   uint64_t refusal, struct expected *expected);

/* That in words. */
void write_expected(FILE *out, const struct expected *expected);

/* Says a refusal by a journal of so many body lines, and what to do about it. What was expected is looked at with 22
 * alone. Answers the status. */
int refused_delivery(const char *name, uint64_t refusal, const char *journal, size_t lines,
                     const struct expected *expected);

#endif
