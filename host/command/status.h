/* The exit statuses of the command. */
#ifndef COMMAND_STATUS_H
#define COMMAND_STATUS_H

#include <stdint.h>

enum {
    STATUS_DONE = 0,
    STATUS_FILE_REFUSED = 1,    /* the file itself is at fault: the refusals 1 to 15 */
    STATUS_USAGE = 2,           /* a mistake in the call; of a question the refusals 25 and 27 */
    STATUS_SYSTEM = 3,          /* what the system would not do: it can be tried again */
    STATUS_JOURNAL_REFUSES = 4, /* the journal cannot take the file now: 22 to 24 */
    STATUS_UNSOUND = 5          /* the journal is not sound: 21 */
};

/* The status of a refusal. */
int status_of_refusal(uint32_t number);

/* Of several the worst, in this order: 5, 3, 2, 4, 1, 0. */
int worse(int one, int other);

#endif
