/* A journal's locks. JOURNAL.lock keeps those apart who find the journal by its name; the lock on the journal's own
 * file keeps them apart where JOURNAL.lock was removed, or where the file has two names. */
#ifndef COMMAND_LOCK_H
#define COMMAND_LOCK_H

#include <stdbool.h>
#include <time.h>

#include "arguments.h"
#include "place.h"

/* How long to wait for a lock. */
struct patience {
    bool limited;
    unsigned seconds;
    struct timespec until;
};

/* Begins now. */
struct patience patience_of(const struct arguments *arguments);

/* Each answers a status, with a message where it is STATUS_SYSTEM. The locks end with leave_place. */

/* Takes JOURNAL.lock. */
int take_name_lock(struct place *place, const struct patience *patience);

/* Opens the journal's file as it is now, and locks it too. */
int take_file_lock(struct place *place, const struct patience *patience);

/* Locks a folder that is open, against others who do so; the lock ends with the descriptor. */
int take_folder_lock(const char *name, int descriptor, const struct patience *patience);

/* Whether a path names the file of a descriptor. Where it names another one or none, errno is 0; where that cannot be
 * told, it is not. */
bool names_file(const char *path, int descriptor);

#endif
