/* The files that wait in a folder, oldest first. */
#ifndef COMMAND_WAITING_H
#define COMMAND_WAITING_H

#include <stdbool.h>
#include <stddef.h>
#include <stdint.h>
#include <sys/stat.h>

#include "expected.h"
#include "folders.h"
#include "input.h"
#include "periods.h"
#include "place.h"

/* What has become of a file: it waits, it cannot be taken in this run, or it has been moved. */
enum fate { WAITS, PASSED_OVER, MOVED };

struct waiting_file {
    char *path;
    struct stat status;           /* as it was when the run began */
    uint64_t day;                 /* the earliest old balance date in it; 0 where there is none */
    struct periods periods;       /* its statements; none where it is refused */
    const struct entry *earliest; /* of these; NULL where there is none */
    enum fate fate;
    const struct waiting_file *behind; /* the file that it has to wait for; NULL where there is none */
    uint64_t refusal;                  /* what the journal said last; 0 where it was not asked */
    size_t lines;                      /* of the journal then */
    struct expected expected;          /* by it, where that is 22 */
};

/* Begins with find_waiting, ends with forget_waiting. */
struct waiting {
    struct waiting_file *list;
    size_t count;
};

/* Finds the files that have arrived whole, and reads each for its date. Those that cannot be read are said and counted:
 * what may be in them nobody knows. Answers a status, with a message where it is not STATUS_DONE; the list is to be
 * forgotten in any case. */
int find_waiting(const struct folder *incoming, const struct place *journal, struct waiting *waiting,
                 size_t *unreadable);
void forget_waiting(struct waiting *waiting);

/* Opens and reads one of them again. False with a message where it cannot be read, or is not the one that it was. What
 * it keeps is the caller's to let go, and the descriptor to close. */
bool open_waiting(struct waiting_file *file, struct input *input, int *descriptor);

/* A file that has not been moved, with a statement that has to be stored before the one at a place of this file, or
 * never can be, the journal holding what it does; NULL where there is none. */
const struct waiting_file *waits_behind(const struct waiting *waiting, const struct waiting_file *file, size_t at,
                                        const struct contents *journal);

/* Whether nothing of a file can ever be stored in a journal with these entries: each of its statements is held, or
 * begins before its account ends there. */
bool holds_nothing_new(const struct waiting_file *file, const struct entry *entries, size_t count);

/* Whether it has been written to since it was opened so. */
bool was_changed(const struct waiting_file *file, int descriptor);

#endif
