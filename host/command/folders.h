/* The folders of an intake: the one where files wait, and those to which they are moved. A file is moved as a whole and
 * never over another. */
#ifndef COMMAND_FOLDERS_H
#define COMMAND_FOLDERS_H

#include <stddef.h>

#include "arguments.h"
#include "bytes.h"
#include "place.h"

struct folder {
    const char *name; /* as it was given */
    int descriptor;
};

/* Begins with open_folders, ends with leave_folders. */
struct folders {
    struct folder incoming, done, refused;
};

/* Opens the folders that the operands behind the journal name, looks whether files can be moved between them, and takes
 * the lock on the first, which keeps two intakes apart. Answers a status, with a message where it is not STATUS_DONE;
 * then there is nothing to leave. */
int open_folders(const struct arguments *arguments, const struct place *journal, struct folders *folders);
void leave_folders(struct folders *folders);

/* The path of a name in a folder, which is the caller's to free; NULL where there is no memory. */
char *path_in(const struct folder *folder, const char *name);

/* These move the file that a descriptor has open from the first folder to another one, under its own name or, where
 * that is taken, with a number behind it, and wait until the move is on the disk. Where another program has put another
 * file in its place meanwhile, that goes back. `moved` is its new path, which is the caller's to free, and NULL where
 * it was not moved. Answers a status, with a message where it is not STATUS_DONE. */

int move_to_done(const struct folders *folders, const char *path, int file, char **moved);

/* The answer to the file is on the disk beside its new place before it is moved. */
int move_to_refused(const struct folders *folders, const char *path, int file, const struct bytes *answer,
                    char **moved);

#endif
