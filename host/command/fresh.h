/* Files that come into being as a whole: written beside their place, brought to the disk, and only then given their
 * name. */
#ifndef COMMAND_FRESH_H
#define COMMAND_FRESH_H

#include "bytes.h"
#include "place.h"
#include "rights.h"

/* Writes to a temporary file of a name that nobody else has, beside the path; with these rights, or the owner's alone
 * where they are NULL. Its path, which is the caller's to free, where it is on the disk; else NULL with errno. */
char *write_temporary(const struct place *place, const char *path, const struct bytes *bytes,
                      const struct rights *rights);

/* Says that a path is taken. Answers a status. */
typedef int taken_name(const char *name, const char *path);

/* A new file with these bytes, where there is none of that name. `left` says what is left where it fails. Answers a
 * status, with a message where it is not STATUS_DONE. */
int write_new(const struct place *place, const char *path, const struct bytes *bytes, const char *left,
              taken_name *taken);

#endif
