/* Copies of a journal, each with its checksum beside it. */
#ifndef COMMAND_COPIES_H
#define COMMAND_COPIES_H

#include "bytes.h"
#include "place.h"

/* How the name of a copy's checksum ends, after the copy's own. */
#define CHECKSUM_ENDING ".sha256"

/* These answer a status, with a message where it is not STATUS_DONE. */

/* Writes a copy and its checksum where there is neither, and brings both to the disk. */
int write_copy(struct place *copy, const struct bytes *journal);

/* Holds a copy's bytes to its checksum. */
int match_checksum(const struct place *copy, const struct bytes *journal);

#endif
