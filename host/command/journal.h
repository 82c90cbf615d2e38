/* A journal's file: read, replaced. It only ever holds a whole journal, the old one or the new. */
#ifndef COMMAND_JOURNAL_H
#define COMMAND_JOURNAL_H

#include <stdbool.h>

#include "bytes.h"
#include "lock.h"
#include "place.h"
#include "rights.h"

/* Each answers a status, with a message where it is not STATUS_DONE. */

/* Reads a journal that exists, without a lock. One that is too long is read until that shows. */
int read_journal(struct place *place, struct bytes *journal);

/* Takes the locks of a journal that exists, and reads it. Where it fails the place is still to be left. */
int hold_journal(struct place *place, const struct patience *patience, struct bytes *journal);

/* A journal that does not exist yet: takes JOURNAL.lock. */
int hold_name(struct place *place, const struct patience *patience);

/* These want the locks. */

/* Puts a new journal in the place of the one that was read, with its rights; with this mode where it is not NULL. */
int replace_journal(struct place *place, const struct bytes *journal, const mode_t *mode);

/* Puts a new journal where there is none. STATUS_USAGE, without a message, where there is a file by now. */
int create_journal(struct place *place, const struct bytes *journal, mode_t mode);

/* Waits until the journal that was read, and its name, are on the disk. */
int settle_journal(const struct place *place);

/* For files beside journals. */

/* Brings what was written to a file, or the names in a folder, to the disk. False with errno where it fails. */
bool sync_whole(int descriptor);

/* Brings bytes to the disk through a descriptor. False with errno where it fails. */
bool write_to_disk(int descriptor, const struct bytes *bytes);

/* Brings the names in the folder to the disk, which was opened before. */
int sync_folder(const struct place *place);

/* Says that a file cannot be written, why, and what is left. Answers STATUS_SYSTEM. */
int not_written(const struct place *place, const char *path, const char *left);

#endif
