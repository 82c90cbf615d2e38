/* Where a journal stands, or a picture, and the names beside it. */
#ifndef COMMAND_PLACE_H
#define COMMAND_PLACE_H

#include <stdbool.h>
#include <sys/stat.h>

/* How names end that are the command's own: a lock's, and a temporary file's, which begins with a dot too. */
#define LOCK_ENDING ".lock"
#define TEMPORARY_ENDING ".crownhazel~"

/* Begins with find_journal, ends with leave_place. */
struct place {
    const char *name; /* as it was given, for messages */
    const char *kind; /* what is to stand there, for messages */
    char *path;       /* symbolic links followed */
    char *folder;
    char *lock_path;  /* JOURNAL.lock: whoever changes the journal holds it. It is never removed */
    char *fresh_path; /* .JOURNAL.crownhazel~: a new journal while it is written. No journal can have such a name */
    bool exists;
    int around, lock, file; /* descriptors of the folder, the lock and the journal, negative where they are not open */
    struct stat status;     /* of the journal's file as it was read */
    bool lock_goes;         /* the lock would shut others out who may use the journal: it is removed with the place */
    bool replaced;          /* a new journal has taken the old one's place */
};

/* Each answers a status, with a message where it is not STATUS_DONE; then there is nothing to leave. */

/* Finds a journal. One that does not exist has its place too; one that is no regular file has none, nor has a name that
 * is reserved. */
int find_journal(const char *name, struct place *place);

/* Finds a journal that exists; a copy is one too. */
int find_existing_journal(const char *name, struct place *place);
int find_copy_of_journal(const char *name, struct place *place);

/* Finds the place of a picture, as that of a journal. */
int find_picture(const char *name, struct place *place);

/* Opens the folder, so that it can be brought to the disk when something was written there. */
int open_folder(struct place *place);

/* Closes what is open, which ends the locks, and says what was held back. */
void leave_place(struct place *place);

/* Says that what stands there is no regular file. Answers STATUS_SYSTEM. */
int no_file(const struct place *place);

/* The last part of a path. */
const char *last_part(const char *path);

#endif
