#define _GNU_SOURCE
#include "journal.h"

#include <errno.h>
#include <fcntl.h>
#include <stdio.h>
#include <string.h>
#include <unistd.h>

#include "crownhazel.h"
#include "say.h"
#include "status.h"

enum { MOST_JOURNAL = CROWNHAZEL_CONTENTS + CROWNHAZEL_RECORD * CROWNHAZEL_MOST_LINES };

/* What is left where a new journal could not be written. */
static const char as_it_was[] = "the journal is as it was";
static const char none_yet[] = "there is no journal yet";

/* Its status is taken before its bytes, so that a change of them shows. Room for all of it is made at once, where its
 * length is one of a journal. */
static int read_from(struct place *place, struct bytes *journal) {
    *journal = (struct bytes){0};
    if (fstat(place->file, &place->status) == 0 &&
        (place->status.st_size > MOST_JOURNAL || make_room(journal, (size_t)place->status.st_size + 1)) &&
        read_up_to(place->file, MOST_JOURNAL + 1, journal)) {
        return STATUS_DONE;
    }
    let_go(journal);
    return failed(place->name, "the journal cannot be read");
}

/* Without waiting, not for a pipe either that has come in the journal's place. */
int read_journal(struct place *place, struct bytes *journal) {
    struct stat status;
    place->file = open(place->path, O_RDONLY | O_CLOEXEC | O_NONBLOCK | O_NOFOLLOW);
    if (place->file < 0 || fstat(place->file, &status) != 0) {
        return failed(place->name, "the journal cannot be read");
    }
    return S_ISREG(status.st_mode) ? read_from(place, journal) : no_file(place);
}

/* Whoever may use the journal may use its lock. That only the lock's owner can set it right is no hindrance; but a lock
 * that is ours, and that cannot be set right, would shut others out, and goes when we do. */
static void share_lock(struct place *place, int journal) {
    struct rights rights, lock;
    if (!read_rights(journal, &rights) || !read_rights(place->lock, &lock) || same_rights(&rights, &lock)) {
        return;
    }
    place->lock_goes = !give_rights(place->lock, &rights) && lock.owner == geteuid();
}

int hold_journal(struct place *place, const struct patience *patience, struct bytes *journal) {
    int status = open_folder(place);
    if (status == STATUS_DONE) {
        status = take_name_lock(place, patience);
    }
    if (status == STATUS_DONE) {
        status = take_file_lock(place, patience);
    }
    if (status != STATUS_DONE) {
        return status;
    }
    share_lock(place, place->file);
    return read_from(place, journal);
}

int hold_name(struct place *place, const struct patience *patience) {
    int status = open_folder(place);
    return status == STATUS_DONE ? take_name_lock(place, patience) : status;
}

bool sync_whole(int descriptor) {
    int status;
    do {
        status = fsync(descriptor);
    } while (status != 0 && errno == EINTR);
    return status == 0;
}

bool write_to_disk(int descriptor, const struct bytes *bytes) {
    return write_whole(descriptor, bytes->first, bytes->length) && sync_whole(descriptor);
}

/* Where there was a journal its rights, with the mode that was asked for, if one was. */
static bool give_either(int descriptor, const struct place *place, const mode_t *mode) {
    struct rights rights;
    if (place->file < 0) {
        return give_mode(descriptor, *mode);
    }
    if (!read_rights(place->file, &rights)) {
        return false;
    }
    if (mode != NULL) {
        rights.mode = *mode;
        rights.length = 0;
    }
    return give_rights(descriptor, &rights);
}

/* The new journal goes again, where its temporary name is still its own. Where that fails, the next run does it. errno
 * stays. */
static void remove_fresh(const struct place *place, int fresh) {
    int error = errno;
    if (names_file(place->fresh_path, fresh)) {
        unlink(place->fresh_path);
    }
    errno = error;
}

/* The new journal, on the disk under its temporary name; negative with errno where it fails. What a run that was killed
 * has left is removed and never written to: it can be a second name of the journal itself, left by an opening. */
static int write_fresh(const struct place *place, const struct bytes *journal, const mode_t *mode) {
    if (unlink(place->fresh_path) != 0 && errno != ENOENT) {
        return -1;
    }
    int fresh = open(place->fresh_path, O_RDWR | O_CREAT | O_EXCL | O_CLOEXEC, RIGHTS_PRIVATE);
    if (fresh < 0 || (give_either(fresh, place, mode) && write_to_disk(fresh, journal))) {
        return fresh;
    }
    remove_fresh(place, fresh);
    close_after(false, fresh);
    return -1;
}

int not_written(const struct place *place, const char *path, const char *left) {
    complain(place->name, "%s cannot be written: %s; %s", path, strerror(errno), left);
    return STATUS_SYSTEM;
}

int sync_folder(const struct place *place) {
    if (sync_whole(place->around)) {
        return STATUS_DONE;
    }
    complain(place->name, "the folder %s cannot be brought to the disk: %s; try again", place->folder, strerror(errno));
    return STATUS_SYSTEM;
}

/* Whether the journal is still the one that was read: the same file, and not written to since. False with errno 0 where
 * it is not, and another errno where that cannot be told. */
static bool is_still_there(const struct place *place) {
    struct stat now;
    const struct stat *then = &place->status;
    if (!names_file(place->path, place->file) || fstat(place->file, &now) != 0) {
        return false;
    }
    errno = 0;
    return now.st_size == then->st_size && now.st_mtim.tv_sec == then->st_mtim.tv_sec &&
           now.st_mtim.tv_nsec == then->st_mtim.tv_nsec;
}

/* Another program has written to the journal, put a file in its place, or taken it away. What it did stays. */
static int not_the_same(const struct place *place) {
    complain(place->name,
             "another program has replaced or changed the journal meanwhile; what it did stays, and nothing "
             "else was changed: try again");
    return STATUS_SYSTEM;
}

int settle_journal(const struct place *place) {
    if (!sync_whole(place->file)) {
        complain(place->name, "the journal cannot be brought to the disk: %s; try again", strerror(errno));
        return STATUS_SYSTEM;
    }
    int status = sync_folder(place);
    if (status != STATUS_DONE || is_still_there(place)) {
        return status;
    }
    return errno == 0 ? not_the_same(place) : failed(place->name, "the journal cannot be looked at");
}

/* Puts the new journal in the old one's place. That it is the new one is looked at before the rename and before the
 * answer. */
static int put_fresh(struct place *place, int fresh) {
    if (!is_still_there(place) || !names_file(place->fresh_path, fresh)) {
        return errno == 0 ? not_the_same(place) : not_written(place, place->fresh_path, as_it_was);
    }
    if (rename(place->fresh_path, place->path) != 0) {
        return not_written(place, place->fresh_path, as_it_was);
    }
    place->replaced = true;
    share_lock(place, fresh);
    int status = sync_folder(place);
    return status == STATUS_DONE && !names_file(place->path, fresh) && errno == 0 ? not_the_same(place) : status;
}

/* A rename does not ask for the right to write the old file, so it is asked for here: a journal can be closed by its
 * mode. */
int replace_journal(struct place *place, const struct bytes *journal, const mode_t *mode) {
    if (access(place->path, W_OK) != 0) {
        return failed(place->name, "the journal may not be changed");
    }
    int fresh = write_fresh(place, journal, mode);
    if (fresh < 0) {
        return not_written(place, place->fresh_path, as_it_was);
    }
    int status = put_fresh(place, fresh);
    if (!place->replaced) {
        remove_fresh(place, fresh);
    }
    close(fresh); /* all of it is on the disk */
    return status;
}

/* Gives the new journal its name by its descriptor, whatever has its temporary name by now; by that name where the
 * system shows no descriptors. */
static bool give_name(const struct place *place, int fresh) {
    char file[32];
    snprintf(file, sizeof file, "/proc/self/fd/%d", fresh);
    if (linkat(AT_FDCWD, file, AT_FDCWD, place->path, AT_SYMLINK_FOLLOW) == 0) {
        return true;
    }
    int error = errno;
    if (error == ENOENT && access("/proc/self/fd", F_OK) != 0) {
        return link(place->fresh_path, place->path) == 0;
    }
    errno = error;
    return false;
}

/* By a link, which fails where the name is taken: a file that appears in between is not overwritten. Where it is not
 * sure to be on the disk it goes again, so that the same call can be made again. */
static int link_fresh(struct place *place, int fresh) {
    if (!give_name(place, fresh)) {
        return errno == EEXIST ? STATUS_USAGE : not_written(place, place->fresh_path, none_yet);
    }
    share_lock(place, fresh);
    int status = sync_folder(place);
    if (status != STATUS_DONE) {
        unlink(place->path);
    }
    return status;
}

int create_journal(struct place *place, const struct bytes *journal, mode_t mode) {
    int fresh = write_fresh(place, journal, &mode);
    if (fresh < 0) {
        return not_written(place, place->fresh_path, none_yet);
    }
    int status = link_fresh(place, fresh);
    remove_fresh(place, fresh);
    close(fresh);
    return status;
}
