#define _GNU_SOURCE
#include "folders.h"

#include <errno.h>
#include <fcntl.h>
#include <stdio.h>
#include <stdlib.h>
#include <string.h>
#include <sys/stat.h>
#include <unistd.h>

#include "fresh.h"
#include "journal.h"
#include "lock.h"
#include "rights.h"
#include "say.h"
#include "status.h"

#define ANSWER_ENDING ".answer"

enum { MOST_NUMBER = 9999 };

/* The operands behind the journal. */
enum { INCOMING = 1, DONE = 2, REFUSED = 3 };

static int open_one(const char *name, struct folder *folder) {
    folder->name = name;
    folder->descriptor = open(name, O_RDONLY | O_DIRECTORY | O_CLOEXEC);
    if (folder->descriptor < 0) {
        return failed(name, "the folder cannot be opened");
    }
    return access(name, R_OK | W_OK | X_OK) == 0 ? STATUS_DONE : failed(name, "files cannot be moved in this folder");
}

static bool is_same(const struct stat *one, const struct stat *other) {
    return one->st_dev == other->st_dev && one->st_ino == other->st_ino;
}

static int elsewhere(const struct folder *folder, const struct folder *incoming) {
    complain(folder->name, "it is on another file system than %s: a file could not be moved there as a whole",
             incoming->name);
    return STATUS_USAGE;
}

/* The three are apart, on one file system, and the journal stands in none of them: it would be judged as a file, or a
 * file would get the name of its lock. */
static int look_at(const struct folders *folders, const struct place *journal) {
    struct stat incoming, done, refused, around;
    if (fstat(folders->incoming.descriptor, &incoming) != 0 || fstat(folders->done.descriptor, &done) != 0 ||
        fstat(folders->refused.descriptor, &refused) != 0 || lstat(journal->folder, &around) != 0) {
        return failed(folders->incoming.name, "the folders cannot be looked at");
    }
    if (is_same(&incoming, &done) || is_same(&incoming, &refused) || is_same(&done, &refused)) {
        complain("intake", "INCOMING, DONE and REFUSED are three folders");
        return STATUS_USAGE;
    }
    if (incoming.st_dev != done.st_dev || incoming.st_dev != refused.st_dev) {
        return elsewhere(incoming.st_dev != done.st_dev ? &folders->done : &folders->refused, &folders->incoming);
    }
    if (is_same(&incoming, &around) || is_same(&done, &around) || is_same(&refused, &around)) {
        complain(journal->name,
                 "it stands in a folder that files are moved from or to; a journal has to stand elsewhere");
        return STATUS_USAGE;
    }
    return STATUS_DONE;
}

char *path_in(const struct folder *folder, const char *name) {
    char *path = NULL;
    size_t length = strlen(folder->name);
    bool ended = length > 0 && folder->name[length - 1] == '/';
    return asprintf(&path, "%s%s%s", folder->name, ended ? "" : "/", name) < 0 ? NULL : path;
}

/* The same with a number behind the name, where it is not 0, and an ending. */
static char *numbered_path(const struct folder *folder, const char *name, unsigned number, const char *ending) {
    char behind[16] = "";
    char *whole = NULL;
    if (number > 0) {
        snprintf(behind, sizeof behind, ".%u", number);
    }
    if (asprintf(&whole, "%s%s%s", name, behind, ending) < 0) {
        return NULL;
    }
    char *path = path_in(folder, whole);
    free(whole);
    return path;
}

/* A rename between two mounts, of one file system too, is refused before the name is looked up, so one that nobody has
 * shows it and moves nothing. */
static int try_to_move(const struct folder *from, const struct folder *to) {
    char name[48];
    snprintf(name, sizeof name, ".%ld.%ld" TEMPORARY_ENDING, (long)getpid(), (long)getppid());
    char *source = path_in(from, name);
    char *target = path_in(to, name);
    bool possible = source != NULL && target != NULL && (rename(source, target) == 0 || errno == ENOENT);
    free(source);
    free(target);
    if (possible) {
        return STATUS_DONE;
    }
    return errno == EXDEV ? elsewhere(to, from) : failed(to->name, "files cannot be moved there");
}

static int test_folders(const struct arguments *arguments, const struct place *journal, const struct folders *folders) {
    struct patience patience = patience_of(arguments);
    int status = look_at(folders, journal);
    if (status == STATUS_DONE) {
        status = try_to_move(&folders->incoming, &folders->done);
    }
    if (status == STATUS_DONE) {
        status = try_to_move(&folders->incoming, &folders->refused);
    }
    return status == STATUS_DONE ? take_folder_lock(folders->incoming.name, folders->incoming.descriptor, &patience)
                                 : status;
}

int open_folders(const struct arguments *arguments, const struct place *journal, struct folders *folders) {
    *folders =
        (struct folders){.incoming = {.descriptor = -1}, .done = {.descriptor = -1}, .refused = {.descriptor = -1}};
    int status = open_one(arguments->operands[INCOMING], &folders->incoming);
    if (status == STATUS_DONE) {
        status = open_one(arguments->operands[DONE], &folders->done);
    }
    if (status == STATUS_DONE) {
        status = open_one(arguments->operands[REFUSED], &folders->refused);
    }
    if (status == STATUS_DONE) {
        status = test_folders(arguments, journal, folders);
    }
    if (status != STATUS_DONE) {
        leave_folders(folders);
    }
    return status;
}

static void close_folder(struct folder *folder) {
    if (folder->descriptor >= 0) {
        close(folder->descriptor);
    }
    folder->descriptor = -1;
}

/* The lock ends with the descriptor. */
void leave_folders(struct folders *folders) {
    close_folder(&folders->incoming);
    close_folder(&folders->done);
    close_folder(&folders->refused);
}

/* Where the file system has no rename that fails at a name that is taken, the name is made first, and only an empty
 * file of ours is replaced. */
static bool move_over_own(const char *from, const char *to) {
    int reserved = open(to, O_WRONLY | O_CREAT | O_EXCL | O_CLOEXEC, RIGHTS_PRIVATE);
    if (reserved < 0) {
        return false;
    }
    bool moved = names_file(to, reserved) && rename(from, to) == 0;
    int error = errno;
    if (!moved && names_file(to, reserved)) {
        unlink(to);
    }
    close(reserved); /* nothing was written through it */
    errno = error;
    return moved;
}

/* False with errno; EEXIST where the name is taken. */
static bool move_to_free(const char *from, const char *to) {
    if (renameat2(AT_FDCWD, from, AT_FDCWD, to, RENAME_NOREPLACE) == 0) {
        return true;
    }
    return (errno == EINVAL || errno == ENOSYS) && move_over_own(from, to);
}

/* The new path; NULL with errno. */
static char *move_to_first_free(const char *from, const struct folder *to, const char *name) {
    for (unsigned number = 0; number <= MOST_NUMBER; number++) {
        char *path = numbered_path(to, name, number, "");
        if (path == NULL || move_to_free(from, path)) {
            return path;
        }
        int error = errno;
        free(path);
        errno = error;
        if (error != EEXIST) {
            return NULL;
        }
    }
    errno = EEXIST;
    return NULL;
}

static int not_moved(const char *path, const struct folder *to) {
    complain(path, "it cannot be moved to %s: %s", to->name, strerror(errno));
    return STATUS_SYSTEM;
}

static int another_file(const char *path, const char *where) {
    complain(path, "another program has put another file in its place meanwhile, which waits as %s", where);
    return STATUS_SYSTEM;
}

/* What another program has put in the file's place was moved with its name. It was not delivered, so it goes back. */
static int give_back(const struct folders *folders, const char *path, const char *moved) {
    char *back = move_to_first_free(moved, &folders->incoming, last_part(path));
    if (back == NULL) {
        complain(path,
                 "another program has put another file in its place meanwhile, which is %s now and was not "
                 "delivered: move it back",
                 moved);
        return STATUS_SYSTEM;
    }
    sync_whole(folders->incoming.descriptor); /* where it fails the next run finds it in one of the two */
    int status = another_file(path, back);
    free(back);
    return status;
}

static int sync_one(const struct folder *folder, const char *path) {
    struct place place = {.name = path, .folder = (char *)folder->name, .around = folder->descriptor};
    return sync_folder(&place);
}

static void forget(char **path) {
    free(*path);
    *path = NULL;
}

static bool is_gone(const char *path) {
    struct stat status;
    return lstat(path, &status) != 0 && errno == ENOENT;
}

/* Whether the path still names the file, and all of it is on the disk: it may exist nowhere else. */
static int prepare_move(const char *path, int file) {
    if (!sync_whole(file)) {
        return failed(path, "it cannot be brought to the disk");
    }
    if (names_file(path, file)) {
        return STATUS_DONE;
    }
    if (errno == 0 && is_gone(path)) {
        complain(path, "another program has taken it away meanwhile");
        return STATUS_SYSTEM;
    }
    return errno == 0 ? another_file(path, path) : failed(path, "it cannot be looked at");
}

/* What was moved is looked at once more, and both folders are brought to the disk. There is no new path where it was
 * another file. One that has been taken from there already was moved all the same. */
static int settle_move(const struct folders *folders, const struct folder *to, const char *path, int file,
                       char **moved) {
    if (names_file(*moved, file) || (errno == 0 && is_gone(*moved))) {
        int status = sync_one(to, path);
        return status == STATUS_DONE ? sync_one(&folders->incoming, path) : status;
    }
    if (errno != 0) {
        return failed(*moved, "what was moved cannot be looked at");
    }
    int status = give_back(folders, path, *moved);
    forget(moved);
    return status;
}

int move_to_done(const struct folders *folders, const char *path, int file, char **moved) {
    *moved = NULL;
    int status = prepare_move(path, file);
    if (status != STATUS_DONE) {
        return status;
    }
    *moved = move_to_first_free(path, &folders->done, last_part(path));
    if (*moved == NULL) {
        return not_moved(path, &folders->done);
    }
    return settle_move(folders, &folders->done, path, file, moved);
}

/* Whether a file has these bytes and no others. */
static bool has_bytes(const char *path, const struct bytes *bytes) {
    struct bytes found = {0};
    int descriptor = open(path, O_RDONLY | O_CLOEXEC | O_NONBLOCK | O_NOFOLLOW);
    bool read = descriptor >= 0 && close_after(read_up_to(descriptor, bytes->length + 1, &found), descriptor);
    bool same = read && found.length == bytes->length && memcmp(found.first, bytes->first, found.length) == 0;
    let_go(&found);
    return same;
}

/* A name that is taken is no failure here: the next number is tried. */
static int is_taken(const char *name, const char *path) {
    (void)name;
    (void)path;
    return STATUS_USAGE;
}

/* The answer on the disk under this path. One that a run has left that was killed before the file was moved is the
 * same, and is taken. STATUS_USAGE where another file has the path. */
static int put_answer(const struct folder *folder, const char *path, const char *beside, const struct bytes *answer) {
    struct place place = {.name = path, .folder = (char *)folder->name};
    int status = write_new(&place, beside, answer, "the file is left in place", is_taken);
    if (status == STATUS_USAGE && has_bytes(beside, answer)) {
        status = STATUS_DONE;
    }
    return status == STATUS_DONE ? sync_one(folder, path) : status;
}

/* Moves the file to `*moved`, with its answer beside it first. STATUS_USAGE where either name is taken; the answer then
 * stays, since whoever has the name may have taken it for its own. There is no new path where it was not moved. */
static int refuse_as(const struct folders *folders, const char *path, int file, const struct bytes *answer,
                     char **moved, const char *beside) {
    struct stat taken;
    int status = lstat(*moved, &taken) == 0 ? STATUS_USAGE : put_answer(&folders->refused, path, beside, answer);
    if (status == STATUS_DONE && !move_to_free(path, *moved)) {
        status = errno == EEXIST ? STATUS_USAGE : not_moved(path, &folders->refused);
    } else if (status == STATUS_DONE) {
        status = settle_move(folders, &folders->refused, path, file, moved);
        if (*moved == NULL) {
            unlink(beside); /* what was moved with the name has gone back, and this is not its answer */
        }
        return status;
    }
    forget(moved);
    return status;
}

int move_to_refused(const struct folders *folders, const char *path, int file, const struct bytes *answer,
                    char **moved) {
    *moved = NULL;
    int status = prepare_move(path, file);
    status = status == STATUS_DONE ? STATUS_USAGE : status; /* no name was found yet */
    for (unsigned number = 0; status == STATUS_USAGE && number <= MOST_NUMBER; number++) {
        *moved = numbered_path(&folders->refused, last_part(path), number, "");
        char *beside = numbered_path(&folders->refused, last_part(path), number, ANSWER_ENDING);
        if (*moved == NULL || beside == NULL) {
            status = not_moved(path, &folders->refused);
            forget(moved);
        } else {
            status = refuse_as(folders, path, file, answer, moved, beside);
        }
        free(beside);
    }
    errno = EEXIST;
    return status == STATUS_USAGE ? not_moved(path, &folders->refused) : status;
}
