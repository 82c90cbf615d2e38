#define _GNU_SOURCE
#include "waiting.h"

#include <dirent.h>
#include <errno.h>
#include <fcntl.h>
#include <stdlib.h>
#include <string.h>
#include <unistd.h>

#include "say.h"
#include "status.h"

/* Senders write under such a name, and rename the file when it is whole. */
static bool is_under_way(const char *name) {
    static const char *const endings[] = {".part", ".tmp", ".filepart", "~"};
    size_t length = strlen(name);
    for (size_t i = 0; i < sizeof endings / sizeof endings[0]; i++) {
        size_t ending = strlen(endings[i]);
        if (length >= ending && strcmp(name + length - ending, endings[i]) == 0) {
            return true;
        }
    }
    return name[0] == '.';
}

/* Folders stand there for other purposes, and no statement is in them. */
static bool is_folder(const char *path) {
    struct stat status;
    return lstat(path, &status) == 0 && S_ISDIR(status.st_mode);
}

/* Appends a path, which is the list's from then on. */
static bool add_path(struct waiting *waiting, char *path) {
    struct waiting_file *list = realloc(waiting->list, (waiting->count + 1) * sizeof *list);
    if (list == NULL) {
        free(path);
        return false;
    }
    waiting->list = list;
    waiting->list[waiting->count++] = (struct waiting_file){.path = path};
    return true;
}

static bool add_name(struct waiting *waiting, const struct folder *incoming, const char *name) {
    if (is_under_way(name)) {
        return true;
    }
    char *path = path_in(incoming, name);
    if (path == NULL) {
        return false;
    }
    if (is_folder(path)) {
        free(path);
        return true;
    }
    return add_path(waiting, path);
}

/* False with errno. */
static bool add_names(DIR *names, const struct folder *incoming, struct waiting *waiting) {
    const struct dirent *entry;
    while (errno = 0, (entry = readdir(names)) != NULL) {
        if (!add_name(waiting, incoming, entry->d_name)) {
            return false;
        }
    }
    return errno == 0;
}

/* By the old date, then by the new one. Both stand as digits, the year first. */
static bool is_earlier(const struct entry *one, const struct entry *other) {
    return memcmp(one->row + ROW_OLD_DATE, other->row + ROW_OLD_DATE, CROWNHAZEL_ROW - ROW_OLD_DATE) < 0;
}

/* The oldest first; of those that begin on one day the one whose earliest statement ends first; else by their names. */
static int compare(const void *one, const void *other) {
    const struct waiting_file *file = one, *second = other;
    if (file->day != second->day) {
        return file->day < second->day ? -1 : 1;
    }
    if (file->earliest != NULL && second->earliest != NULL) {
        bool before = is_earlier(file->earliest, second->earliest);
        if (before || is_earlier(second->earliest, file->earliest)) {
            return before ? -1 : 1;
        }
    }
    return strcmp(file->path, second->path);
}

static void sort(struct waiting *waiting) {
    if (waiting->count > 0) {
        qsort(waiting->list, waiting->count, sizeof waiting->list[0], compare);
    }
}

/* By their names, as long as no date is known. */
static int list_folder(const struct folder *incoming, struct waiting *waiting) {
    DIR *names = opendir(incoming->name);
    bool listed = names != NULL && add_names(names, incoming, waiting);
    int error = errno;
    if (names != NULL) {
        closedir(names);
    }
    errno = error;
    sort(waiting);
    return listed ? STATUS_DONE : failed(incoming->name, "the folder cannot be read");
}

/* Opens without waiting, not for a pipe either, and follows no link. */
static int open_file(const char *path) {
    int descriptor;
    do {
        descriptor = open(path, O_RDONLY | O_CLOEXEC | O_NOCTTY | O_NONBLOCK | O_NOFOLLOW);
    } while (descriptor < 0 && errno == EINTR);
    return descriptor;
}

/* Takes the file's status, then its bytes, so that a change of them shows later. */
static bool read_file(const char *path, int descriptor, struct stat *status, struct input *input) {
    if (descriptor >= 0 && fstat(descriptor, status) == 0) {
        if (S_ISREG(status->st_mode)) {
            return read_descriptor(path, descriptor, input);
        }
        complain(path, "cannot be read: it is a pipe or a device");
    } else if (errno == ELOOP) {
        complain(path, "cannot be read: it is a link, and links are not followed here");
    } else {
        failed(path, "cannot be read");
    }
    return false;
}

/* Its date and its statements. */
static bool take_dates(struct waiting_file *file, const struct input *input) {
    file->day = earliest_day(input);
    if (file->day != 0 && !find_periods(input, &file->periods)) {
        failed(file->path, "cannot be read");
        return false;
    }
    for (size_t i = 0; i < file->periods.count; i++) {
        const struct entry *entry = &file->periods.list[i];
        file->earliest = file->earliest == NULL || is_earlier(entry, file->earliest) ? entry : file->earliest;
    }
    return true;
}

/* Reads one for its dates. */
static bool look_into_file(struct waiting_file *file) {
    struct input input;
    int descriptor = open_file(file->path);
    bool read = read_file(file->path, descriptor, &file->status, &input);
    if (read) {
        read = take_dates(file, &input);
        let_go(&input.kept);
    }
    if (descriptor >= 0) {
        close(descriptor);
    }
    return read;
}

/* A second name of the journal would be judged, and put away. */
static bool is_journal(const struct waiting_file *file, const struct place *journal) {
    return file->status.st_dev == journal->status.st_dev && file->status.st_ino == journal->status.st_ino;
}

int find_waiting(const struct folder *incoming, const struct place *journal, struct waiting *waiting,
                 size_t *unreadable) {
    *waiting = (struct waiting){0};
    *unreadable = 0;
    int status = list_folder(incoming, waiting);
    for (size_t i = 0; status == STATUS_DONE && i < waiting->count; i++) {
        struct waiting_file *file = &waiting->list[i];
        show_passing("reading, %zu of %zu files", i, waiting->count);
        file->fate = look_into_file(file) ? WAITS : PASSED_OVER;
        *unreadable += file->fate == PASSED_OVER;
        if (file->fate == WAITS && is_journal(file, journal)) {
            complain(file->path, "it is the journal %s itself, by another name", journal->name);
            status = STATUS_USAGE;
        }
    }
    wipe_passing();
    sort(waiting);
    return status;
}

void forget_waiting(struct waiting *waiting) {
    for (size_t i = 0; i < waiting->count; i++) {
        free(waiting->list[i].path);
        forget_periods(&waiting->list[i].periods);
    }
    free(waiting->list);
    *waiting = (struct waiting){0};
}

static bool is_as_it_was(const struct stat *then, const struct stat *now) {
    return then->st_dev == now->st_dev && then->st_ino == now->st_ino && then->st_size == now->st_size &&
           then->st_mtim.tv_sec == now->st_mtim.tv_sec && then->st_mtim.tv_nsec == now->st_mtim.tv_nsec;
}

bool open_waiting(struct waiting_file *file, struct input *input, int *descriptor) {
    struct stat status;
    *descriptor = open_file(file->path);
    bool read = read_file(file->path, *descriptor, &status, input);
    if (read && !is_as_it_was(&file->status, &status)) {
        complain(file->path, "another program has changed or replaced it since the run began; it is left in place");
        let_go(&input->kept);
        read = false;
    }
    if (!read && *descriptor >= 0) {
        close(*descriptor);
    }
    file->status = read ? status : file->status;
    return read;
}

/* The time of a change of the file's status cannot be put back, and nothing here changes it before the file is moved.
 */
bool was_changed(const struct waiting_file *file, int descriptor) {
    struct stat now;
    const struct stat *then = &file->status;
    return fstat(descriptor, &now) != 0 || !is_as_it_was(then, &now) || then->st_ctim.tv_sec != now.st_ctim.tv_sec ||
           then->st_ctim.tv_nsec != now.st_ctim.tv_nsec;
}

bool holds_nothing_new(const struct waiting_file *file, const struct entry *entries, size_t count) {
    for (size_t i = 0; i < file->periods.count; i++) {
        const struct entry *entry = &file->periods.list[i];
        const struct entry *last = last_of_account(entries, count, entry);
        bool too_early = last != NULL && gap_between(last, entry) < 0;
        if (!too_early && !has_statement(entries, count, entry)) {
            return false;
        }
    }
    return file->periods.whole;
}

/* Whether one of two statements of an account has to be stored before the other, or never can be: it is the earlier,
 * by its days it could be stored behind the last one, and the other would skip days. One that begins on the very day on
 * which the last one ends goes ahead. */
static bool comes_first(const struct entry *one, const struct entry *other, const struct entry *last) {
    bool skips = last == NULL || (gap_between(last, one) >= 0 && gap_between(last, other) > 0);
    return skips && is_earlier(one, other);
}

/* A statement in its turn, and what is stored by then: the journal's entries, and those before it in its file. */
struct turn {
    const struct entry *entry;
    const struct contents *journal;
    const struct entry *own;
    size_t own_count;
    const struct entry *last; /* what ends last of its account; NULL where there is nothing */
};

/* In the journal the account's last entry ends last, since along a chain new dates never fall. */
static struct turn make_turn(const struct contents *journal, const struct periods *file, size_t at) {
    struct turn turn = {.entry = &file->list[at], .journal = journal, .own = file->list, .own_count = at};
    turn.last = last_of_account(journal->entries, journal->count, turn.entry);
    for (size_t i = 0; i < at; i++) {
        const struct entry *own = &file->list[i];
        if (same_account(own, turn.entry) && (turn.last == NULL || ends_before(turn.last, own))) {
            turn.last = own;
        }
    }
    return turn;
}

/* Whether a statement is stored by then. By its days one that begins and ends on the last day could follow itself. */
static bool is_there(const struct turn *turn, const struct entry *entry) {
    return has_statement(turn->journal->entries, turn->journal->count, entry) ||
           has_statement(turn->own, turn->own_count, entry);
}

static bool has_earlier(const struct waiting_file *file, const struct turn *turn) {
    for (size_t i = 0; i < file->periods.count; i++) {
        const struct entry *entry = &file->periods.list[i];
        if (same_account(entry, turn->entry) && comes_first(entry, turn->entry, turn->last) && !is_there(turn, entry)) {
            return true;
        }
    }
    return false;
}

const struct waiting_file *waits_behind(const struct waiting *waiting, const struct waiting_file *file, size_t at,
                                        const struct contents *journal) {
    struct turn turn = make_turn(journal, &file->periods, at);
    for (size_t i = 0; i < waiting->count; i++) {
        const struct waiting_file *other = &waiting->list[i];
        if (other != file && other->fate != MOVED && has_earlier(other, &turn)) {
            return other;
        }
    }
    return NULL;
}
