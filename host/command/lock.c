#define _GNU_SOURCE
#include "lock.h"

#include <errno.h>
#include <fcntl.h>
#include <signal.h>
#include <string.h>
#include <sys/file.h>
#include <sys/time.h>
#include <unistd.h>

#include "rights.h"
#include "say.h"
#include "status.h"

struct patience patience_of(const struct arguments *arguments) {
    struct patience patience = {.limited = arguments->has_wait, .seconds = arguments->wait};
    clock_gettime(CLOCK_MONOTONIC, &patience.until);
    patience.until.tv_sec += (time_t)arguments->wait;
    return patience;
}

/* The time that is left, which is no less than nothing. */
static struct timeval left_of(const struct patience *patience) {
    struct timespec now;
    clock_gettime(CLOCK_MONOTONIC, &now);
    long long left = (patience->until.tv_sec - now.tv_sec) * 1000000LL + (patience->until.tv_nsec - now.tv_nsec) / 1000;
    return left <= 0 ? (struct timeval){0} : (struct timeval){left / 1000000, left % 1000000};
}

static bool is_over(const struct patience *patience) {
    struct timeval left = left_of(patience);
    return patience->limited && left.tv_sec == 0 && left.tv_usec == 0;
}

static void wake(int number) {
    (void)number;
}

/* Has a signal end a call that waits when patience is over, and again and again after that: the first can come before
 * the call begins. */
static void set_alarm(const struct patience *patience) {
    struct sigaction action = {.sa_handler = wake};
    struct itimerval alarm = {.it_value = left_of(patience), .it_interval = {.tv_usec = 50000}};
    sigset_t alarms;
    sigemptyset(&alarms);
    sigaddset(&alarms, SIGALRM);
    sigaction(SIGALRM, &action, NULL);
    sigprocmask(SIG_UNBLOCK, &alarms, NULL);
    if (alarm.it_value.tv_sec == 0 && alarm.it_value.tv_usec == 0) {
        alarm.it_value.tv_usec = 1; /* nothing at all would be no alarm */
    }
    setitimer(ITIMER_REAL, &alarm, NULL);
}

/* errno stays. */
static void end_alarm(void) {
    static const struct itimerval none;
    int error = errno;
    setitimer(ITIMER_REAL, &none, NULL);
    errno = error;
}

/* How an attempt at a lock ended. */
enum attempt { TAKEN, IN_USE, NOT_RIGHT, FAILED };

/* Waits in the row with all others: whoever asked again and again would always come last. */
static enum attempt wait_for(int descriptor, const struct patience *patience) {
    int status;
    if (patience->limited) {
        set_alarm(patience);
    }
    do {
        status = flock(descriptor, LOCK_EX);
    } while (status != 0 && errno == EINTR && !is_over(patience));
    if (patience->limited) {
        end_alarm();
    }
    if (status == 0) {
        return TAKEN;
    }
    return errno == EINTR ? IN_USE : FAILED;
}

/* `what` is what another command holds, for whoever looks at the terminal. */
static enum attempt take_lock(int descriptor, const char *what, const struct patience *patience) {
    int status;
    do {
        status = flock(descriptor, LOCK_EX | LOCK_NB);
    } while (status != 0 && errno == EINTR);
    if (status == 0) {
        return TAKEN;
    }
    if (errno != EWOULDBLOCK) {
        return FAILED;
    }
    show_passing("waiting: another command holds the %s", what);
    return is_over(patience) ? IN_USE : wait_for(descriptor, patience);
}

bool names_file(const char *path, int descriptor) {
    struct stat named, open;
    if (lstat(path, &named) != 0) {
        errno = errno == ENOENT ? 0 : errno;
        return false;
    }
    if (fstat(descriptor, &open) != 0) {
        return false;
    }
    errno = 0;
    return named.st_dev == open.st_dev && named.st_ino == open.st_ino;
}

/* Whether this is a regular file and, where it is to be a lock, one that is empty and has one name: nothing else is
 * ever taken for a lock, and given the rights of one. */
static enum attempt look_at(int descriptor, bool lock) {
    struct stat status;
    if (fstat(descriptor, &status) != 0) {
        return FAILED;
    }
    bool right = S_ISREG(status.st_mode) && (!lock || (status.st_size == 0 && status.st_nlink <= 1));
    return right ? TAKEN : NOT_RIGHT;
}

/* Opens and locks the file that a path names: where another file has come there meanwhile, once more. No opening waits,
 * not for a pipe either. errno says why it failed. */
static enum attempt open_locked(const char *path, bool lock, int flags, const struct patience *patience,
                                int *descriptor) {
    for (;;) {
        *descriptor = open(path, O_RDONLY | O_CLOEXEC | O_NOFOLLOW | O_NONBLOCK | flags, RIGHTS_PRIVATE);
        if (*descriptor < 0) {
            return FAILED;
        }
        enum attempt attempt = look_at(*descriptor, lock);
        if (attempt == TAKEN) {
            attempt = take_lock(*descriptor, "journal", patience);
        }
        if (attempt == TAKEN && names_file(path, *descriptor)) {
            return TAKEN;
        }
        int error = errno;
        close(*descriptor);
        *descriptor = -1;
        errno = error;
        if (attempt != TAKEN || error != 0) {
            return attempt == TAKEN ? FAILED : attempt;
        }
    }
}

static int in_use(const char *name, const char *what, const struct patience *patience) {
    complain(name, "another command holds the %s: %u seconds were waited; try again", what, patience->seconds);
    return STATUS_SYSTEM;
}

static int not_locked(const struct place *place, const struct patience *patience, enum attempt attempt,
                      const char *what, const char *path) {
    if (attempt == IN_USE) {
        return in_use(place->name, "journal", patience);
    }
    complain(place->name, "%s %s cannot be had: %s", what, path, strerror(errno));
    return STATUS_SYSTEM;
}

/* Reading is enough to lock, so that all who may read the lock can share a journal; only who may change the journal
 * makes one. From here on nothing is said before the lock is let go. */
int take_name_lock(struct place *place, const struct patience *patience) {
    bool may_make = !place->exists || access(place->path, W_OK) == 0;
    enum attempt attempt = open_locked(place->lock_path, true, may_make ? O_CREAT : 0, patience, &place->lock);
    if (attempt == TAKEN) {
        hold_back();
        return STATUS_DONE;
    }
    if (attempt == NOT_RIGHT) {
        complain(place->name,
                 "its lock %s is no lock, which is an empty file of one name: look what it is, and move it away",
                 place->lock_path);
        return STATUS_SYSTEM;
    }
    return not_locked(place, patience, attempt, "its lock", place->lock_path);
}

int take_file_lock(struct place *place, const struct patience *patience) {
    enum attempt attempt = open_locked(place->path, false, 0, patience, &place->file);
    if (attempt == TAKEN) {
        return STATUS_DONE;
    }
    return attempt == NOT_RIGHT ? no_file(place) : not_locked(place, patience, attempt, "the journal", place->path);
}

int take_folder_lock(const char *name, int descriptor, const struct patience *patience) {
    enum attempt attempt = take_lock(descriptor, "folder", patience);
    wipe_passing();
    if (attempt == TAKEN) {
        return STATUS_DONE;
    }
    return attempt == IN_USE ? in_use(name, "folder", patience) : failed(name, "the folder cannot be locked");
}
