#define _GNU_SOURCE
#include "place.h"

#include <errno.h>
#include <fcntl.h>
#include <stdio.h>
#include <stdlib.h>
#include <string.h>
#include <unistd.h>

#include "lock.h"
#include "say.h"
#include "status.h"

const char *last_part(const char *path) {
    const char *slash = strrchr(path, '/');
    return slash == NULL ? path : slash + 1;
}

/* The real path of a name in a folder that exists; the name itself need not. */
static char *path_in_folder(const char *name) {
    const char *last = last_part(name);
    char *folder = last == name ? strdup(".") : strndup(name, (size_t)(last - name));
    char *real = folder == NULL ? NULL : realpath(folder, NULL);
    char *path = NULL;
    if (real != NULL && asprintf(&path, "%s/%s", strcmp(real, "/") == 0 ? "" : real, last) < 0) {
        path = NULL;
    }
    free(folder);
    free(real);
    return path;
}

/* NULL with errno. A name that ends in a slash is a folder's; a link that leads nowhere has no place. A file that
 * appears meanwhile has one. */
static char *path_of(const char *name) {
    struct stat status;
    char *path = realpath(name, NULL);
    if (path != NULL || errno != ENOENT) {
        return path;
    }
    bool leads_nowhere = lstat(name, &status) == 0 && S_ISLNK(status.st_mode);
    if (leads_nowhere || name[0] == '\0' || name[strlen(name) - 1] == '/') {
        errno = ENOENT;
        return NULL;
    }
    return path_in_folder(name);
}

/* The path up to its last slash. */
static char *folder_of(const char *path) {
    size_t length = (size_t)(strrchr(path, '/') - path);
    return strndup(path, length == 0 ? 1 : length);
}

static bool name_places(struct place *place) {
    place->path = path_of(place->name);
    if (place->path == NULL) {
        return false;
    }
    const char *last = last_part(place->path);
    int before = (int)(last - place->path);
    place->folder = folder_of(place->path);
    if (asprintf(&place->lock_path, "%s" LOCK_ENDING, place->path) < 0) {
        place->lock_path = NULL;
    }
    if (asprintf(&place->fresh_path, "%.*s.%s" TEMPORARY_ENDING, before, place->path, last) < 0) {
        place->fresh_path = NULL;
    }
    return place->folder != NULL && place->lock_path != NULL && place->fresh_path != NULL;
}

static bool ends_with(const char *text, const char *ending) {
    size_t length = strlen(text);
    return length >= strlen(ending) && strcmp(text + length - strlen(ending), ending) == 0;
}

/* A file of such a name is the command's own, and a journal there would be taken for it. */
static bool is_reserved(const char *path) {
    const char *last = last_part(path);
    return ends_with(last, LOCK_ENDING) || (last[0] == '.' && ends_with(last, TEMPORARY_ENDING));
}

int no_file(const struct place *place) {
    complain(place->name, "no %s: it is a folder, a pipe or a device", place->kind);
    return STATUS_SYSTEM;
}

static int no_place(const struct place *place) {
    complain(place->name, "no %s: %s", place->kind, strerror(errno));
    return STATUS_SYSTEM;
}

static int look_at(struct place *place) {
    if (is_reserved(place->path)) {
        complain(place->name,
                 "no %s: names that end in " LOCK_ENDING ", and those of the form .NAME" TEMPORARY_ENDING
                 ", are the command's own",
                 place->kind);
        return STATUS_USAGE;
    }
    struct stat status;
    place->exists = lstat(place->path, &status) == 0;
    if (!place->exists && errno != ENOENT) {
        return no_place(place);
    }
    return place->exists && !S_ISREG(status.st_mode) ? no_file(place) : STATUS_DONE;
}

static int find_place(const char *name, const char *kind, struct place *place) {
    *place = (struct place){.name = name, .kind = kind, .around = -1, .lock = -1, .file = -1};
    int status = name_places(place) ? look_at(place) : no_place(place);
    if (status != STATUS_DONE) {
        leave_place(place);
    }
    return status;
}

int find_journal(const char *name, struct place *place) {
    return find_place(name, "journal", place);
}

int find_picture(const char *name, struct place *place) {
    return find_place(name, "picture", place);
}

static int find_existing(const char *name, const char *what, struct place *place) {
    int status = find_journal(name, place);
    if (status == STATUS_DONE && !place->exists) {
        complain(name, "%s", what);
        leave_place(place);
        return STATUS_SYSTEM;
    }
    return status;
}

int find_existing_journal(const char *name, struct place *place) {
    return find_existing(
        name, "no journal: there is none; 'crownhazel restore' puts a copy there, 'crownhazel open' makes a new one",
        place);
}

int find_copy_of_journal(const char *name, struct place *place) {
    return find_existing(name, "no copy: there is none", place);
}

int open_folder(struct place *place) {
    place->around = open(place->folder, O_RDONLY | O_DIRECTORY | O_CLOEXEC);
    if (place->around >= 0) {
        return STATUS_DONE;
    }
    complain(place->name, "the folder %s cannot be opened: %s; whoever writes there has to read it too", place->folder,
             strerror(errno));
    return STATUS_SYSTEM;
}

static void close_open(int descriptor) {
    if (descriptor >= 0) {
        close(descriptor);
    }
}

/* Nothing was written through them, so closing them can lose nothing. Whoever waits for a lock that goes looks at its
 * name again. */
void leave_place(struct place *place) {
    if (place->lock_goes && names_file(place->lock_path, place->lock)) {
        unlink(place->lock_path);
    }
    close_open(place->file);
    close_open(place->lock);
    close_open(place->around);
    say_held_back();
    free(place->path);
    free(place->folder);
    free(place->lock_path);
    free(place->fresh_path);
    *place = (struct place){.around = -1, .lock = -1, .file = -1};
}
