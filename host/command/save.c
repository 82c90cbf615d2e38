#define _GNU_SOURCE
#include "save.h"

#include <errno.h>
#include <fcntl.h>
#include <stdio.h>
#include <stdlib.h>
#include <string.h>
#include <unistd.h>

#include "fresh.h"
#include "journal.h"
#include "picture.h"
#include "say.h"
#include "status.h"

static const char older_one[] = "the picture is the older one";

static int no_picture(const struct place *place) {
    complain(place->name,
             "%s exists already, is no picture that crownhazel has drawn, and stays as it is; take another name",
             place->path);
    return STATUS_USAGE;
}

/* Opens the file that has the name, and looks whether it begins as our pictures do: no journal does, nor does anything
 * else. */
static int open_older(struct place *place) {
    struct bytes start = {0};
    place->file = open(place->path, O_RDONLY | O_CLOEXEC | O_NONBLOCK | O_NOFOLLOW);
    if (place->file < 0 || !read_up_to(place->file, strlen(picture_mark), &start)) {
        let_go(&start);
        return failed(place->name, "the file that is there cannot be read");
    }
    bool ours = start.length == strlen(picture_mark) && memcmp(start.first, picture_mark, start.length) == 0;
    let_go(&start);
    if (!ours) {
        return no_picture(place);
    }
    return access(place->path, W_OK) == 0 ? STATUS_DONE : failed(place->name, "the picture may not be replaced");
}

static int another_file(const char *name, const char *path) {
    complain(name, "another program has put a file at %s meanwhile, which stays; try again", path);
    return STATUS_SYSTEM;
}

/* The two names change places in one step, so that what had the name last can still be looked at. */
static bool exchange(const char *temporary, const char *path) {
    return renameat2(AT_FDCWD, temporary, AT_FDCWD, path, RENAME_EXCHANGE) == 0;
}

/* Another program was faster, by an instant: its file gets the name again. */
static int give_back(const struct place *place, char **temporary) {
    if (exchange(*temporary, place->path)) {
        return another_file(place->name, place->path);
    }
    complain(place->name, "another program has put a file at %s meanwhile, which is %s now", place->path, *temporary);
    free(*temporary);
    *temporary = NULL;
    return STATUS_SYSTEM;
}

/* What another program has put there stays. Where the file system cannot exchange names, an instant between look and
 * rename is left. */
static int put_in_place(const struct place *place, char **temporary) {
    if (!names_file(place->path, place->file)) {
        return errno == 0 ? another_file(place->name, place->path) : not_written(place, place->path, older_one);
    }
    if (exchange(*temporary, place->path)) {
        return names_file(*temporary, place->file) ? STATUS_DONE : give_back(place, temporary);
    }
    bool known = errno != EINVAL && errno != ENOSYS;
    return !known && rename(*temporary, place->path) == 0 ? STATUS_DONE : not_written(place, place->path, older_one);
}

/* With the rights of the older one. The temporary name has by then the older picture, the new one or nothing. */
static int replace_older(const struct place *place, const struct bytes *picture) {
    struct rights rights;
    char *temporary = read_rights(place->file, &rights) ? write_temporary(place, place->path, picture, &rights) : NULL;
    if (temporary == NULL) {
        return not_written(place, place->path, older_one);
    }
    int status = put_in_place(place, &temporary);
    if (temporary != NULL) {
        unlink(temporary);
    }
    free(temporary);
    return status;
}

static int save_at(struct place *place, const struct bytes *picture) {
    int status = place->exists ? open_older(place) : STATUS_DONE;
    if (status == STATUS_DONE) {
        status = open_folder(place);
    }
    if (status == STATUS_DONE) {
        status = place->exists ? replace_older(place, picture)
                               : write_new(place, place->path, picture, "there is no picture", another_file);
    }
    return status == STATUS_DONE ? sync_folder(place) : status;
}

int save_picture(const char *name, const struct bytes *picture) {
    struct place place;
    int status = find_picture(name, &place);
    if (status == STATUS_DONE) {
        status = save_at(&place, picture);
        leave_place(&place);
    }
    return status;
}
