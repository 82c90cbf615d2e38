#define _GNU_SOURCE
#include "copies.h"

#include <errno.h>
#include <fcntl.h>
#include <stdio.h>
#include <stdlib.h>
#include <string.h>
#include <strings.h>
#include <unistd.h>

#include "fresh.h"
#include "journal.h"
#include "say.h"
#include "sha256.h"
#include "status.h"

enum { MOST_CHECKSUM_FILE = 8192 };

/* What is left where a copy could not be written. */
static const char no_copy[] = "there is no copy";

/* NULL where there is no memory. */
static char *checksum_path(const struct place *copy) {
    char *path = NULL;
    return asprintf(&path, "%s" CHECKSUM_ENDING, copy->path) < 0 ? NULL : path;
}

/* A line of sha256sum. Where the name has backslashes or ends of lines these are spelt, behind a backslash in front. */
static bool compose_line(const char *digits, const char *name, struct bytes *line) {
    const char *special = "\\\n\r";
    if (!make_room(line, CHECKSUM_DIGITS + 2 * strlen(name) + 4)) {
        return false;
    }
    char *end = (char *)line->first;
    end += sprintf(end, "%s%s  ", strpbrk(name, special) == NULL ? "" : "\\", digits);
    for (const char *at = name; *at != '\0'; at++) {
        const char *found = strchr(special, *at);
        if (found != NULL) {
            *end++ = '\\';
        }
        *end++ = found == NULL ? *at : "\\nr"[found - special];
    }
    *end++ = '\n';
    line->length = (size_t)(end - (char *)line->first);
    return true;
}

static int exists_already(const char *name, const char *path) {
    complain(name, "%s exists already and stays as it is; take another name", path);
    return STATUS_USAGE;
}

/* The copy first: a copy without its checksum is not taken for one that is whole. Where not all of it is sure to be on
 * the disk both go again, so that the same call can be made again. */
static int write_both(const struct place *copy, const struct bytes *journal, const char *path,
                      const struct bytes *line) {
    int status = write_new(copy, copy->path, journal, no_copy, exists_already);
    if (status != STATUS_DONE) {
        return status;
    }
    status = write_new(copy, path, line, no_copy, exists_already);
    if (status == STATUS_DONE) {
        status = sync_folder(copy);
        if (status != STATUS_DONE) {
            unlink(path);
        }
    }
    if (status != STATUS_DONE) {
        unlink(copy->path);
    }
    return status;
}

int write_copy(struct place *copy, const struct bytes *journal) {
    char digits[CHECKSUM_DIGITS + 1];
    struct bytes line = {0};
    char *path = checksum_path(copy);
    checksum_of(journal, digits);
    int status;
    if (path == NULL || !compose_line(digits, last_part(copy->path), &line)) {
        status = failed(copy->name, "no memory for the checksum");
    } else if (copy->exists) {
        status = exists_already(copy->name, copy->path);
    } else if (access(path, F_OK) == 0) {
        status = exists_already(copy->name, path);
    } else {
        status = open_folder(copy);
        status = status == STATUS_DONE ? write_both(copy, journal, path, &line) : status;
    }
    let_go(&line);
    free(path);
    return status;
}

static bool read_checksum(const char *path, struct bytes *text) {
    int descriptor = open(path, O_RDONLY | O_CLOEXEC | O_NONBLOCK);
    return descriptor >= 0 && close_after(read_up_to(descriptor, MOST_CHECKSUM_FILE, text), descriptor);
}

/* The digits that the first line of a checksum's file begins with, behind a backslash where the name is spelt; NULL
 * where it does not begin so. */
static const char *digits_in(const struct bytes *text) {
    const char *first = (const char *)text->first;
    size_t before = text->length > 0 && first[0] == '\\' ? 1 : 0;
    if (text->length <= before + CHECKSUM_DIGITS || first[before + CHECKSUM_DIGITS] != ' ' ||
        strspn(first + before, "0123456789abcdefABCDEF") != CHECKSUM_DIGITS) {
        return NULL;
    }
    return first + before;
}

static int compare(const struct place *copy, const char *path, const struct bytes *text, const char *digits) {
    const char *wanted = digits_in(text);
    if (wanted == NULL) {
        complain(copy->name, "its checksum %s is none as sha256sum writes it; without it no copy is taken", path);
        return STATUS_UNSOUND;
    }
    if (strncasecmp(wanted, digits, CHECKSUM_DIGITS) != 0) {
        complain(copy->name, "it does not match its checksum %s: one of them was altered; take another copy", path);
        return STATUS_UNSOUND;
    }
    return STATUS_DONE;
}

int match_checksum(const struct place *copy, const struct bytes *journal) {
    char digits[CHECKSUM_DIGITS + 1];
    struct bytes text = {0};
    int status;
    char *path = checksum_path(copy);
    checksum_of(journal, digits);
    if (path == NULL || !read_checksum(path, &text)) {
        complain(copy->name, "its checksum %s cannot be read: %s; without it no copy is taken",
                 path == NULL ? "" : path, strerror(errno));
        status = STATUS_SYSTEM;
    } else {
        status = compare(copy, path, &text, digits);
    }
    let_go(&text);
    free(path);
    return status;
}
