/* Puts a copy in the place of a journal. */
#define _GNU_SOURCE
#include <errno.h>
#include <stdio.h>
#include <stdlib.h>
#include <string.h>
#include <unistd.h>

#include "commands.h"
#include "contents.h"
#include "copies.h"
#include "journal.h"
#include "say.h"
#include "status.h"

enum { MOST_KEPT = 9999 };

/* A copy that may take a journal's place. */
struct copy {
    struct place place;
    struct bytes bytes;
    struct contents contents;
};

static int test_copy(struct copy *copy) {
    int status = match_checksum(&copy->place, &copy->bytes);
    if (status != STATUS_DONE) {
        return status;
    }
    uint64_t used = read_contents(&copy->bytes, &copy->contents);
    return crownhazel_is_refused(used) ? refused(copy->place.name, crownhazel_refusal(used), crownhazel_record(used))
                                       : STATUS_DONE;
}

static void leave_copy(struct copy *copy) {
    let_go(&copy->bytes);
    leave_place(&copy->place);
}

/* Finds, reads and tests a copy. Where that fails there is nothing to leave. */
static int find_copy(const char *name, struct copy *copy) {
    *copy = (struct copy){0};
    int status = find_copy_of_journal(name, &copy->place);
    if (status != STATUS_DONE) {
        return status;
    }
    status = read_journal(&copy->place, &copy->bytes);
    if (status == STATUS_DONE) {
        status = test_copy(copy);
    }
    if (status != STATUS_DONE) {
        leave_copy(copy);
    }
    return status;
}

/* What was restored, and over what. */
struct outcome {
    bool replaced; /* whether the copy has taken the place of a journal */
    char *kept;    /* the path of what stood there; NULL where nothing did */
    bool known;    /* whether that was sound, so that it is known what the copy lacks of it */
    size_t lacking;
};

static void compare(const struct copy *copy, const struct bytes *former, struct outcome *outcome) {
    struct contents contents;
    outcome->known = !crownhazel_is_refused(read_contents(former, &contents));
    outcome->lacking = outcome->known ? lacking(former, &contents, &copy->bytes, &copy->contents) : 0;
}

/* Gives the journal that was read a second name, which it keeps when the copy takes the first. Numbers that are taken
 * are passed over. False with errno where it fails; there is a second name then where it names another file. */
static bool keep_former(const struct place *place, struct outcome *outcome) {
    for (int number = 1; number <= MOST_KEPT; number++) {
        free(outcome->kept);
        outcome->kept = NULL;
        if (asprintf(&outcome->kept, "%s.replaced-%d", place->path, number) < 0) {
            outcome->kept = NULL;
            return false;
        }
        if (link(place->path, outcome->kept) == 0) {
            bool right = names_file(outcome->kept, place->file);
            errno = errno == 0 ? ESTALE : errno;
            return right;
        }
        if (errno != EEXIST) {
            break;
        }
    }
    free(outcome->kept);
    outcome->kept = NULL;
    return false;
}

/* A second name of what stands in the journal's place now keeps nothing, and goes again. */
static void drop_kept(const struct place *place, struct outcome *outcome) {
    struct stat now, kept;
    if (outcome->kept != NULL && lstat(place->path, &now) == 0 && lstat(outcome->kept, &kept) == 0 &&
        now.st_dev == kept.st_dev && now.st_ino == kept.st_ino) {
        unlink(outcome->kept);
        free(outcome->kept);
        outcome->kept = NULL;
    }
}

/* What is kept is on the disk before the copy takes its place. */
static int put_copy(struct place *place, const struct copy *copy, struct outcome *outcome) {
    int status = settle_journal(place);
    if (status != STATUS_DONE) {
        return status;
    }
    if (!keep_former(place, outcome)) {
        return failed(place->name, "what is there cannot be kept under another name; the journal is as it was");
    }
    return replace_journal(place, &copy->bytes, NULL);
}

static int restore_over(struct place *place, const struct patience *patience, const struct copy *copy,
                        struct outcome *outcome) {
    struct bytes former;
    int status = hold_journal(place, patience, &former);
    if (status != STATUS_DONE) {
        return status;
    }
    compare(copy, &former, outcome);
    let_go(&former);
    status = put_copy(place, copy, outcome);
    outcome->replaced = place->replaced;
    if (status != STATUS_DONE) {
        drop_kept(place, outcome);
    }
    return status;
}

static int restore_where_none_is(struct place *place, const struct patience *patience, const struct copy *copy) {
    int status = hold_name(place, patience);
    if (status != STATUS_DONE) {
        return status;
    }
    status = create_journal(place, &copy->bytes, RIGHTS_PRIVATE);
    if (status == STATUS_USAGE) {
        complain(place->name, "a file has come there meanwhile, and stays as it is; try again");
        return STATUS_SYSTEM;
    }
    return status;
}

static int restore_place(const struct arguments *arguments, struct place *place, const struct copy *copy,
                         struct outcome *outcome) {
    struct patience patience = patience_of(arguments);
    if (!place->exists) {
        return restore_where_none_is(place, &patience, copy);
    }
    if (names_file(place->path, copy->place.file)) {
        complain(place->name, "the copy is the journal itself");
        return STATUS_USAGE;
    }
    return restore_over(place, &patience, copy, outcome);
}

/* What was kept is said also where the copy is not sure to be on the disk, or the answer cannot be written: a second
 * restoring would compare the copy with itself. */
static int tell(const char *name, size_t entries, const struct outcome *outcome, int status) {
    char lacks[24] = "unknown";
    if (outcome->known) {
        snprintf(lacks, sizeof lacks, "%zu", outcome->lacking);
    }
    if (outcome->replaced && (status != STATUS_DONE || !outcome->known || outcome->lacking > 0)) {
        complain(name, "deliver again the files that came since the copy; it lacks %s of the statements of %s", lacks,
                 outcome->kept);
    }
    if (status == STATUS_DONE) {
        status = outcome->kept == NULL
                     ? answer(name, "restored, entries %zu", entries)
                     : answer(name, "restored, entries %zu, lacking %s, kept %s", entries, lacks, outcome->kept);
    }
    if (status != STATUS_DONE && outcome->kept != NULL) {
        complain(name, "what stood there is kept as %s", outcome->kept);
    }
    return status;
}

int restore_command(const struct arguments *arguments) {
    struct copy copy;
    struct place place;
    struct outcome outcome = {0};
    int status = find_copy(arguments->operands[1], &copy);
    if (status != STATUS_DONE) {
        return status;
    }
    status = find_journal(arguments->operands[0], &place);
    if (status == STATUS_DONE) {
        status = restore_place(arguments, &place, &copy, &outcome);
        leave_place(&place);
    }
    leave_copy(&copy);
    status = tell(arguments->operands[0], copy.contents.count, &outcome, status);
    free(outcome.kept);
    return status;
}
