#define _GNU_SOURCE
#include "fresh.h"

#include <errno.h>
#include <fcntl.h>
#include <stdio.h>
#include <stdlib.h>
#include <string.h>
#include <unistd.h>

#include "journal.h"
#include "say.h"
#include "status.h"

static bool fill(int descriptor, const struct bytes *bytes, const struct rights *rights) {
    bool given = rights == NULL ? give_mode(descriptor, RIGHTS_PRIVATE) : give_rights(descriptor, rights);
    return given && write_to_disk(descriptor, bytes);
}

char *write_temporary(const struct place *place, const char *path, const struct bytes *bytes,
                      const struct rights *rights) {
    char *temporary = NULL;
    if (asprintf(&temporary, "%s/.%s.XXXXXX" TEMPORARY_ENDING, place->folder, last_part(path)) < 0) {
        return NULL;
    }
    int descriptor = mkostemps(temporary, (int)strlen(TEMPORARY_ENDING), O_CLOEXEC);
    if (descriptor >= 0 && close_after(fill(descriptor, bytes, rights), descriptor)) {
        return temporary;
    }
    int error = errno;
    if (descriptor >= 0) {
        unlink(temporary);
    }
    free(temporary);
    errno = error;
    return NULL;
}

/* By a link, which fails where the name is taken: a file that appears in between is not overwritten. */
int write_new(const struct place *place, const char *path, const struct bytes *bytes, const char *left,
              taken_name *taken) {
    char *temporary = write_temporary(place, path, bytes, NULL);
    if (temporary == NULL) {
        return not_written(place, path, left);
    }
    bool linked = link(temporary, path) == 0;
    int error = errno;
    unlink(temporary);
    free(temporary);
    errno = error;
    if (linked) {
        return STATUS_DONE;
    }
    return error == EEXIST ? taken(place->name, path) : not_written(place, path, left);
}
