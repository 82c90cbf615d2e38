#define _GNU_SOURCE
#include "rights.h"

#include <errno.h>
#include <string.h>
#include <sys/xattr.h>
#include <unistd.h>

static const char list_name[] = "system.posix_acl_access";

enum { RIGHTS = 0777, OWNERS_RIGHTS = 0700 };

static bool has_no_list(void) {
    return errno == ENODATA || errno == EOPNOTSUPP || errno == ENOSYS;
}

bool read_rights(int descriptor, struct rights *rights) {
    struct stat status;
    if (fstat(descriptor, &status) != 0) {
        return false;
    }
    ssize_t length = fgetxattr(descriptor, list_name, rights->list, sizeof rights->list);
    rights->owner = status.st_uid;
    rights->group = status.st_gid;
    rights->mode = status.st_mode & RIGHTS;
    rights->length = length > 0 ? (size_t)length : 0;
    return length >= 0 || has_no_list();
}

bool same_rights(const struct rights *one, const struct rights *other) {
    return one->owner == other->owner && one->group == other->group && one->mode == other->mode &&
           one->length == other->length && memcmp(one->list, other->list, one->length) == 0;
}

/* A list has to go first: the mode of a file with a list sets what the list lends. */
bool give_mode(int descriptor, mode_t mode) {
    bool alone = fremovexattr(descriptor, list_name) == 0 || has_no_list();
    return alone && fchmod(descriptor, mode) == 0;
}

/* The mode comes after the owner, whose change can cut it. A list brings its own mode, so until it is there the file is
 * its owner's alone. */
bool give_rights(int descriptor, const struct rights *rights) {
    bool listed = rights->length > 0;
    if (fchown(descriptor, rights->owner, rights->group) != 0 && fchown(descriptor, (uid_t)-1, rights->group) != 0) {
        return false;
    }
    return give_mode(descriptor, listed ? rights->mode & OWNERS_RIGHTS : rights->mode) &&
           (!listed || fsetxattr(descriptor, list_name, rights->list, rights->length, 0) == 0);
}
