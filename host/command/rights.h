/* Who may read and write a file: owner, group, mode, and an access list where there is one. */
#ifndef COMMAND_RIGHTS_H
#define COMMAND_RIGHTS_H

#include <stdbool.h>
#include <stddef.h>
#include <stdint.h>
#include <sys/stat.h>

enum {
    RIGHTS_PRIVATE = 0600, /* of every new file, unless somebody asks otherwise */
    MOST_ACCESS_LIST = 8192
};

/* Where there is a list, the group's bits of the mode are what the list lends at most, not the group's own. */
struct rights {
    uid_t owner;
    gid_t group;
    mode_t mode;
    uint8_t list[MOST_ACCESS_LIST];
    size_t length; /* of the list; 0 where there is none */
};

/* Each gives false with errno set where it fails. */

bool read_rights(int descriptor, struct rights *rights);
bool same_rights(const struct rights *one, const struct rights *other);

/* All of them, but for the owner, who is kept as far as that is permitted. Where the rest cannot be kept it fails. */
bool give_rights(int descriptor, const struct rights *rights);

/* These rights alone, and no list that a folder hands down. */
bool give_mode(int descriptor, mode_t mode);

#endif
