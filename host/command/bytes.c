#define _GNU_SOURCE
#include "bytes.h"

#include <errno.h>
#include <stdlib.h>
#include <string.h>
#include <unistd.h>

enum { FIRST_ROOM = 65536 };

bool make_room(struct bytes *bytes, size_t room) {
    uint8_t *first = realloc(bytes->first, room);
    if (first == NULL) {
        return false;
    }
    bytes->first = first;
    bytes->room = room;
    return true;
}

bool append(struct bytes *bytes, const void *from, size_t length) {
    if (!make_room(bytes, bytes->length + length)) {
        return false;
    }
    memcpy(bytes->first + bytes->length, from, length);
    bytes->length += length;
    return true;
}

/* Twice the room, but no more than most. */
static bool grow(struct bytes *bytes, size_t most) {
    size_t room = bytes->room == 0 ? FIRST_ROOM : 2 * bytes->room;
    return make_room(bytes, room < most ? room : most);
}

/* Reads once, and again where a signal came first. */
static ssize_t read_some(int descriptor, uint8_t *into, size_t room) {
    ssize_t count;
    do {
        count = read(descriptor, into, room);
    } while (count < 0 && errno == EINTR);
    return count;
}

bool read_up_to(int descriptor, size_t most, struct bytes *bytes) {
    while (bytes->length < most) {
        if (bytes->length == bytes->room && !grow(bytes, most)) {
            return false;
        }
        ssize_t count = read_some(descriptor, bytes->first + bytes->length, bytes->room - bytes->length);
        if (count <= 0) {
            return count == 0;
        }
        bytes->length += (size_t)count;
    }
    return true;
}

bool count_rest(int descriptor, uint64_t *count) {
    uint8_t unkept[FIRST_ROOM];
    *count = 0;
    for (;;) {
        ssize_t now = read_some(descriptor, unkept, sizeof unkept);
        if (now <= 0) {
            return now == 0;
        }
        *count += (uint64_t)now;
    }
}

bool write_whole(int descriptor, const void *first, size_t length) {
    const uint8_t *next = first;
    while (length > 0) {
        ssize_t count = write(descriptor, next, length);
        if (count == 0) {
            errno = EIO;
        }
        if (count > 0) {
            next += count;
            length -= (size_t)count;
        } else if (errno != EINTR) {
            return false;
        }
    }
    return true;
}

/* A close that a signal interrupts has closed all the same. */
bool close_after(bool good, int descriptor) {
    int before = errno;
    bool closed = close(descriptor) == 0 || errno == EINTR;
    if (!good) {
        errno = before;
    }
    return good && closed;
}

bool take_text(text_writer *writer, const void *what, struct bytes *text) {
    char *first = NULL;
    size_t length = 0;
    FILE *out = open_memstream(&first, &length);
    if (out == NULL) {
        return false;
    }
    writer(out, what);
    bool good = !ferror(out);
    good = fclose(out) == 0 && good;
    *text = (struct bytes){.first = (uint8_t *)first, .length = length, .room = length};
    if (!good) {
        let_go(text);
    }
    return good;
}

void let_go(struct bytes *bytes) {
    free(bytes->first);
    *bytes = (struct bytes){0};
}
