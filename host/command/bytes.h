/* Bytes in memory, and reading and writing them whole: short counts and interruptions are seen to here. */
#ifndef COMMAND_BYTES_H
#define COMMAND_BYTES_H

#include <stdbool.h>
#include <stddef.h>
#include <stdint.h>
#include <stdio.h>

/* Begins as all zeros, ends with let_go. */
struct bytes {
    uint8_t *first;
    size_t length;
    size_t room;
};

/* Each gives false with errno set where it fails. */

/* Makes room for so many bytes. */
bool make_room(struct bytes *bytes, size_t room);

/* Puts bytes behind the last. */
bool append(struct bytes *bytes, const void *from, size_t length);

/* Reads to the end, or until so many bytes are there. */
bool read_up_to(int descriptor, size_t most, struct bytes *bytes);

/* Reads to the end and counts, without keeping what it reads. */
bool count_rest(int descriptor, uint64_t *count);

bool write_whole(int descriptor, const void *first, size_t length);

/* Closes, and hands on what an earlier step said: false stays false, with its errno. */
bool close_after(bool good, int descriptor);

/* What writes a text, of whatever it is handed. */
typedef void text_writer(FILE *out, const void *what);

/* Takes the whole text that is written. A byte 0 stands behind it. */
bool take_text(text_writer *writer, const void *what, struct bytes *text);

void let_go(struct bytes *bytes);

#endif
