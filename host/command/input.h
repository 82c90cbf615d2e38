/* A FILE of the command line, in memory, and the line end it is read with. */
#ifndef COMMAND_INPUT_H
#define COMMAND_INPUT_H

#include <stdbool.h>
#include <stddef.h>
#include <stdint.h>

#include "bytes.h"

/* The library's line-end numbers, and the choice to look at the file. */
enum line_end { LINE_END_NONE = 0, LINE_END_LF = 1, LINE_END_CRLF = 2, LINE_END_AUTO = 3 };

/* The name of a line end on the command line; false where there is none of that name. */
bool line_end_named(const char *name, enum line_end *line_end);

/* Whether a FILE is standard input. */
bool is_standard_input(const char *name);

/* A file that was read. Of one that is longer than any that can be accepted only the beginning is kept: it is refused
 * for its length alone. */
struct input {
    const char *name;
    struct bytes kept;
    uint64_t length;   /* of the whole file */
    uint64_t line_end; /* the line-end number to read it with */
};

/* Reads the file: what it keeps is the caller's to let go. The line end is the one that was chosen, or what the file
 * shows. False with a message where it cannot be read. */
bool read_input(const char *name, enum line_end chosen, struct input *input);

/* The same of a file that is open, whose line end is what it shows. */
bool read_descriptor(const char *name, int descriptor, struct input *input);

/* Whether the whole file is kept. */
bool is_whole(const struct input *input);

/* The bytes of a record with its line end. */
size_t width_of(const struct input *input);

/* The earliest old balance date of its statements, YYYYMMDD; 0 where it has none or is refused. */
uint64_t earliest_day(const struct input *input);

/* What the check says of the file: of one that is not kept whole, the refusal of its length. */
uint64_t checked(const struct input *input);

#endif
