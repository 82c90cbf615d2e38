#define _DEFAULT_SOURCE
#include "input.h"

#include <errno.h>
#include <fcntl.h>
#include <string.h>
#include <sys/stat.h>
#include <unistd.h>

#include "crownhazel.h"
#include "say.h"

enum {
    MOST_FILE = CROWNHAZEL_MOST_RECORDS * (CROWNHAZEL_RECORD + 2), /* bytes of the longest file, with CR LF */
    TELLING = CROWNHAZEL_RECORD + 1                                /* bytes that show the line end */
};

bool line_end_named(const char *name, enum line_end *line_end) {
    static const char *const names[] = {"none", "lf", "crlf", "auto"};
    for (size_t i = 0; i < sizeof names / sizeof names[0]; i++) {
        if (strcmp(name, names[i]) == 0) {
            *line_end = (enum line_end)i;
            return true;
        }
    }
    return false;
}

bool is_standard_input(const char *name) {
    return strcmp(name, "-") == 0;
}

/* How many bytes of a regular file are still to be read; 0 for all others, whose length shows at their end. */
static uint64_t known_length(int descriptor) {
    struct stat status;
    if (fstat(descriptor, &status) != 0 || !S_ISREG(status.st_mode)) {
        return 0;
    }
    off_t at = lseek(descriptor, 0, SEEK_CUR);
    return at >= 0 && at < status.st_size ? (uint64_t)(status.st_size - at) : 0;
}

/* A regular file that is too long is not read to its end: its length is known. */
static bool read_all(int descriptor, struct input *input) {
    uint64_t rest = 0;
    uint64_t known = known_length(descriptor);
    if (known > MOST_FILE) {
        input->length = known;
        return read_up_to(descriptor, TELLING, &input->kept);
    }
    bool good = read_up_to(descriptor, MOST_FILE, &input->kept) &&
                (input->kept.length < MOST_FILE || count_rest(descriptor, &rest));
    input->length = input->kept.length + rest;
    return good;
}

/* Opens, and again where a signal came first: the opening of a pipe waits. */
static int open_to_read(const char *name) {
    int descriptor;
    do {
        descriptor = open(name, O_RDONLY | O_CLOEXEC | O_NOCTTY);
    } while (descriptor < 0 && errno == EINTR);
    return descriptor;
}

static bool read_named(const char *name, struct input *input) {
    int descriptor = open_to_read(name);
    return descriptor >= 0 && close_after(read_all(descriptor, input), descriptor);
}

/* The first line end whose lines the length is made of; none where it is made of no whole lines. */
static uint64_t by_length(uint64_t length) {
    for (uint64_t line_end = LINE_END_NONE; line_end <= LINE_END_CRLF; line_end++) {
        if (length % (CROWNHAZEL_RECORD + line_end) == 0) {
            return line_end;
        }
    }
    return LINE_END_NONE;
}

/* The byte after the first record tells for every file that can be accepted. The length is for the others: it finds
 * the refusal that says most. */
static uint64_t line_end_of(const struct input *input, enum line_end chosen) {
    if (chosen != LINE_END_AUTO) {
        return (uint64_t)chosen;
    }
    uint8_t after = input->kept.length > CROWNHAZEL_RECORD ? input->kept.first[CROWNHAZEL_RECORD] : 0;
    if (after == '\n') {
        return LINE_END_LF;
    }
    return after == '\r' ? LINE_END_CRLF : by_length(input->length);
}

/* What comes of a reading. */
static bool finish(bool good, enum line_end chosen, struct input *input) {
    if (good) {
        input->line_end = line_end_of(input, chosen);
    } else {
        failed(input->name, "cannot be read");
        let_go(&input->kept);
    }
    return good;
}

bool read_input(const char *name, enum line_end chosen, struct input *input) {
    *input = (struct input){.name = name};
    return finish(is_standard_input(name) ? read_all(STDIN_FILENO, input) : read_named(name, input), chosen, input);
}

bool read_descriptor(const char *name, int descriptor, struct input *input) {
    *input = (struct input){.name = name};
    return finish(read_all(descriptor, input), LINE_END_AUTO, input);
}

bool is_whole(const struct input *input) {
    return input->length == input->kept.length;
}

size_t width_of(const struct input *input) {
    return CROWNHAZEL_RECORD + (size_t)input->line_end;
}

uint64_t earliest_day(const struct input *input) {
    if (!is_whole(input)) {
        return 0;
    }
    uint64_t earliest = crownhazel_earliest(input->line_end, input->kept.first, input->kept.length);
    return crownhazel_is_refused(earliest) ? 0 : crownhazel_day_of(earliest);
}

uint64_t checked(const struct input *input) {
    return is_whole(input) ? crownhazel_check(input->line_end, input->kept.first, input->kept.length)
                           : crownhazel_length(input->line_end, input->length);
}
