#define _GNU_SOURCE
#include "say.h"

#include <errno.h>
#include <inttypes.h>
#include <stdarg.h>
#include <stdio.h>
#include <stdlib.h>
#include <string.h>
#include <unistd.h>

#include "crownhazel.h"
#include "spelling.h"
#include "status.h"

/* The width of the passing line that stands on the terminal; 0 where there is none. */
static int passing_width;

/* What is held back, and whether it is. */
static struct bytes kept_back;
static bool holding_back;

/* Head, name, ': ', text, all spelt, and a line feed; NULL where there is no memory. */
static char *compose(const char *head, const char *name, const char *format, va_list values) {
    char *text = NULL;
    char *plain = NULL;
    char *line = NULL;
    if (vasprintf(&text, format, values) < 0) {
        return NULL;
    }
    if (asprintf(&plain, "%s%s: %s", head, name, text) >= 0) {
        char *clean = spelt(plain);
        if (clean == NULL || asprintf(&line, "%s\n", clean) < 0) {
            line = NULL;
        }
        free(clean);
        free(plain);
    }
    free(text);
    return line;
}

void complain(const char *name, const char *format, ...) {
    int error = errno;
    va_list values;
    va_start(values, format);
    char *line = compose("crownhazel: ", name, format, values);
    va_end(values);
    const char *said = line != NULL ? line : "crownhazel: no memory\n";
    if (!holding_back || !append(&kept_back, said, strlen(said))) {
        wipe_passing();
        /* Where standard error cannot be written there is nobody left to tell; the status says it. */
        write_whole(STDERR_FILENO, said, strlen(said));
    }
    free(line);
    errno = error;
}

void hold_back(void) {
    holding_back = true;
}

void say_held_back(void) {
    holding_back = false;
    if (kept_back.length > 0) {
        wipe_passing();
        write_whole(STDERR_FILENO, kept_back.first, kept_back.length);
        let_go(&kept_back);
    }
}

int failed(const char *name, const char *what) {
    complain(name, "%s: %s", what, strerror(errno));
    return STATUS_SYSTEM;
}

int refused(const char *name, uint32_t number, uint32_t record) {
    complain(name, "refused with %" PRIu32 " at record %" PRIu32 ": %s", number, record, crownhazel_words(number));
    return status_of_refusal(number);
}

int refused_for(const char *name, uint64_t answer, const char *why) {
    uint32_t number = crownhazel_refusal(answer);
    complain(name, "refused with %" PRIu32 " at record %" PRIu32 ": %s; %s", number, crownhazel_record(answer),
             crownhazel_words(number), why);
    return status_of_refusal(number);
}

#define KEEP_IT                                                                                                        \
    "keep it, deliver nothing to another journal that may have been delivered before (it would be stored again), "     \
    "and ask a person"

/* What to do about a refusal that the journal has a part in; NULL for all others. */
static const char *advice(uint32_t number, size_t lines) {
    switch (number) {
    case 21: return "'crownhazel restore' puts its last copy in its place; never open it anew";
    case 23: return "it has all its statements: " KEEP_IT;
    case 24:
        return lines < CROWNHAZEL_MOST_LINES ? "'crownhazel grow' gives it more lines; then deliver again"
                                             : "it has all its lines: " KEEP_IT;
    case 25: return "'crownhazel accounts' lists the accounts that it holds";
    default: return NULL;
    }
}

int refused_by(const char *name, uint64_t answer, const char *journal, size_t lines) {
    char *why = NULL;
    const char *what_to_do = advice(crownhazel_refusal(answer), lines);
    if (what_to_do == NULL || asprintf(&why, "journal %s: %s", journal, what_to_do) < 0) {
        return refused(name, crownhazel_refusal(answer), crownhazel_record(answer));
    }
    int status = refused_for(name, answer, why);
    free(why);
    return status;
}

int answer_text(const void *text, size_t length) {
    wipe_passing();
    bool written = write_whole(STDOUT_FILENO, text, length);
    return written ? STATUS_DONE : failed("standard output", "the answer could not be written");
}

int answer(const char *name, const char *format, ...) {
    va_list values;
    va_start(values, format);
    char *line = compose("", name, format, values);
    va_end(values);
    int status = line != NULL ? answer_text(line, strlen(line)) : failed(name, "no answer");
    free(line);
    return status;
}

int answer_with(const char *name, text_writer *writer, const void *what) {
    struct bytes text;
    if (!take_text(writer, what, &text)) {
        return failed(name, "no memory for the answer");
    }
    int status = answer_text(text.first, text.length);
    let_go(&text);
    return status;
}

void show_passing(const char *format, ...) {
    char line[80] = "\r";
    if (holding_back || !isatty(STDERR_FILENO)) {
        return;
    }
    wipe_passing();
    va_list values;
    va_start(values, format);
    vsnprintf(line + 1, sizeof line - 1, format, values);
    va_end(values);
    size_t length = strlen(line);
    passing_width = write_whole(STDERR_FILENO, line, length) ? (int)length - 1 : 0;
}

/* Blanks over it. */
void wipe_passing(void) {
    char blanks[84];
    if (passing_width > 0) {
        int length = snprintf(blanks, sizeof blanks, "\r%*s\r", passing_width, "");
        passing_width = 0;
        write_whole(STDERR_FILENO, blanks, (size_t)length);
    }
}
