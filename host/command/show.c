/* Shows a file by the proved listing program. What the file says is read there and nowhere here: this side brings the
 * records over with LF line ends, and reports what comes back. */
#define _GNU_SOURCE
#include <errno.h>
#include <fcntl.h>
#include <inttypes.h>
#include <signal.h>
#include <stdio.h>
#include <stdlib.h>
#include <stdnoreturn.h>
#include <string.h>
#include <sys/mman.h>
#include <sys/wait.h>
#include <unistd.h>

#include "commands.h"
#include "crownhazel.h"
#include "say.h"
#include "status.h"
#include "where.h"

enum {
    LF_LINE = CROWNHAZEL_RECORD + 1,
    MOST_LISTED = 540,           /* records that the listing takes */
    MOST_SENT = MOST_LISTED + 1, /* records sent of a longer file: one too many, so that it shows */
    MOST_PRINTED = 1 << 20       /* bytes of a listing, with room to spare */
};

/* Whether the right line end stands here. */
static bool ends_right(const uint8_t *at, uint64_t line_end) {
    static const char *const ends[] = {"", "\n", "\r\n"};
    return memcmp(at, ends[line_end], line_end) == 0;
}

/* Writes the records with LF after each. A wrong line end stays wrong, and a length that is wrong stays wrong: what is
 * left after the last whole line goes over without its line end. */
static bool send_records(int descriptor, const struct bytes *file, uint64_t line_end) {
    size_t line = CROWNHAZEL_RECORD + line_end;
    size_t records = file->length / line;
    size_t rest = file->length % line;
    for (size_t i = 0; i < records && i < MOST_SENT; i++) {
        const uint8_t *record = file->first + i * line;
        uint8_t sent[LF_LINE];
        memcpy(sent, record, CROWNHAZEL_RECORD);
        sent[CROWNHAZEL_RECORD] = ends_right(record + CROWNHAZEL_RECORD, line_end) ? '\n' : '\r';
        if (!write_whole(descriptor, sent, LF_LINE)) {
            return false;
        }
    }
    size_t most = rest < CROWNHAZEL_RECORD ? rest : CROWNHAZEL_RECORD;
    return records >= MOST_SENT || write_whole(descriptor, file->first + records * line, most);
}

/* The input of the listing: a file in memory, so that neither side waits for the other. Negative where it fails. */
static int listing_input(const struct bytes *file, uint64_t line_end) {
    int descriptor = memfd_create("crownhazel", MFD_CLOEXEC);
    if (descriptor < 0) {
        return -1;
    }
    if (!send_records(descriptor, file, line_end) || lseek(descriptor, 0, SEEK_SET) != 0) {
        close_after(false, descriptor);
        return -1;
    }
    return descriptor;
}

static const char *listing_program(void) {
    const char *named = getenv("CROWNHAZEL_LISTING");
    return named != NULL && named[0] != '\0' ? named : listing_path;
}

/* The child: becomes the listing, or says why it cannot. */
static noreturn void become_listing(int input, int output) {
    const char *program = listing_program();
    signal(SIGPIPE, SIG_DFL);
    signal(SIGXFSZ, SIG_DFL);
    if (dup2(input, STDIN_FILENO) >= 0 && dup2(output, STDOUT_FILENO) >= 0) {
        execl(program, program, (char *)NULL);
    }
    failed(program, "the listing program cannot be run");
    _exit(STATUS_SYSTEM);
}

/* Waits for the child to end well. */
static bool ended_well(pid_t child) {
    int status;
    while (waitpid(child, &status, 0) < 0) {
        if (errno != EINTR) {
            failed(listing_program(), "waiting for the listing program");
            return false;
        }
    }
    if (!WIFEXITED(status) || WEXITSTATUS(status) != 0) {
        complain(listing_program(), "the listing program did not end well");
        return false;
    }
    return true;
}

/* Runs the listing on an input, and keeps what it prints, with room for one byte more. */
static bool run_listing(int input, struct bytes *printed) {
    int ends[2];
    if (pipe2(ends, O_CLOEXEC) != 0) {
        failed(listing_program(), "no pipe");
        return false;
    }
    pid_t child = fork();
    if (child == 0) {
        become_listing(input, ends[1]);
    }
    close(ends[1]);
    bool read = child > 0 && read_up_to(ends[0], MOST_PRINTED, printed) && make_room(printed, printed->length + 1);
    if (!read) {
        failed(listing_program(), "the listing program cannot be run");
    }
    close(ends[0]);
    return child > 0 && ended_well(child) && read;
}

static int too_long(const char *name) {
    complain(name, "refused with TROP LONG: more than 65,340 bytes with LF line ends, which is 540 records");
    return STATUS_FILE_REFUSED;
}

/* Whether the listing ends with its last line, 'OK' and a number. */
static bool has_last_line(const char *text, size_t length) {
    const char *last = length > 1 ? memrchr(text, '\n', length - 1) : NULL;
    last = last == NULL ? text : last + 1;
    return length > 0 && text[length - 1] == '\n' && strncmp(last, "OK ", 3) == 0;
}

/* The text has a zero behind its last byte. */
static int report(const char *name, const char *text, size_t length) {
    uint32_t number, record;
    if (strcmp(text, "TROP LONG\n") == 0) {
        return too_long(name);
    }
    if (sscanf(text, "REFUS %" SCNu32 " %" SCNu32, &number, &record) == 2) {
        return refused(name, number, record);
    }
    if (!has_last_line(text, length)) {
        complain(listing_program(), "the listing program did not print its last line");
        return STATUS_SYSTEM;
    }
    return answer_text(text, length);
}

static int show_input(const struct input *input) {
    struct bytes printed = {0};
    int descriptor = listing_input(&input->kept, input->line_end);
    if (descriptor < 0) {
        return failed(input->name, "cannot be handed to the listing program");
    }
    int status = STATUS_SYSTEM;
    bool good = run_listing(descriptor, &printed);
    close(descriptor);
    if (good) {
        printed.first[printed.length] = '\0';
        status = report(input->name, (const char *)printed.first, printed.length);
    }
    let_go(&printed);
    return status;
}

int show_command(const struct arguments *arguments) {
    struct input input;
    if (!read_input(arguments->operands[0], arguments->line_end, &input)) {
        return STATUS_SYSTEM;
    }
    int status = is_whole(&input) ? show_input(&input) : too_long(input.name);
    let_go(&input.kept);
    return status;
}
