/* Judges files. */
#include <inttypes.h>

#include "commands.h"
#include "crownhazel.h"
#include "say.h"
#include "status.h"

static int check_file(const char *name, enum line_end chosen) {
    struct input input;
    if (!read_input(name, chosen, &input)) {
        return STATUS_SYSTEM;
    }
    uint64_t found = checked(&input);
    let_go(&input.kept);
    if (crownhazel_is_refused(found)) {
        return refused(name, crownhazel_refusal(found), crownhazel_record(found));
    }
    return answer(name, "statements %" PRIu32 ", movements %" PRIu32 ", complements %" PRIu32,
                  crownhazel_statements(found), crownhazel_movements(found), crownhazel_complements(found));
}

int check_command(const struct arguments *arguments) {
    int status = STATUS_DONE;
    for (size_t i = 0; i < arguments->count; i++) {
        status = worse(status, check_file(arguments->operands[i], arguments->line_end));
    }
    return status;
}
