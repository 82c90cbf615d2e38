/* Copies a sound journal. */
#include "commands.h"
#include "contents.h"
#include "copies.h"
#include "say.h"
#include "status.h"

static int copy_to(const char *name, const struct bytes *journal, size_t entries) {
    struct place copy;
    int status = find_journal(name, &copy);
    if (status != STATUS_DONE) {
        return status;
    }
    status = write_copy(&copy, journal);
    leave_place(&copy);
    return status == STATUS_DONE ? answer(name, "entries %zu, checksum %s" CHECKSUM_ENDING, entries, name) : status;
}

int backup_command(const struct arguments *arguments) {
    struct bytes journal;
    struct contents contents;
    int status = look_into(arguments->operands[0], &journal, &contents);
    if (status == STATUS_DONE) {
        status = copy_to(arguments->operands[1], &journal, contents.count);
        let_go(&journal);
    }
    return status;
}
