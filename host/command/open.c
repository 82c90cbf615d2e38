/* Makes a blank journal. */
#include "blank.h"
#include "commands.h"
#include "contents.h"
#include "crownhazel.h"
#include "journal.h"
#include "say.h"
#include "status.h"

static int exists_already(const char *name, bool blank_existing) {
    complain(name, "exists already and stays as it is%s",
             blank_existing ? ": it has come there meanwhile"
                            : "; --blank-existing blanks a journal, and what it holds is gone");
    return STATUS_USAGE;
}

/* Only a sound journal is blanked: any other file is something else, or a journal to be restored. */
static int blank(struct place *place, const struct patience *patience, const struct bytes *journal,
                 const mode_t *mode) {
    struct bytes old;
    int status = hold_journal(place, patience, &old);
    if (status != STATUS_DONE) {
        return status;
    }
    uint64_t used = crownhazel_used(old.first, old.length);
    status = crownhazel_is_refused(used) ? refused_by(place->name, used, place->name, lines_of(&old))
                                         : replace_journal(place, journal, mode);
    let_go(&old);
    return status;
}

static int open_place(const struct arguments *arguments, struct place *place, const struct bytes *journal) {
    struct patience patience = patience_of(arguments);
    mode_t mode = arguments->has_mode ? arguments->mode : RIGHTS_PRIVATE;
    if (place->exists) {
        return arguments->blank_existing ? blank(place, &patience, journal, arguments->has_mode ? &mode : NULL)
                                         : exists_already(place->name, false);
    }
    int status = hold_name(place, &patience);
    if (status == STATUS_DONE) {
        status = create_journal(place, journal, mode);
    }
    return status == STATUS_USAGE ? exists_already(place->name, arguments->blank_existing) : status;
}

int open_command(const struct arguments *arguments) {
    struct bytes journal;
    struct place place;
    int status = make_blank("open", arguments->operands[1], &journal);
    if (status != STATUS_DONE) {
        return status;
    }
    status = find_journal(arguments->operands[0], &place);
    if (status == STATUS_DONE) {
        status = open_place(arguments, &place, &journal);
        leave_place(&place);
    }
    size_t lines = lines_of(&journal);
    let_go(&journal);
    return status == STATUS_DONE ? answer(arguments->operands[0], "opened, lines %zu", lines) : status;
}
