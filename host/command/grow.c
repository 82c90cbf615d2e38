/* Gives a journal more lines. */
#include <string.h>

#include "blank.h"
#include "commands.h"
#include "contents.h"
#include "crownhazel.h"
#include "journal.h"
#include "say.h"
#include "status.h"

/* The longer journal is the old one and blank lines: it holds the same statements. That it is sound is proved; the test
 * is for what this side did. */
static int replace_by_longer(struct place *place, const struct bytes *old, struct bytes *longer) {
    memcpy(longer->first, old->first, old->length);
    uint64_t used = crownhazel_used(longer->first, longer->length);
    return crownhazel_is_refused(used) ? refused_by(place->name, used, place->name, lines_of(longer))
                                       : replace_journal(place, longer, NULL);
}

/* A journal that has so many lines already is left as it is, so that the call can be made again. */
static int grow_held(struct place *place, const struct bytes *old, struct bytes *longer) {
    uint64_t used = crownhazel_used(old->first, old->length);
    if (crownhazel_is_refused(used)) {
        return refused_by(place->name, used, place->name, lines_of(old));
    }
    if (longer->length < old->length) {
        complain(place->name, "it has %zu lines, and lines are never taken away", lines_of(old));
        return STATUS_USAGE;
    }
    return longer->length == old->length ? settle_journal(place) : replace_by_longer(place, old, longer);
}

static int grow_place(const struct arguments *arguments, struct place *place, struct bytes *longer) {
    struct patience patience = patience_of(arguments);
    struct bytes old;
    int status = hold_journal(place, &patience, &old);
    if (status != STATUS_DONE) {
        return status;
    }
    status = grow_held(place, &old, longer);
    let_go(&old);
    return status;
}

int grow_command(const struct arguments *arguments) {
    struct bytes longer;
    struct place place;
    int status = make_blank("grow", arguments->operands[1], &longer);
    if (status != STATUS_DONE) {
        return status;
    }
    status = find_existing_journal(arguments->operands[0], &place);
    if (status == STATUS_DONE) {
        status = grow_place(arguments, &place, &longer);
        leave_place(&place);
    }
    size_t lines = lines_of(&longer);
    let_go(&longer);
    return status == STATUS_DONE ? answer(arguments->operands[0], "grown, lines %zu", lines) : status;
}
