/* Delivers files to a journal, each for itself. */
#include <inttypes.h>

#include "commands.h"
#include "contents.h"
#include "crownhazel.h"
#include "deliver.h"
#include "journal.h"
#include "say.h"
#include "status.h"

/* What the delivery says of the file, to the journal in memory. One that is not kept whole is refused for its length,
 * where the journal itself is sound. */
static uint64_t delivered_to(struct bytes *journal, const struct input *input) {
    if (is_whole(input)) {
        return crownhazel_deliver(journal->first, journal->length, input->line_end, input->kept.first,
                                  input->kept.length);
    }
    uint64_t used = crownhazel_used(journal->first, journal->length);
    return crownhazel_is_refused(used) ? used : checked(input);
}

/* What was stored is brought to the disk, and so is what was held: the run that stored it can have been killed before
 * it was safe. An empty file leaves nothing to do. */
static int keep(struct place *place, const struct bytes *journal, uint64_t delivered) {
    if (crownhazel_stored(delivered) > 0) {
        return replace_journal(place, journal, NULL);
    }
    return crownhazel_held(delivered) > 0 ? settle_journal(place) : STATUS_DONE;
}

/* The refused delivery has left the journal as it was. */
static int look_for_expected(const struct bytes *journal, const struct input *input, struct delivered *delivered) {
    delivered->count = list_entries(journal, delivered->entries);
    return find_expected(journal, delivered->entries, delivered->count, input, delivered->answer, &delivered->expected)
               ? STATUS_DONE
               : failed(input->name, "what was expected cannot be said");
}

/* Delivers to a copy of the journal in memory. The locks are held, and let go before anything is said of the file. */
static int deliver_held(struct place *place, struct bytes *journal, const struct input *input,
                        struct delivered *delivered) {
    delivered->answer = delivered_to(journal, input);
    delivered->lines = lines_of(journal);
    delivered->count = 0;
    if (crownhazel_is_refused(delivered->answer)) {
        return crownhazel_refusal(delivered->answer) == 22 ? look_for_expected(journal, input, delivered) : STATUS_DONE;
    }
    delivered->count = list_entries(journal, delivered->entries);
    return keep(place, journal, delivered->answer);
}

int deliver_input(const struct arguments *arguments, const struct input *input, struct delivered *delivered) {
    struct place place;
    struct bytes journal;
    struct patience patience = patience_of(arguments);
    int status = find_existing_journal(arguments->operands[0], &place);
    if (status != STATUS_DONE) {
        return status;
    }
    status = hold_journal(&place, &patience, &journal);
    if (status == STATUS_DONE) {
        status = deliver_held(&place, &journal, input, delivered);
        let_go(&journal);
    }
    leave_place(&place);
    return status;
}

/* The file is read before the lock is taken: a slow pipe holds up nobody else. The answer comes last, when all of it
 * is on the disk. */
static int deliver_file(const struct arguments *arguments, const char *name) {
    struct input input;
    struct delivered delivered;
    if (!read_input(name, arguments->line_end, &input)) {
        return STATUS_SYSTEM;
    }
    int status = deliver_input(arguments, &input, &delivered);
    let_go(&input.kept);
    if (status != STATUS_DONE) {
        return status;
    }
    if (crownhazel_is_refused(delivered.answer)) {
        return refused_delivery(name, delivered.answer, arguments->operands[0], delivered.lines, &delivered.expected);
    }
    return answer(name, "stored %" PRIu32 ", held %" PRIu32, crownhazel_stored(delivered.answer),
                  crownhazel_held(delivered.answer));
}

int deliver_command(const struct arguments *arguments) {
    int status = STATUS_DONE;
    size_t files = arguments->count - 1;
    for (size_t i = 0; i < files; i++) {
        if (files > 1) {
            show_passing("%zu of %zu files", i, files);
        }
        status = worse(status, deliver_file(arguments, arguments->operands[i + 1]));
    }
    wipe_passing();
    return status;
}
