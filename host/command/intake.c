/* The night's job: delivers the files that wait in a folder, oldest first, and puts them away by their answers. */
#define _GNU_SOURCE
#include <inttypes.h>
#include <stdio.h>
#include <stdlib.h>
#include <string.h>
#include <unistd.h>

#include "commands.h"
#include "contents.h"
#include "crownhazel.h"
#include "deliver.h"
#include "folders.h"
#include "forms.h"
#include "journal.h"
#include "say.h"
#include "status.h"
#include "waiting.h"

/* What an account ended with, and what it goes on with on a later day. */
struct skip {
    struct entry last, next;
};

/* One run: what it works on, and what has come of it so far. */
struct night {
    const struct arguments *arguments;
    const char *journal;
    struct folders folders;
    struct waiting waiting;
    struct contents known;                       /* what the journal held when it was last looked at */
    size_t delivered;                            /* files that the journal holds */
    size_t done, refused;                        /* files */
    size_t settled;                              /* files that are in the journal, or can never be */
    uint64_t stored, held;                       /* statements */
    struct entry begun[CROWNHAZEL_MOST_ENTRIES]; /* the first entry of each account that began in this run */
    size_t begun_count;
    struct skip skips[CROWNHAZEL_MOST_ENTRIES]; /* where accounts have skipped days in this run */
    size_t skip_count;
    int status;
    bool ended; /* nothing more is delivered */
};

/* The file cannot be taken in this run. */
static void pass_over(struct night *night, struct waiting_file *file, int status) {
    file->fate = PASSED_OVER;
    night->status = worse(night->status, status);
}

/* What may be in a file that cannot be read nobody knows, so nothing is delivered after it, unless the caller wants
 * that. */
static void stop_at(struct night *night, struct waiting_file *file) {
    pass_over(night, file, STATUS_SYSTEM);
    night->ended = !night->arguments->go_on;
}

/* One entry that was stored, beside those before it. */
static void note_stored(struct night *night, size_t at) {
    const struct entry *entry = &night->known.entries[at];
    const struct entry *last = last_of_account(night->known.entries, at, entry);
    if (last == NULL && night->begun_count < CROWNHAZEL_MOST_ENTRIES) {
        night->begun[night->begun_count++] = *entry;
    }
    if (last != NULL && gap_between(last, entry) > 0 && night->skip_count < CROWNHAZEL_MOST_ENTRIES) {
        night->skips[night->skip_count++] = (struct skip){*last, *entry};
    }
}

/* What a delivery has done to the journal counts, whatever becomes of the file. */
static void note_delivered(struct night *night, const struct delivered *delivered) {
    size_t stored = crownhazel_stored(delivered->answer);
    night->delivered++;
    night->settled++;
    night->stored += stored;
    night->held += crownhazel_held(delivered->answer);
    night->known.count = delivered->count;
    memcpy(night->known.entries, delivered->entries, delivered->count * sizeof delivered->entries[0]);
    for (size_t i = delivered->count - stored; i < delivered->count; i++) {
        note_stored(night, i);
    }
}

/* Stored or held, and on the disk. One that cannot be moved is in the journal all the same. */
static void put_to_done(struct night *night, struct waiting_file *file, int descriptor,
                        const struct delivered *delivered) {
    char *moved = NULL;
    int status = move_to_done(&night->folders, file->path, descriptor, &moved);
    night->done += moved != NULL;
    if (status == STATUS_DONE) {
        file->fate = MOVED;
        status = answer(file->path, "stored %" PRIu32 ", held %" PRIu32 ", moved to %s",
                        crownhazel_stored(delivered->answer), crownhazel_held(delivered->answer), moved);
        night->status = worse(night->status, status);
    } else {
        pass_over(night, file, status);
    }
    free(moved);
}

/* A refused file's answer, by which journal, and where the file went; NULL where it was not moved. */
struct put_away {
    const struct delivered *delivered;
    const char *journal;
    const char *moved;
};

static bool does_not_follow(const struct delivered *delivered) {
    return crownhazel_refusal(delivered->answer) == 22;
}

/* The line that stands beside a refused file. */
static void write_answer(FILE *out, const void *what) {
    const struct delivered *delivered = what;
    uint32_t number = crownhazel_refusal(delivered->answer);
    fprintf(out, "refused with %" PRIu32 " at record %" PRIu32 ": %s", number, crownhazel_record(delivered->answer),
            crownhazel_words(number));
    if (does_not_follow(delivered)) {
        fprintf(out, "; ");
        write_expected(out, &delivered->expected);
    }
    fprintf(out, "\n");
}

/* What is said of it. */
static void write_move(FILE *out, const void *what) {
    const struct put_away *put_away = what;
    if (does_not_follow(put_away->delivered)) {
        fprintf(out, "journal %s: ", put_away->journal);
        write_expected(out, &put_away->delivered->expected);
        fprintf(out, "; ");
    }
    fprintf(out, "%s%s", put_away->moved == NULL ? "it was not moved" : "moved to ",
            put_away->moved == NULL ? "" : put_away->moved);
}

/* Refused by the file's own fault, or for ever, which is said wherever the file is then. Nothing of it can be stored,
 * so it shuts nothing out. */
static void put_to_refused(struct night *night, struct waiting_file *file, int descriptor,
                           const struct delivered *delivered) {
    struct bytes beside, words = {0};
    char *moved = NULL;
    if (!take_text(write_answer, delivered, &beside)) {
        pass_over(night, file, failed(file->path, "no memory for the answer"));
        return;
    }
    int status = move_to_refused(&night->folders, file->path, descriptor, &beside, &moved);
    struct put_away put_away = {delivered, night->journal, moved};
    bool told = take_text(write_move, &put_away, &words);
    night->refused += moved != NULL;
    night->settled++;
    refused_for(file->path, delivered->answer, told ? (const char *)words.first : "");
    pass_over(night, file, worse(status, STATUS_FILE_REFUSED));
    file->fate = moved == NULL ? PASSED_OVER : MOVED;
    free(moved);
    let_go(&words);
    let_go(&beside);
}

/* Whether the file does not follow, and nothing of it ever can. */
static bool is_refused_for_ever(const struct waiting_file *file, const struct delivered *delivered) {
    return does_not_follow(delivered) && holds_nothing_new(file, delivered->entries, delivered->count);
}

/* What the library has said of a file decides where it goes. */
static void put_away(struct night *night, struct waiting_file *file, int descriptor,
                     const struct delivered *delivered) {
    uint64_t answer = delivered->answer;
    int status = crownhazel_is_refused(answer) ? status_of_refusal(crownhazel_refusal(answer)) : STATUS_DONE;
    if (status == STATUS_DONE) {
        put_to_done(night, file, descriptor, delivered);
    } else if (status == STATUS_FILE_REFUSED || is_refused_for_ever(file, delivered)) {
        put_to_refused(night, file, descriptor, delivered);
    } else if (status == STATUS_JOURNAL_REFUSES) {
        file->refusal = answer;
        file->lines = delivered->lines;
        file->expected = delivered->expected;
    } else {
        status = refused_delivery(file->path, answer, night->journal, delivered->lines, &delivered->expected);
        night->status = worse(night->status, status);
        night->ended = true;
    }
}

/* Delivers one file. What the journal's own file does to it ends the run: the others would fare no better. */
static void take_file(struct night *night, struct waiting_file *file) {
    struct input input;
    struct delivered delivered;
    int descriptor;
    if (!open_waiting(file, &input, &descriptor)) {
        stop_at(night, file);
        return;
    }
    int status = deliver_input(night->arguments, &input, &delivered);
    let_go(&input.kept);
    if (status == STATUS_DONE && !crownhazel_is_refused(delivered.answer)) {
        note_delivered(night, &delivered);
    }
    if (status != STATUS_DONE) {
        night->status = worse(night->status, status);
        night->ended = true;
    } else if (was_changed(file, descriptor)) {
        complain(file->path,
                 "another program has changed or replaced it during the delivery; what has its name now waits");
        pass_over(night, file, STATUS_SYSTEM);
    } else {
        put_away(night, file, descriptor, &delivered);
    }
    close(descriptor); /* nothing was written through it */
}

/* The file that another one has to wait for: that has an earlier statement of an account, which could never be stored
 * behind one of this file. NULL where there is none; else `entry` is the one of this file. */
static const struct waiting_file *find_behind(const struct night *night, const struct waiting_file *file,
                                              const struct entry **entry) {
    const struct waiting_file *behind = NULL;
    for (size_t i = 0; behind == NULL && i < file->periods.count; i++) {
        *entry = &file->periods.list[i];
        behind = waits_behind(&night->waiting, file, i, &night->known);
    }
    return behind;
}

/* Every file that waits, oldest first. */
static void run_round(struct night *night) {
    struct waiting *waiting = &night->waiting;
    const struct entry *entry;
    for (size_t i = 0; i < waiting->count && !night->ended; i++) {
        struct waiting_file *file = &waiting->list[i];
        file->behind = file->fate == WAITS ? find_behind(night, file, &entry) : NULL;
        if (file->fate == WAITS && file->behind == NULL) {
            show_passing("%zu of %zu files", i, waiting->count);
            take_file(night, file);
        }
    }
    wipe_passing();
}

/* What the journal holds by now; others may deliver to it, or restore it. */
static bool look_again(struct night *night) {
    struct bytes journal;
    int status = look_into(night->journal, &journal, &night->known);
    if (status == STATUS_DONE) {
        let_go(&journal);
    }
    night->status = worse(night->status, status);
    return status == STATUS_DONE;
}

/* A file that could not follow may follow what a later one has brought, and one that had to wait for another can come
 * after it, so there is another round as long as a file is delivered or refused for ever. */
static void run_rounds(struct night *night) {
    size_t before;
    do {
        before = night->settled;
        if (look_again(night)) {
            run_round(night);
        } else {
            night->ended = true;
        }
    } while (!night->ended && night->settled > before);
}

static int tell_behind(const struct night *night, const struct waiting_file *file) {
    char key[KEY_FORM + 1], day[DAY_FORM + 1];
    const struct entry *entry = NULL;
    const struct waiting_file *behind = find_behind(night, file, &entry);
    if (behind == NULL) {
        return STATUS_DONE; /* the run has ended before its turn came again */
    }
    spell_key(entry->row, key);
    spell_day(day_in(entry->row + ROW_OLD_DATE), day);
    complain(file->path,
             "it waits for %s: that has an earlier statement of the account %s, which could never be stored after the "
             "one here that begins on %s",
             behind->path, key, day);
    return STATUS_JOURNAL_REFUSES;
}

/* One that can never follow stands beside others, or the file would have been put away. */
static int tell_refused(const struct night *night, const struct waiting_file *file) {
    int status = refused_delivery(file->path, file->refusal, night->journal, file->lines, &file->expected);
    if (crownhazel_refusal(file->refusal) == 22 && file->expected.why == CAN_NEVER_FOLLOW) {
        complain(file->path, "it is left: %s",
                 file->periods.whole
                     ? "other statements in it may still be stored; ask the bank for them without that one"
                     : "it has too many breaks to look at all that is in it; a person has to");
    }
    return status;
}

/* What cannot be taken now is said once, when no round will change it. */
static void tell_left(struct night *night) {
    for (size_t i = 0; i < night->waiting.count; i++) {
        const struct waiting_file *file = &night->waiting.list[i];
        if (file->fate == WAITS && file->behind != NULL) {
            night->status = worse(night->status, tell_behind(night, file));
        } else if (file->fate == WAITS && file->refusal != 0) {
            night->status = worse(night->status, tell_refused(night, file));
        }
    }
}

/* A line for the files and their statements, one for each account that has begun, and one wherever days were skipped.
 */
static int tell_totals(const struct night *night) {
    char key[KEY_FORM + 1], day[DAY_FORM + 1], next[DAY_FORM + 1];
    int status =
        answer(night->journal, "done %zu, refused %zu, left %zu, stored %" PRIu64 ", held %" PRIu64, night->done,
               night->refused, night->waiting.count - night->done - night->refused, night->stored, night->held);
    for (size_t i = 0; i < night->begun_count; i++) {
        spell_key(night->begun[i].row, key);
        spell_day(day_in(night->begun[i].row + ROW_OLD_DATE), day);
        status = worse(status, answer(night->journal, "begins %s %s", key, day));
    }
    for (size_t i = 0; i < night->skip_count; i++) {
        const struct skip *skip = &night->skips[i];
        spell_key(skip->next.row, key);
        spell_day(day_in(skip->last.row + ROW_NEW_DATE), day);
        spell_day(day_in(skip->next.row + ROW_OLD_DATE), next);
        status = worse(status, answer(night->journal, "skips %s %s %s", key, day, next));
    }
    return status;
}

/* A file that the journal does not hold may have the first statement of an account that has begun without it, or what
 * lies in days that one has skipped. */
static void warn(const struct night *night) {
    size_t passed = night->waiting.count - night->delivered;
    if (night->begun_count > 0 && passed > 0) {
        complain(night->journal,
                 "accounts begin in this run, and not all files are in the journal (%zu are not): look whether one of "
                 "them is earlier, for what comes before an account's first statement can never be stored",
                 passed);
    }
    if (night->skip_count > 0 && passed > 0) {
        complain(night->journal,
                 "accounts skip days in this run, and not all files are in the journal (%zu are not): look whether one "
                 "of them lies between, for what an account has skipped can never be stored",
                 passed);
    }
}

static int tell(struct night *night) {
    tell_left(night);
    warn(night);
    return worse(night->status, tell_totals(night));
}

/* One that cannot be read may be the first of its account. */
static int run_night(struct night *night, const struct place *journal) {
    size_t unreadable;
    int status = find_waiting(&night->folders.incoming, journal, &night->waiting, &unreadable);
    if (status != STATUS_DONE) {
        return status;
    }
    if (unreadable > 0 && !night->arguments->go_on) {
        complain(night->folders.incoming.name,
                 "nothing was delivered: what may be in a file that cannot be read nobody knows; --go-on takes the "
                 "others");
        return STATUS_SYSTEM;
    }
    night->status = unreadable > 0 ? STATUS_SYSTEM : STATUS_DONE;
    run_rounds(night);
    return tell(night);
}

/* Nothing is looked at, let alone moved, where the journal is not sound. */
static int test_journal(struct place *place) {
    struct bytes journal;
    int status = read_journal(place, &journal);
    if (status != STATUS_DONE) {
        return status;
    }
    uint64_t used = crownhazel_used(journal.first, journal.length);
    if (crownhazel_is_refused(used)) {
        status = refused_by(place->name, used, place->name, lines_of(&journal));
    }
    let_go(&journal);
    return status;
}

int intake_command(const struct arguments *arguments) {
    struct place place;
    struct night night = {.arguments = arguments, .journal = arguments->operands[0]};
    int status = find_existing_journal(night.journal, &place);
    if (status != STATUS_DONE) {
        return status;
    }
    status = test_journal(&place);
    if (status == STATUS_DONE) {
        status = open_folders(arguments, &place, &night.folders);
        if (status == STATUS_DONE) {
            status = run_night(&night, &place);
            forget_waiting(&night.waiting);
            leave_folders(&night.folders);
        }
    }
    leave_place(&place);
    return status;
}
