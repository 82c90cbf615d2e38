/* Lists what a journal holds, and says how full it is. */
#include <inttypes.h>

#include "commands.h"
#include "contents.h"
#include "forms.h"
#include "say.h"
#include "status.h"

static void write_entry(FILE *out, size_t number, const struct entry *entry) {
    const char *row = (const char *)entry->row;
    char old_date[DAY_FORM + 1], new_date[DAY_FORM + 1];
    spell_day(day_in(entry->row + ROW_OLD_DATE), old_date);
    spell_day(day_in(entry->row + ROW_NEW_DATE), new_date);
    fprintf(out, "%zu %.5s %.5s %.3s %.1s %.11s %s %s %" PRIu32 " %" PRIu32 "\n", number, row + ROW_BANK,
            row + ROW_BRANCH, row + ROW_CURRENCY, row + ROW_DECIMALS, row + ROW_ACCOUNT, old_date, new_date,
            entry->first_line, entry->records);
}

static void write_entries(FILE *out, const void *what) {
    const struct contents *contents = what;
    for (size_t i = 0; i < contents->count; i++) {
        write_entry(out, i + 1, &contents->entries[i]);
    }
}

/* What a journal holds, without its bytes. */
static int look_at_contents(const char *name, struct contents *contents) {
    struct bytes journal;
    int status = look_into(name, &journal, contents);
    if (status == STATUS_DONE) {
        let_go(&journal);
    }
    return status;
}

int entries_command(const struct arguments *arguments) {
    const char *name = arguments->operands[0];
    struct contents contents;
    int status = look_at_contents(name, &contents);
    return status == STATUS_DONE ? answer_with(name, write_entries, &contents) : status;
}

int status_command(const struct arguments *arguments) {
    const char *name = arguments->operands[0];
    struct contents contents;
    struct accounts accounts;
    int status = look_at_contents(name, &contents);
    if (status != STATUS_DONE) {
        return status;
    }
    find_accounts(&contents, &accounts);
    return answer(name, "sound, accounts %zu, entries used %zu, free %zu, lines used %zu, free %zu", accounts.count,
                  contents.count, CROWNHAZEL_MOST_ENTRIES - contents.count, contents.lines_used,
                  contents.lines - contents.lines_used);
}
