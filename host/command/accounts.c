/* Lists the accounts of a journal. */
#include "cash.h"
#include "commands.h"
#include "contents.h"
#include "forms.h"
#include "say.h"
#include "status.h"

/* What is written of an account. */
struct line {
    const uint8_t *key;
    char first[DAY_FORM + 1], last[DAY_FORM + 1]; /* old date of its first statement, new date of its last */
    char balance[NUMBER_FORM];                    /* new balance of its last statement */
    size_t statements;
};

/* All that is written. */
struct listing {
    size_t count;
    struct line lines[CROWNHAZEL_MOST_ENTRIES];
};

/* The balance comes from the library. */
static struct line line_of(const struct bytes *journal, const struct contents *contents,
                           const struct account *account) {
    struct line line = {.key = contents->entries[account->first].row, .statements = account->statements};
    int64_t balance = crownhazel_balance(journal->first, journal->length, account->last + 1);
    spell_day(day_in(contents->entries[account->first].row + ROW_OLD_DATE), line.first);
    spell_day(day_in(contents->entries[account->last].row + ROW_NEW_DATE), line.last);
    spell_number(number_of(balance, decimals_of(line.key)), "", line.balance);
    return line;
}

static void write_lines(FILE *out, const void *what) {
    const struct listing *listing = what;
    char key[KEY_FORM + 1];
    for (size_t i = 0; i < listing->count; i++) {
        const struct line *line = &listing->lines[i];
        spell_key(line->key, key);
        fprintf(out, "%s %s %s %s %zu\n", key, line->first, line->last, line->balance, line->statements);
    }
}

static void write_objects(FILE *out, const void *what) {
    const struct listing *listing = what;
    fprintf(out, "[");
    for (size_t i = 0; i < listing->count; i++) {
        const struct line *line = &listing->lines[i];
        fprintf(out, "%s\n{", i == 0 ? "" : ",");
        write_key_members(out, line->key);
        fprintf(out, "\"first\": \"%s\", \"last\": \"%s\", \"balance\": \"%s\", \"statements\": %zu}", line->first,
                line->last, line->balance, line->statements);
    }
    fprintf(out, "%s]\n", listing->count == 0 ? "" : "\n");
}

int accounts_command(const struct arguments *arguments) {
    const char *name = arguments->operands[0];
    struct bytes journal;
    struct contents contents;
    struct accounts accounts;
    struct listing listing = {0};
    int status = look_into(name, &journal, &contents);
    if (status != STATUS_DONE) {
        return status;
    }
    find_accounts(&contents, &accounts);
    for (size_t i = 0; i < accounts.count; i++) {
        listing.lines[listing.count++] = line_of(&journal, &contents, &accounts.list[i]);
    }
    let_go(&journal);
    return answer_with(name, arguments->json ? write_objects : write_lines, &listing);
}
