#include "expected.h"

#include "crownhazel.h"
#include "forms.h"
#include "periods.h"
#include "say.h"

/* What the journal would hold with what stands before a record of the file, which is accepted. */
static bool list_before(const struct bytes *journal, const struct input *input, uint32_t record,
                        struct contents *before) {
    struct bytes copy = {0};
    bool good = append(&copy, journal->first, journal->length);
    if (good) {
        size_t length = (record - 1) * width_of(input);
        crownhazel_deliver(copy.first, copy.length, input->line_end, input->kept.first, length);
        before->count = list_entries(&copy, before->entries);
    }
    let_go(&copy);
    return good;
}

static enum unfollowed why_not(const struct entry *last, const struct expected *expected) {
    uint64_t begins = day_in(expected->statement.row + ROW_OLD_DATE);
    if (begins >= expected->date) {
        return begins > expected->date ? ONE_IS_MISSING : OTHER_BALANCE;
    }
    return last != NULL && gap_between(last, &expected->statement) < 0 ? CAN_NEVER_FOLLOW : OUT_OF_ORDER;
}

bool find_expected(const struct bytes *journal, const struct entry *entries, size_t count, const struct input *input,
                   uint64_t refusal, struct expected *expected) {
    const struct bytes *file = &input->kept;
    struct contents before;
    *expected = (struct expected){0};
    if (!find_statement(input, crownhazel_record(refusal), &expected->statement) ||
        !list_before(journal, input, crownhazel_record(refusal), &before)) {
        return false;
    }
    expected->date = crownhazel_expected_date(journal->first, journal->length, input->line_end, file->first,
                                              file->length);
    expected->balance = crownhazel_expected_balance(journal->first, journal->length, input->line_end, file->first,
                                                    file->length);
    const struct entry *last = last_of_account(entries, count, &expected->statement);
    const struct entry *seen = last_of_account(before.entries, before.count, &expected->statement);
    expected->by_file = seen != NULL && (size_t)(seen - before.entries) >= count;
    expected->held_until = last == NULL ? 0 : day_in(last->row + ROW_NEW_DATE);
    expected->why = why_not(last, expected);
    return true;
}

/* What it means, and what to do about it. */
static const char *meaning(enum unfollowed why) {
    switch (why) {
    case ONE_IS_MISSING: return "a statement is missing";
    case OTHER_BALANCE: return "its balance is another; a statement of that day is missing, or one was corrected";
    case CAN_NEVER_FOLLOW:
        return "an older statement or a corrected one, which can never follow; a person has to decide";
    case OUT_OF_ORDER:
        return "the file has one before it that ends later: they are out of order, or one corrects the other; ask the "
               "bank which";
    }
    return "";
}

/* What to ask the bank for. Where the file itself has what comes before, that is not held: what lies between, delivered
 * alone, would not follow, or would shut it out. So all of them have to come in one file. */
static void write_request(FILE *out, const struct expected *expected) {
    char day[DAY_FORM + 1];
    if (expected->why != ONE_IS_MISSING && expected->why != OTHER_BALANCE) {
        return;
    }
    if (!expected->by_file) {
        fprintf(out, "; ask the bank %s", expected->why == ONE_IS_MISSING ? "for what lies between" : "which");
    } else if (expected->held_until == 0) {
        fprintf(out, "; ask the bank for one right file with all of the account");
    } else {
        spell_day(expected->held_until, day);
        fprintf(out, "; ask the bank for one right file with all of the account from %s on", day);
    }
}

/* How the day on which it begins stands to the one expected. */
static const char *beside_that(enum unfollowed why) {
    switch (why) {
    case ONE_IS_MISSING: return ", after that";
    case OTHER_BALANCE: return ", that very day";
    default: return ", before that";
    }
}

void write_expected(FILE *out, const struct expected *expected) {
    char key[KEY_FORM + 1], date[DAY_FORM + 1], begins[DAY_FORM + 1], balance[NUMBER_FORM];
    const uint8_t *row = expected->statement.row;
    spell_key(row, key);
    spell_day(expected->date, date);
    spell_day(day_in(row + ROW_OLD_DATE), begins);
    spell_number(number_of(expected->balance, decimals_of(row)), "", balance);
    fprintf(out, "account %s: expected %s with %s%s, it begins on %s%s: %s", key, date, balance,
            expected->by_file ? " by what stands before it in the file" : "", begins, beside_that(expected->why),
            meaning(expected->why));
    write_request(out, expected);
}

/* What was expected, and by which journal. */
struct refusing {
    const char *journal;
    const struct expected *expected;
};

static void write_refusing(FILE *out, const void *what) {
    const struct refusing *refusing = what;
    fprintf(out, "journal %s: ", refusing->journal);
    write_expected(out, refusing->expected);
}

int refused_delivery(const char *name, uint64_t refusal, const char *journal, size_t lines,
                     const struct expected *expected) {
    struct bytes words;
    struct refusing refusing = {journal, expected};
    if (crownhazel_refusal(refusal) != 22 || !take_text(write_refusing, &refusing, &words)) {
        return refused_by(name, refusal, journal, lines);
    }
    int status = refused_for(name, refusal, (const char *)words.first);
    let_go(&words);
    return status;
}
