/* Says the balance in value of an account, day by day, and draws it. */
#include "position.h"

#include <stdio.h>
#include <string.h>

#include "commands.h"
#include "contents.h"
#include "forms.h"
#include "picture.h"
#include "save.h"
#include "say.h"
#include "status.h"

/* What is asked for. */
struct question {
    const char *journal;
    const char *account; /* as it was typed */
    bool has_key;        /* whether that is a whole key, and which */
    uint8_t key[CROWNHAZEL_KEY];
    uint64_t first, last;
    bool whole, json;
};

static bool read_span(const struct arguments *arguments, struct question *question) {
    static const char *const names[] = {"FIRST", "LAST"};
    uint64_t *days[] = {&question->first, &question->last};
    for (size_t i = 0; i < 2; i++) {
        if (!read_day(arguments->operands[i + 2], days[i])) {
            complain(arguments->subcommand->name, "%s is a date, YYYY-MM-DD", names[i]);
            return false;
        }
    }
    return true;
}

static bool read_question(const struct arguments *arguments, struct question *question) {
    *question = (struct question){.journal = arguments->operands[0],
                                  .account = arguments->operands[1],
                                  .whole = arguments->whole,
                                  .json = arguments->json};
    question->has_key = read_key(question->account, question->key);
    if (!question->has_key && strlen(question->account) != ACCOUNT_FORM) {
        complain(arguments->subcommand->name,
                 "ACCOUNT is an account's 11 characters, or its whole key as 'crownhazel accounts' prints it");
        return false;
    }
    return read_span(arguments, question);
}

/* The library has refused the span: this says why. */
static int no_span(const struct question *question, uint64_t answer) {
    char first[DAY_FORM + 1], last[DAY_FORM + 1], most[DAY_FORM + 1];
    char name[2 * DAY_FORM + 8], why[80];
    bool begins = crownhazel_day(question->first, 0) != 0;
    bool ends = crownhazel_day(question->last, 0) != 0;
    spell_day(question->first, first);
    spell_day(question->last, last);
    spell_day(crownhazel_day(question->first, CROWNHAZEL_MOST_DAYS - 1), most);
    snprintf(name, sizeof name, "%s to %s", first, last);
    if (!begins || !ends) {
        snprintf(why, sizeof why, "%s is no day from 1980 to 2079", begins ? last : first);
    } else if (question->last < question->first) {
        snprintf(why, sizeof why, "it ends before it begins");
    } else {
        snprintf(why, sizeof why, "the last of %d days from %s on is %s", CROWNHAZEL_MOST_DAYS, first, most);
    }
    return refused_for(name, answer, why);
}

static uint64_t ask_library(const struct question *question, const struct bytes *journal, const uint8_t *key,
                            size_t length, struct position *position) {
    return crownhazel_position(journal->first, journal->length, key, length, question->first, question->last,
                               position->amounts, CROWNHAZEL_MOST_DAYS);
}

static int not_answered(const struct question *question, const struct bytes *journal, uint64_t answer) {
    return crownhazel_refusal(answer) == 27
               ? no_span(question, answer)
               : refused_by(question->account, answer, question->journal, lines_of(journal));
}

/* Asks the library, which says whether there is such an account and such a span. */
static int ask(const struct question *question, const struct bytes *journal, const uint8_t *key, size_t length,
               struct position *position) {
    uint64_t answer = ask_library(question, journal, key, length, position);
    if (crownhazel_is_refused(answer)) {
        return not_answered(question, journal, answer);
    }
    memcpy(position->key, key, sizeof position->key);
    position->first = question->first;
    position->last = question->last;
    position->days = crownhazel_field(answer, 0);
    return STATUS_DONE;
}

/* The keys of a journal that have the 11 characters of an account. */
struct keys {
    const uint8_t *list[CROWNHAZEL_MOST_ENTRIES];
    size_t count;
};

static void find_keys(const struct contents *contents, const char *account, struct keys *keys) {
    struct accounts accounts;
    find_accounts(contents, &accounts);
    keys->count = 0;
    for (size_t i = 0; i < accounts.count; i++) {
        const uint8_t *key = contents->entries[accounts.list[i].first].row;
        if (memcmp(key + ROW_ACCOUNT, account, ACCOUNT_FORM) == 0) {
            keys->list[keys->count++] = key;
        }
    }
}

static void write_keys(FILE *out, const void *what) {
    const struct keys *keys = what;
    char key[KEY_FORM + 1];
    for (size_t i = 0; i < keys->count; i++) {
        spell_key(keys->list[i], key);
        fprintf(out, "%s%s", i == 0 ? "" : ", ", key);
    }
}

/* The span comes first, as it does where there is one account. */
static int several(const struct question *question, const struct bytes *journal, const struct keys *keys) {
    struct position position;
    struct bytes text;
    uint64_t answer = ask_library(question, journal, keys->list[0], CROWNHAZEL_KEY, &position);
    if (crownhazel_is_refused(answer)) {
        return not_answered(question, journal, answer);
    }
    if (!take_text(write_keys, keys, &text)) {
        return failed(question->account, "no memory for the answer");
    }
    complain(question->account, "journal %s has %zu such accounts: take the whole key of one of them, %.*s",
             question->journal, keys->count, (int)text.length, (const char *)text.first);
    let_go(&text);
    return STATUS_USAGE;
}

/* By the account's characters alone. Where no key has them they are asked for as they are: they are no key. */
static int ask_by_account(const struct question *question, const struct bytes *journal, const struct contents *contents,
                          struct position *position) {
    struct keys keys;
    find_keys(contents, question->account, &keys);
    if (keys.count > 1) {
        return several(question, journal, &keys);
    }
    return keys.count == 1 ? ask(question, journal, keys.list[0], CROWNHAZEL_KEY, position)
                           : ask(question, journal, (const uint8_t *)question->account, ACCOUNT_FORM, position);
}

static int find_position(const struct question *question, struct position *position) {
    struct bytes journal;
    struct contents contents;
    int status = look_into(question->journal, &journal, &contents);
    if (status != STATUS_DONE) {
        return status;
    }
    status = question->has_key ? ask(question, &journal, question->key, CROWNHAZEL_KEY, position)
                               : ask_by_account(question, &journal, &contents, position);
    let_go(&journal);
    return status;
}

/* A position, and how it is written. */
struct answer {
    const struct position *position;
    bool whole, json;
};

static void write_day(FILE *out, const struct answer *answer, size_t day) {
    const struct position *position = answer->position;
    char date[DAY_FORM + 1], amount[NUMBER_FORM];
    spell_day(crownhazel_day(position->first, day), date);
    spell_number(number_of(position->amounts[day], answer->whole ? 0 : decimals_of(position->key)), "", amount);
    fprintf(out, answer->json ? "{\"date\": \"%s\", \"amount\": \"%s\"}" : "%s %s", date, amount);
}

static void write_lines(FILE *out, const void *what) {
    const struct answer *answer = what;
    for (size_t i = 0; i < answer->position->days; i++) {
        write_day(out, answer, i);
        fprintf(out, "\n");
    }
}

static void write_object(FILE *out, const void *what) {
    const struct answer *answer = what;
    const struct position *position = answer->position;
    char first[DAY_FORM + 1], last[DAY_FORM + 1];
    spell_day(position->first, first);
    spell_day(position->last, last);
    fprintf(out, "{");
    write_key_members(out, position->key);
    fprintf(out, "\"whole\": %s, \"first\": \"%s\", \"last\": \"%s\", \"days\": [\n", answer->whole ? "true" : "false",
            first, last);
    for (size_t i = 0; i < position->days; i++) {
        write_day(out, answer, i);
        fprintf(out, i + 1 < position->days ? ",\n" : "\n]}\n");
    }
}

static int draw_to(const char *name, const struct position *position) {
    struct bytes picture;
    if (!take_text(draw_position, position, &picture)) {
        return failed(name, "no memory for the picture");
    }
    int status = save_picture(name, &picture);
    let_go(&picture);
    return status;
}

/* The picture comes first: the lines are the answer, which is given when all is done. */
int position_command(const struct arguments *arguments) {
    struct question question;
    struct position position;
    if (!read_question(arguments, &question)) {
        return STATUS_USAGE;
    }
    int status = find_position(&question, &position);
    if (status == STATUS_DONE && arguments->picture != NULL) {
        status = draw_to(arguments->picture, &position);
    }
    if (status != STATUS_DONE) {
        return status;
    }
    struct answer answer = {.position = &position, .whole = question.whole, .json = question.json};
    return answer_with(question.journal, question.json ? write_object : write_lines, &answer);
}
