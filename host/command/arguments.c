#define _GNU_SOURCE
#include "arguments.h"

#include <getopt.h>
#include <stdio.h>
#include <stdlib.h>
#include <string.h>

#include "commands.h"
#include "crownhazel.h"
#include "say.h"
#include "status.h"

enum { MOST_WAIT = 999999, NO_FILES = 99 };

struct option_form {
    unsigned option;
    const char *name;
    const char *value; /* what its value is called; NULL where it has none */
    const char *help;
};

static const struct option_form options[] = {
    {OPTION_LINE_END, "line-end", "WHICH",
     "what stands after each record: none, lf, crlf or auto;\n"
     "auto, the default, looks at the file"},
    {OPTION_BLANK_EXISTING, "blank-existing", NULL,
     "blanks a sound journal that exists: what it holds is gone.\n"
     "Without it, and for every other file, a name that is taken\nis refused"},
    {OPTION_MODE, "mode", "OCTAL", "the new journal's rights, as 640; without it they are 600"},
    {OPTION_WAIT, "wait", "SECONDS",
     "gives up after so many seconds where another command\n"
     "holds the journal or the folder, for each file; without\nit, waits as long as it takes"},
    {OPTION_GO_ON, "go-on", NULL,
     "delivers the others where a file cannot be read; what is\n"
     "in it may then never be stored"},
    {OPTION_WHOLE, "whole", NULL, "amounts as whole numbers of the last decimal place"},
    {OPTION_SVG, "svg", "FILE",
     "draws it too, to this file. It may be an older picture of\n"
     "the command's; any other file that exists stays"},
    {OPTION_JSON, "json", NULL, "prints JSON in the place of the lines"},
    {OPTION_HELP, "help", NULL, "prints this and does nothing else; -h is the same"},
};

enum { OPTIONS = sizeof options / sizeof options[0] };

static const struct subcommand subcommands[] = {
    {.name = "open",
     .operands = "JOURNAL LINES",
     .summary = "makes a journal with room for so many records",
     .text = "Makes a journal with LINES body lines, 0 to 100000; each record of a statement takes one.\n"
             "\n"
             "Prints 'JOURNAL: opened, lines LINES'.\n",
     .options = OPTION_BLANK_EXISTING | OPTION_MODE | OPTION_WAIT,
     .least = 2,
     .most = 2,
     .journals = 1,
     .first_file = NO_FILES,
     .run = open_command},
    {.name = "check",
     .operands = "FILE..",
     .summary = "judges files",
     .text = "Judges each file by all rules. - is standard input.\n"
             "\n"
             "Prints 'FILE: statements S, movements M, complements C' for each file that is accepted.\n",
     .options = OPTION_LINE_END,
     .least = 1,
     .most = SIZE_MAX,
     .first_file = 0,
     .run = check_command},
    {.name = "deliver",
     .operands = "JOURNAL FILE..",
     .summary = "stores the statements that the journal does not hold yet",
     .text = "Stores of each file the statements that the journal does not hold yet: all of them or, where it\n"
             "is refused, none. - is standard input. A file can be delivered again at any time. Name the oldest\n"
             "first: what lies before a stored statement of the same account can never be stored after it.\n"
             "\n"
             "Prints 'FILE: stored S, held H' for each file, when its statements are safe on the disk. Of one\n"
             "that does not follow (22) it says what was expected: the date and the balance that its account\n"
             "ends with, and whether a statement is missing, one was corrected, or it can never follow.\n",
     .options = OPTION_LINE_END | OPTION_WAIT,
     .least = 2,
     .most = SIZE_MAX,
     .journals = 1,
     .first_file = 1,
     .run = deliver_command},
    {.name = "intake",
     .operands = "JOURNAL INCOMING DONE REFUSED",
     .summary = "delivers the files of a folder and puts them away",
     .text = "Delivers the files that wait in the folder INCOMING, those with the earliest old balance date first,\n"
             "in rounds as long as files are put away. Moves what is stored or held to DONE, and what is refused\n"
             "by its own fault (1 to 15) or can never follow (22) to REFUSED, with its answer in NAME.answer\n"
             "beside it. What the journal cannot take now (22 to 24) is left, and so is a file that waits for\n"
             "another with an earlier statement of an account. No file is overwritten: a number is put behind its\n"
             "name.\n"
             "Names that begin with . or end in .part, .tmp, .filepart or ~ are files under way, and are left.\n"
             "\n"
             "Prints 'FILE: stored S, held H, moved to PATH' for each file, last 'JOURNAL: done D, refused R,\n"
             "left L, stored S, held H', 'JOURNAL: begins ACCOUNT DATE' for each account that is new, and\n"
             "'JOURNAL: skips ACCOUNT DATE DATE' for each that goes on with a later day than it ended on.\n",
     .options = OPTION_GO_ON | OPTION_WAIT,
     .least = 4,
     .most = 4,
     .journals = 1,
     .first_file = NO_FILES,
     .run = intake_command},
    {.name = "entries",
     .operands = "JOURNAL",
     .summary = "lists the statements that the journal holds",
     .text = "Prints a line for each statement that the journal holds, in order of first arrival:\n"
             "number, bank, branch, currency, decimals, account, old date, new date, first line, records.\n",
     .least = 1,
     .most = 1,
     .journals = 1,
     .first_file = NO_FILES,
     .run = entries_command},
    {.name = "accounts",
     .operands = "JOURNAL",
     .summary = "lists the accounts that the journal holds",
     .text = "Prints a line for each account that the journal holds, in order of first arrival: key, first old\n"
             "date, last new date, last new balance, number of statements. The key is bank, branch, currency,\n"
             "decimals and account with - between them, and can be typed as ACCOUNT for 'crownhazel position'.\n",
     .options = OPTION_JSON,
     .least = 1,
     .most = 1,
     .journals = 1,
     .first_file = NO_FILES,
     .run = accounts_command},
    {.name = "status",
     .operands = "JOURNAL",
     .summary = "says how full the journal is",
     .text = "Tests whether the journal is sound, and says how much of it is used and free.\n"
             "\n"
             "Prints 'JOURNAL: sound, accounts A, entries used E, free F, lines used L, free M'.\n",
     .least = 1,
     .most = 1,
     .journals = 1,
     .first_file = NO_FILES,
     .run = status_command},
    {.name = "position",
     .operands = "JOURNAL ACCOUNT FIRST LAST",
     .summary = "says an account's balance in value, day by day",
     .text = "Prints a line for each day from FIRST to LAST, at most 400: the date, and the balance in value at\n"
             "its end. That is the first old balance that the journal holds of the account, and all movements\n"
             "whose value date is that day or earlier.\n"
             "\n"
             "ACCOUNT is the account's 11 characters or, where several accounts have them, the whole key as\n"
             "'crownhazel accounts' prints it. Dates are YYYY-MM-DD.\n",
     .options = OPTION_WHOLE | OPTION_SVG | OPTION_JSON,
     .least = 4,
     .most = 4,
     .journals = 1,
     .first_file = NO_FILES,
     .run = position_command},
    {.name = "show",
     .operands = "FILE",
     .summary = "lists the statements and movements of a file",
     .text = "Lists the statements (S) and movements (M) of a file, by the proved listing program. - is standard\n"
             "input. At most 65,340 bytes with LF line ends, which is 540 records.\n"
             "\n"
             "CROWNHAZEL_LISTING in the environment names another listing program.\n",
     .options = OPTION_LINE_END,
     .least = 1,
     .most = 1,
     .first_file = 0,
     .run = show_command},
    {.name = "grow",
     .operands = "JOURNAL LINES",
     .summary = "gives the journal more lines",
     .text = "Gives a journal LINES body lines in all, up to 100000. It holds the same statements.\n"
             "\n"
             "Prints 'JOURNAL: grown, lines LINES', when the journal is safe on the disk.\n",
     .options = OPTION_WAIT,
     .least = 2,
     .most = 2,
     .journals = 1,
     .first_file = NO_FILES,
     .run = grow_command},
    {.name = "backup",
     .operands = "JOURNAL COPY",
     .summary = "copies a sound journal, with a checksum",
     .text = "Copies a sound journal to a new file, and writes its checksum to COPY.sha256, which\n"
             "'sha256sum -c' reads in the folder of the copy. A file that exists is refused.\n"
             "\n"
             "Prints 'COPY: entries E, checksum COPY.sha256', when both are safe on the disk.\n",
     .least = 2,
     .most = 2,
     .journals = 2,
     .first_file = NO_FILES,
     .run = backup_command},
    {.name = "restore",
     .operands = "JOURNAL COPY",
     .summary = "puts a copy in the place of the journal",
     .text = "Puts a copy that is sound and matches its checksum, COPY.sha256, in the place of the journal. What\n"
             "stood there is kept beside it as JOURNAL.replaced-N. Deliver again what came since the copy, before\n"
             "anything else.\n"
             "\n"
             "Prints 'JOURNAL: restored, entries E, lacking L, kept PATH', when it is safe on the disk. The copy\n"
             "lacks L statements of what was replaced, 'unknown' where that was not sound; where there was no\n"
             "journal, the line ends after E.\n",
     .options = OPTION_WAIT,
     .least = 2,
     .most = 2,
     .journals = 2,
     .first_file = NO_FILES,
     .run = restore_command},
};

static const char command_text[] =
    "Checks bank statements in files of 120-character CFONB records and keeps them in a journal:\n"
    "send it twice, store it once.\n";

static const char status_text[] =
    "Exit status: 0 done, 1 the file is refused, 2 usage, 3 system, 4 the journal cannot take it now,\n"
    "5 the journal is not sound; of several the worst, in the order 5, 3, 2, 4, 1.\n";

const struct subcommand *subcommand_named(const char *name) {
    for (size_t i = 0; i < sizeof subcommands / sizeof subcommands[0]; i++) {
        if (strcmp(name, subcommands[i].name) == 0) {
            return &subcommands[i];
        }
    }
    return NULL;
}

bool read_number(const char *text, size_t most, size_t *number) {
    enum { MOST_DIGITS = 9 };
    size_t digits = strspn(text, "0123456789");
    *number = (size_t)strtoul(text, NULL, 10);
    return digits > 0 && digits <= MOST_DIGITS && text[digits] == '\0' && *number <= most;
}

/* Rights in octal digits: read and write alone, and both for the owner, who has to be able to deliver. */
static bool read_mode(const char *text, mode_t *mode) {
    size_t digits = strspn(text, "01234567");
    *mode = (mode_t)strtoul(text, NULL, 8);
    return digits >= 3 && digits <= 4 && text[digits] == '\0' && (*mode & ~(mode_t)0666) == 0 && (*mode & 0600) == 0600;
}

static bool takes(const struct subcommand *subcommand, const struct option_form *form) {
    return ((subcommand->options | OPTION_HELP) & form->option) != 0;
}

/* Takes one option with its value. */
static bool take_option(const struct option_form *form, const char *value, struct arguments *arguments) {
    const char *wanted = NULL;
    size_t number = 0;
    switch (form->option) {
    case OPTION_HELP: arguments->help = true; break;
    case OPTION_BLANK_EXISTING: arguments->blank_existing = true; break;
    case OPTION_GO_ON: arguments->go_on = true; break;
    case OPTION_WHOLE: arguments->whole = true; break;
    case OPTION_JSON: arguments->json = true; break;
    case OPTION_SVG:
        arguments->picture = value;
        wanted = is_standard_input(value) ? "a file; standard output is for the lines" : NULL;
        break;
    case OPTION_LINE_END: wanted = line_end_named(value, &arguments->line_end) ? NULL : "none, lf, crlf or auto"; break;
    case OPTION_MODE:
        arguments->has_mode = true;
        wanted = read_mode(value, &arguments->mode) ? NULL : "octal, reading and writing alone, as 600, 640 or 660";
        break;
    case OPTION_WAIT:
        arguments->has_wait = true;
        wanted = read_number(value, MOST_WAIT, &number) ? NULL : "a whole number of seconds from 0 to 999999";
        arguments->wait = (unsigned)number;
        break;
    }
    if (wanted != NULL) {
        complain(arguments->subcommand->name, "--%s is %s", form->name, wanted);
    }
    return wanted == NULL;
}

/* The subcommand's options for getopt_long: each answers its place in the table. */
static void list_options(const struct subcommand *subcommand, struct option listed[OPTIONS + 1]) {
    size_t count = 0;
    for (int i = 0; i < OPTIONS; i++) {
        if (takes(subcommand, &options[i])) {
            int value = options[i].value != NULL ? required_argument : no_argument;
            listed[count++] = (struct option){options[i].name, value, NULL, i};
        }
    }
    listed[count] = (struct option){0};
}

/* The word that getopt_long has stopped at: just behind one with a single letter or a long one, else in the middle of
 * one with several letters. */
static const char *word_at_fault(int count, char **words) {
    const char *passed = words[optind - 1];
    bool single = passed[0] == '-' && passed[1] == (char)optopt && passed[2] == '\0';
    bool inside = optind < count && words[optind][0] == '-' && optopt != 0 && strchr(words[optind], optopt) != NULL;
    return inside && !single ? words[optind] : passed;
}

static bool take_options(int count, char **words, struct arguments *arguments) {
    const struct subcommand *subcommand = arguments->subcommand;
    struct option listed[OPTIONS + 1];
    int found;
    list_options(subcommand, listed);
    unsetenv("POSIXLY_CORRECT"); /* options stand behind operands too */
    opterr = 0;
    while ((found = getopt_long(count, words, ":h", listed, NULL)) != -1) {
        if (found == '?') {
            complain(subcommand->name, "it has no option %s", word_at_fault(count, words));
            return false;
        }
        if (found == ':') {
            complain(subcommand->name, "%s wants a value", words[optind - 1]);
            return false;
        }
        if (found == 'h') {
            arguments->help = true;
        } else if (!take_option(&options[found], optarg, arguments)) {
            return false;
        }
    }
    return true;
}

/* Standard input can be read once, and is no journal and no copy. */
static bool standard_input_fits(const struct arguments *arguments) {
    size_t times = 0;
    for (size_t i = 0; i < arguments->count; i++) {
        bool named = is_standard_input(arguments->operands[i]);
        if (named && i < arguments->subcommand->journals) {
            complain(arguments->subcommand->name, "standard input is no journal; a file of that name is ./-");
            return false;
        }
        times += named && i >= arguments->subcommand->first_file;
    }
    if (times > 1) {
        complain(arguments->subcommand->name, "standard input is named more than once");
    }
    return times <= 1;
}

static bool operands_fit(const struct arguments *arguments) {
    if (arguments->count < arguments->subcommand->least) {
        complain(arguments->subcommand->name, "too few arguments");
        return false;
    }
    if (arguments->count > arguments->subcommand->most) {
        complain(arguments->subcommand->name, "too many arguments");
        return false;
    }
    return standard_input_fits(arguments);
}

bool take_apart(const struct subcommand *subcommand, int count, char **words, struct arguments *arguments) {
    *arguments = (struct arguments){.subcommand = subcommand, .line_end = LINE_END_AUTO};
    if (!take_options(count, words, arguments)) {
        return false;
    }
    arguments->operands = words + optind;
    arguments->count = (size_t)(count - optind);
    return arguments->help || operands_fit(arguments);
}

/* The option as the help shows it, in its usage or before its own words. */
static void spell_option(const struct option_form *form, char shown[32]) {
    snprintf(shown, 32, "--%s%s%s", form->name, form->value == NULL ? "" : " ", form->value == NULL ? "" : form->value);
}

/* An option and its words, which can have several lines. */
static void describe_option(FILE *out, const struct option_form *form) {
    char shown[32];
    spell_option(form, shown);
    for (const char *line = form->help; line != NULL;) {
        const char *end = strchrnul(line, '\n');
        fprintf(out, "  %-18s %.*s\n", line == form->help ? shown : "", (int)(end - line), line);
        line = *end == '\0' ? NULL : end + 1;
    }
}

static void write_subcommand_help(FILE *out, const void *what) {
    const struct subcommand *subcommand = what;
    char shown[32];
    fprintf(out, "usage: crownhazel %s", subcommand->name);
    for (int i = 0; i < OPTIONS; i++) {
        if ((subcommand->options & options[i].option) != 0) {
            spell_option(&options[i], shown);
            fprintf(out, " [%s]", shown);
        }
    }
    fprintf(out, " %s\n%s\n", subcommand->operands, subcommand->text);
    for (int i = 0; i < OPTIONS; i++) {
        if (takes(subcommand, &options[i])) {
            describe_option(out, &options[i]);
        }
    }
    fprintf(out, "\n%s", status_text);
}

static void write_command_help(FILE *out, const void *what) {
    char form[48];
    (void)what;
    fprintf(out, "usage: crownhazel SUBCOMMAND ..\n%s\n", command_text);
    for (size_t i = 0; i < sizeof subcommands / sizeof subcommands[0]; i++) {
        snprintf(form, sizeof form, "%s %s", subcommands[i].name, subcommands[i].operands);
        fprintf(out, "  %-36s %s\n", form, subcommands[i].summary);
    }
    fprintf(out, "  %-36s %s\n  %-36s %s\n\n", "help [SUBCOMMAND]", "prints this, or says more; -h and --help do too",
            "-V, --version", "prints the version");
    fprintf(out, "FILE can be -, standard input.\n%s", status_text);
}

int print_help(const struct subcommand *subcommand) {
    return answer_with("help", subcommand == NULL ? write_command_help : write_subcommand_help, subcommand);
}
