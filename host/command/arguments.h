/* The command line: what each subcommand takes, in one table that also makes the help, and how it is taken apart. */
#ifndef COMMAND_ARGUMENTS_H
#define COMMAND_ARGUMENTS_H

#include <stdbool.h>
#include <stddef.h>
#include <stdint.h>
#include <sys/types.h>

#include "input.h"

/* The options, as bits of what a subcommand takes. Every subcommand takes --help. */
enum {
    OPTION_LINE_END = 1 << 0,
    OPTION_BLANK_EXISTING = 1 << 1,
    OPTION_MODE = 1 << 2,
    OPTION_WAIT = 1 << 3,
    OPTION_WHOLE = 1 << 4,
    OPTION_SVG = 1 << 5,
    OPTION_JSON = 1 << 6,
    OPTION_GO_ON = 1 << 7,
    OPTION_HELP = 1 << 8
};

struct arguments;

/* What a subcommand is called, says of itself and takes. */
struct subcommand {
    const char *name;
    const char *operands; /* as the help shows them */
    const char *summary;  /* its line in the help of the command */
    const char *text;     /* its own help */
    unsigned options;     /* a bit for each */
    size_t least, most;   /* operands */
    size_t journals;      /* how many operands, from the first on, are journals or copies */
    size_t first_file;    /* which operands, from this one on, are files that can be standard input */
    int (*run)(const struct arguments *arguments);
};

/* The command line, taken apart. */
struct arguments {
    const struct subcommand *subcommand;
    char **operands;
    size_t count;
    enum line_end line_end;
    bool blank_existing;
    bool has_mode;
    mode_t mode;
    bool has_wait;
    unsigned wait; /* seconds */
    bool whole;
    const char *picture; /* where to draw; NULL for nowhere */
    bool json;
    bool go_on;
    bool help;
};

/* The subcommand of that name; NULL where there is none. */
const struct subcommand *subcommand_named(const char *name);

/* Takes apart what the command was called with, the subcommand's name first. False with a message for a mistake. */
bool take_apart(const struct subcommand *subcommand, int count, char **words, struct arguments *arguments);

/* Prints the help of a subcommand, or of the command where it is NULL. Answers a status. */
int print_help(const struct subcommand *subcommand);

/* A whole number in digits, at most so large. */
bool read_number(const char *text, size_t most, size_t *number);

#endif
