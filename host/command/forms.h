/* Accounts, days and amounts as they are printed and typed. */
#ifndef COMMAND_FORMS_H
#define COMMAND_FORMS_H

#include <stdbool.h>
#include <stdint.h>
#include <stdio.h>

#include "cash.h"

enum {
    KEY_FORM = CROWNHAZEL_KEY + 4, /* characters of a key with - between its zones */
    ACCOUNT_FORM = 11,             /* characters of the account alone */
    DAY_FORM = 10,                 /* characters of YYYY-MM-DD */
    NUMBER_FORM = 32               /* most characters of a number, its end included */
};

/* BANK-BRANCH-CURRENCY-DECIMALS-ACCOUNT. The zones have letters and digits alone, so it is one word of a shell. */
void spell_key(const uint8_t *key, char text[KEY_FORM + 1]);

/* Takes a key in this form apart. Whether a journal holds it is for the library to say. */
bool read_key(const char *text, uint8_t key[CROWNHAZEL_KEY]);

/* How many decimals the account of a key has. */
unsigned decimals_of(const uint8_t *key);

/* Days are numbers YYYYMMDD, and are printed and typed as YYYY-MM-DD. */
void spell_day(uint64_t day, char text[DAY_FORM + 1]);

/* Takes that form apart. Whether there is such a day is for the library to say. */
bool read_day(const char *text, uint64_t *day);

/* The day that stands in a row, as eight digits. */
uint64_t day_in(const uint8_t *digits);

/* A number with its sign apart, so that the lowest one has a size too. */
struct number {
    bool negative;
    uint64_t size;
    unsigned decimals; /* how many of its digits stand behind the point */
};

struct number number_of(int64_t amount, unsigned decimals);

/* With `gap` between groups of three digits before the point. */
void spell_number(struct number number, const char *gap, char text[NUMBER_FORM]);

/* The zones of a key as members of a JSON object, with a comma after the last. */
void write_key_members(FILE *out, const uint8_t *key);

#endif
