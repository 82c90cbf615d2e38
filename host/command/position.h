/* A position: the balance in value of an account at the end of each day of a span. */
#ifndef COMMAND_POSITION_H
#define COMMAND_POSITION_H

#include <stddef.h>
#include <stdint.h>

#include "cash.h"

struct position {
    uint8_t key[CROWNHAZEL_KEY];
    uint64_t first, last; /* days */
    size_t days;
    int64_t amounts[CROWNHAZEL_MOST_DAYS];
};

#endif
