/* What the programs that replay cases share: files of cases, lent slices with a guard behind them, the counts.
 *
 * The formats are in host/oracle/README.md. Files are read case by case. The first differences are printed in full;
 * 'N passed, M failed' counts cases, and a file that cannot be read to its end is one failure more. */
#ifndef CASES_H
#define CASES_H

#include <stdbool.h>
#include <stddef.h>
#include <stdint.h>
#include <stdio.h>

enum {
    MOST_NAME = 255
};

/* A place from which slices of any length up to its room are lent. They end where the guard begins, so that a byte
 * read behind a slice ends the program. */
struct shelf {
    uint8_t *end;
};

/* A slice on a shelf. */
struct slice {
    uint8_t *first;
    size_t length;
};

struct shelf new_shelf(size_t room);
struct slice lend(struct shelf shelf, size_t length);

/* FNV-1a of 64 bits. */
uint64_t hash(struct slice slice);

/* Memory that nobody lends. */
uint8_t *new_memory(size_t room);

/* A slice of no bytes is lent in two ways: as a place that must not be read, and as NULL. */
unsigned ways(struct slice slice);
uint8_t *lent(struct slice slice, unsigned way);

/* A file of cases. After the first fault it gives zeros. */
struct source {
    FILE *stream;
    const char *name;
    bool broken;
};

void fault(struct source *source, const char *what);
void take(struct source *source, uint8_t *into, size_t length);

/* A number of so many bytes, low byte first. */
uint64_t take_number(struct source *source, unsigned width);

/* The length of what follows. */
size_t take_length(struct source *source, unsigned width, size_t most);

/* Bytes with their length before them, put on a shelf with that much room. */
struct slice take_bytes(struct source *source, struct shelf shelf, size_t room);

/* Where a case is, for the difference that it may show. */
struct place {
    const char *kind;
    uint64_t number;
    char name[MOST_NAME + 1];
    uint32_t operation; /* 0 where a case is one call */
    char call;
};

/* True as long as differences are to be printed; then it has printed where this one is. */
bool begin_difference(const struct place *place);

/* Something to lend, and its bytes as they were before a call: first those of a margin before the slice. */
struct loan {
    const char *name;
    struct shelf shelf;
    struct slice slice;
    uint8_t *copy;
};

struct loan new_loan(const char *name, size_t room);

/* Bytes that differ from place to place, so that nothing moves unseen. */
void fill(uint8_t *first, size_t length);
void lend_filled(struct loan *loan, size_t length);

/* Remembers what a call may not touch. */
void keep(struct loan *loan);

/* Whether all is as it was but so many bytes at the start. */
bool is_untouched(const struct place *place, const struct loan *loan, size_t written);

/* Runs one case; true where nothing differs. */
typedef bool run_case(struct source *source, struct place *place);

/* Makes signals count as a failure of the case that runs. */
void catch_signals(void);

/* Runs all cases of a file. */
void replay_file(const char *name, const char *kind, const char mark[8], run_case *run);

/* Prints the last line. Gives the status. */
int finish(void);

#endif
