/* One account among its neighbours. A case has several runs, each from a freshly opened journal, with the same
 * deliveries of hers and others between them. What the exported functions answer to hers, and what the journal holds of
 * her in the end, is kept of each run and compared with the first run of the case. */
#ifndef NEIGHBOURS_H
#define NEIGHBOURS_H

#include "cases.h"

/* What was expected of a file. */
struct expectation {
    uint64_t date;
    int64_t balance;
};

/* All that is answered to a delivery. */
struct delivered {
    uint64_t number;
    struct expectation expected;
};

/* Forgets the runs of the case before. */
void begin_runs(void);

/* Keeps an answer to a delivery of hers in the run that goes on. */
void keep_answer(struct source *source, struct delivered answer);

/* Ends a run: takes her key and what is expected to be held of her, and compares. */
bool end_run(struct source *source, const struct place *place, struct slice journal);

/* Ends a case whose runs are to be compared. One that has compared nothing is a fault of the file. */
void end_runs(struct source *source);

/* Prints how much was compared with a first run. */
void print_compared(void);

#endif
