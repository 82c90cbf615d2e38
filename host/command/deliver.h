/* One delivery: a file that was read, to a journal on the disk. */
#ifndef COMMAND_DELIVER_H
#define COMMAND_DELIVER_H

#include "arguments.h"
#include "contents.h"
#include "expected.h"
#include "input.h"

/* What a delivery has said and done. */
struct delivered {
    uint64_t answer;                               /* the library's, a refusal too */
    size_t lines;                                  /* of the journal */
    struct entry entries[CROWNHAZEL_MOST_ENTRIES]; /* the journal's, what was stored last; none on a refusal but 22 */
    size_t count;
    struct expected expected; /* with 22 */
};

/* Delivers a file to the journal that the first operand names. Answers STATUS_DONE, where all that was stored or held
 * is on the disk, or the library has refused the file, of which nothing is said yet; else a status, with a message. */
int deliver_input(const struct arguments *arguments, const struct input *input, struct delivered *delivered);

#endif
