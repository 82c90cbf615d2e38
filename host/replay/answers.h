/* An answer that is one number, as a case has it: in the paper's numbers. For the programs that replay calls which
 * answer so. */
#ifndef ANSWERS_H
#define ANSWERS_H

#include "cases.h"
#include "crownhazel.h"

/* What a, b and c are depends on the call. */
struct answer {
    uint32_t kind, number, record, a, b, c;
};

static inline struct answer take_answer(struct source *source) {
    struct answer answer;
    answer.kind = (uint32_t)take_number(source, 1);
    answer.number = (uint32_t)take_number(source, 4);
    answer.record = (uint32_t)take_number(source, 4);
    answer.a = (uint32_t)take_number(source, 4);
    answer.b = (uint32_t)take_number(source, 4);
    answer.c = (uint32_t)take_number(source, 4);
    return answer;
}

/* The one number that says this answer. */
static inline uint64_t packed(struct answer answer) {
    uint64_t a = answer.kind == CROWNHAZEL_REFUSED ? answer.record : answer.a;
    uint64_t b = answer.kind == CROWNHAZEL_REFUSED ? answer.number : answer.b;
    return a | b << 20 | (uint64_t)answer.c << 40 | (uint64_t)answer.kind << 60;
}

#endif
