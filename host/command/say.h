/* All that the command says: answers on standard output, messages and progress on standard error.
 * A line goes out in one piece, so that the lines of several commands do not mix. Names are spelt (spelling.h). */
#ifndef COMMAND_SAY_H
#define COMMAND_SAY_H

#include <stdbool.h>
#include <stddef.h>
#include <stdint.h>

#include "bytes.h"

/* 'crownhazel: NAME: ..' on standard error. */
__attribute__((format(printf, 2, 3))) void complain(const char *name, const char *format, ...);

/* 'crownhazel: NAME: WHAT: ' and the words of errno. Answers STATUS_SYSTEM. */
int failed(const char *name, const char *what);

/* A refusal: number, record and the words of the list. Answers its status. */
int refused(const char *name, uint32_t number, uint32_t record);

/* The same, and what is to be said of it beside. */
int refused_for(const char *name, uint64_t answer, const char *why);

/* The same for a refusal that a journal of so many body lines has a part in, and what to do about it. */
int refused_by(const char *name, uint64_t answer, const char *journal, size_t lines);

/* 'NAME: ..' on standard output. Answers STATUS_DONE, or STATUS_SYSTEM with a message where it cannot be written. */
__attribute__((format(printf, 2, 3))) int answer(const char *name, const char *format, ...);

/* Text as it is on standard output. Answers as above. */
int answer_text(const void *text, size_t length);

/* A text that is written for it, on standard output in one piece. Answers as above; the name is for a message. */
int answer_with(const char *name, text_writer *writer, const void *what);

/* Between these two what is said on standard error is kept and not written: whoever holds a lock waits for no reader.
 */
void hold_back(void);
void say_held_back(void);

/* Shows a passing line, on a terminal only. The next line that is said wipes it away. */
__attribute__((format(printf, 1, 2))) void show_passing(const char *format, ...);
void wipe_passing(void);

#endif
