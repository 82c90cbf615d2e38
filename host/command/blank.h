/* A blank journal in memory, for a new journal and for a longer one. */
#ifndef COMMAND_BLANK_H
#define COMMAND_BLANK_H

#include "bytes.h"

/* Makes it with so many lines. Which numbers of lines a journal can have is for the library to say. Answers a status,
 * with a message under this name where it is not STATUS_DONE. */
int make_blank(const char *name, const char *lines, struct bytes *journal);

#endif
