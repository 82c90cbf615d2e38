/* A picture's file. */
#ifndef COMMAND_SAVE_H
#define COMMAND_SAVE_H

#include "bytes.h"

/* Brings a picture to the disk under this name. Where a file has it already, that is replaced only if it is a picture
 * of this command's; anything else stays. Answers a status, with a message where it is not STATUS_DONE. */
int save_picture(const char *name, const struct bytes *picture);

#endif
