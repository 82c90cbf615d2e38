/* A position as a picture: plain SVG, which takes its width from where it is shown. */
#ifndef COMMAND_PICTURE_H
#define COMMAND_PICTURE_H

#include <stdio.h>

#include "position.h"

/* How each of our pictures begins, and nothing else does. */
extern const char picture_mark[];

/* Draws a position, which is handed over as struct position. */
void draw_position(FILE *out, const void *position);

#endif
