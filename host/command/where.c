/* Compiled twice: with the path in the build tree, and with the installed one. */
#include "where.h"

const char listing_path[] = LISTING_PATH;
