/* Where the listing program stands. */
#ifndef COMMAND_WHERE_H
#define COMMAND_WHERE_H

extern const char listing_path[];

#endif
