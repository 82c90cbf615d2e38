/* The subcommands. Each answers the exit status. */
#ifndef COMMAND_COMMANDS_H
#define COMMAND_COMMANDS_H

#include "arguments.h"

int open_command(const struct arguments *arguments);
int check_command(const struct arguments *arguments);
int deliver_command(const struct arguments *arguments);
int intake_command(const struct arguments *arguments);
int entries_command(const struct arguments *arguments);
int accounts_command(const struct arguments *arguments);
int status_command(const struct arguments *arguments);
int position_command(const struct arguments *arguments);
int show_command(const struct arguments *arguments);
int grow_command(const struct arguments *arguments);
int backup_command(const struct arguments *arguments);
int restore_command(const struct arguments *arguments);

#endif
