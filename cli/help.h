/* What --help prints. */
#ifndef HELP_H
#define HELP_H

#include "options.h"

/* Help on one command, or on all for COMMAND_NONE. */
void print_help(enum command command);

#endif
