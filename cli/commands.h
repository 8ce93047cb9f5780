/* The commands by name, and the operands that each takes. Where a word is no sound one they say so on standard error. */
#ifndef COMMANDS_H
#define COMMANDS_H

#include <stdbool.h>

#include "options.h"

bool find_command(const char *name, enum command *command);

/* Takes the operands after the command's name, `count` of them, into the request, which has its command already. */
bool read_operands(const char *const *operands, unsigned count, struct request *request);

#endif
