/* The commands and their operands. */
#include "commands.h"

#include <stdio.h>
#include <string.h>

#include "number.h"
#include "pdi.h"
#include "report.h"

/* How many operands follow the name of each command. */
static const struct {
    const char *name;
    unsigned least;
    unsigned most;
    const char *operands;
} commands[] = {
    [COMMAND_NONE] = {NULL, 0, 0, NULL},
    [COMMAND_LIST] = {"list", 1, 1, "takes one operand: FILE"},
    [COMMAND_BILL] = {"bill", 1, 1, "takes one operand: FILE"},
    [COMMAND_BODY] = {"body", 2, 2, "takes two operands: FILE and P"},
    [COMMAND_EXPLAIN] = {"explain", 0, 1, "takes at most one operand: NUMBER"},
};

bool find_command(const char *name, enum command *command)
{
    for (unsigned i = COMMAND_LIST; i <= COMMAND_EXPLAIN; i++) {
        if (strcmp(name, commands[i].name) == 0) {
            *command = (enum command)i;
            return true;
        }
    }
    return misused(name, "there is no such command");
}

bool read_operands(const char *const *operands, unsigned count, struct request *request)
{
    enum command command = request->command;
    if (count < commands[command].least || count > commands[command].most)
        return misused(commands[command].name, commands[command].operands);
    const char *first = operands[0];
    if (command == COMMAND_EXPLAIN) {
        uint64_t number = 0;
        request->numbered = count == 1;
        if (request->numbered && (!parse_number(first, &number) || number > PDI_LAST_RULE)) {
            char what[48];
            snprintf(what, sizeof what, "is no number from 0 to %d", (int)PDI_LAST_RULE);
            return misused(first, what);
        }
        request->number = (unsigned)number;
        return true;
    }
    request->file = first;
    if (command == COMMAND_BODY && !parse_number(operands[1], &request->partition))
        return misused(operands[1], "is no number of a partition");
    return true;
}
