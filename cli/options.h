/* What the command line asks for. */
#ifndef OPTIONS_H
#define OPTIONS_H

#include <stdbool.h>
#include <stdint.h>

enum command {
    COMMAND_NONE,
    COMMAND_LIST,
    COMMAND_BILL,
    COMMAND_BODY,
    COMMAND_EXPLAIN
};

/* How an answer is shown. */
enum form {
    FORM_PEOPLE,
    FORM_TSV,
    FORM_JSON
};

struct request {
    enum command command;        /* COMMAND_NONE only with help or version */
    bool help;
    bool version;
    enum form form;
    bool search;                 /* --place auto; `place` is then to be found */
    uint64_t place;
    bool assumed;                /* no --place was given, and `place` is 0 */
    const char *file;
    uint64_t partition;          /* P of body */
    const char *out;             /* OUT of body */
    bool numbered;               /* whether explain has a number, which is then `number` */
    unsigned number;
};

/* Takes the words of the command line apart. Where they ask for nothing sound it says so on standard error. */
bool parse_request(int count, char **words, struct request *request);

#endif
