/* Exit statuses, and the lines that go to standard error. */
#ifndef REPORT_H
#define REPORT_H

#include <stdbool.h>
#include <stdint.h>

/* What the command ends with. Scripts rely on these numbers. */
enum status {
    STATUS_ACCEPTED = 0,
    STATUS_REFUSED = 1,
    STATUS_TROUBLE = 2           /* a wrong call, or a file that can't be read or written */
};

/* Starts a line about a file or an argument: `foliobriar: NAME: `. The caller ends it. */
void start_line_about(const char *name);

/* A whole line about `name`; always STATUS_TROUBLE, so that a caller can return it. */
enum status trouble(const char *name, const char *what);

/* The same, with the words for the present errno at its end. */
enum status trouble_with_reason(const char *name, const char *what);

/* A whole line about a wrong call, and one that leads to --help; always false, so that a caller can return it. */
bool misused(const char *name, const char *what);

/* The line of a refusal: number, partition if one is meant, and the rule in plain words. */
enum status report_refusal(const char *name, uint64_t answer);

/* The rest of such a line, from `refused: ` on. */
void end_line_with_refusal(uint64_t answer);

#endif
