/* The lines on standard error. Assumes that standard error is line buffered (main sees to it), so that a line comes out in one piece. */
#include "report.h"

#include <errno.h>
#include <stdio.h>
#include <string.h>

#include "names.h"
#include "pdi.h"
#include "rules.h"

void start_line_about(const char *name)
{
    fputs("foliobriar: ", stderr);
    put_name(name);
    fputs(": ", stderr);
}

enum status trouble(const char *name, const char *what)
{
    start_line_about(name);
    fprintf(stderr, "%s\n", what);
    return STATUS_TROUBLE;
}

enum status trouble_with_reason(const char *name, const char *what)
{
    int reason = errno;
    start_line_about(name);
    fprintf(stderr, "%s: %s\n", what, strerror(reason));
    return STATUS_TROUBLE;
}

bool misused(const char *name, const char *what)
{
    trouble(name, what);
    fputs("Try `foliobriar --help`.\n", stderr);
    return false;
}

void end_line_with_refusal(uint64_t answer)
{
    fprintf(stderr, "refused: number %u", pdi_number(answer));
    if (pdi_partition(answer) != 0)
        fprintf(stderr, ", partition %u", pdi_partition(answer));
    fprintf(stderr, ": %s\n", rule_of(pdi_number(answer))->found);
}

enum status report_refusal(const char *name, uint64_t answer)
{
    start_line_about(name);
    end_line_with_refusal(answer);
    return STATUS_REFUSED;
}
