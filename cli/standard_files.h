/* Standard input, output and error: opening them where they are closed, and ending standard output. */
#ifndef STANDARD_FILES_H
#define STANDARD_FILES_H

#include "report.h"

/* Sees to it that 0, 1 and 2 are open, so that no file gets one of these numbers and takes what is meant for a stream. */
void reserve_standard_files(void);

/* Ends standard output. `status`, or STATUS_TROUBLE if something printed didn't arrive. */
enum status finish_standard_output(enum status status);

#endif
