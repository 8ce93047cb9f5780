/* Numbers as options and operands write them. */
#ifndef NUMBER_H
#define NUMBER_H

#include <stdbool.h>
#include <stdint.h>

/* Decimal, or hexadecimal after 0x, digits only, below 2^64. */
bool parse_number(const char *text, uint64_t *value);

#endif
