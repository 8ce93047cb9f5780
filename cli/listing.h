/* Rows and bills, for people and for programs. */
#ifndef LISTING_H
#define LISTING_H

#include <stdint.h>

#include "pdi.h"

/* An accepted image: what pdi_read has written for it, and, for a listing, what pdi_owner answers. */
struct reading {
    uint64_t place;
    uint8_t rows[PDI_ROWS_BYTES];
    uint64_t owners[PDI_MOST_PARTITIONS];    /* that of partition p is owners[p - 1] */
};

/* The columns after p: the numbers of a row, in the order of enum pdi_row, and then the owner image, which is no part of a row. */
enum { OWNER_IMAGE = PDI_ROW, COLUMNS };

struct column {
    const char *title;           /* over a column for people */
    const char *name;            /* in TSV and JSON */
};
extern const struct column columns[COLUMNS];

unsigned partitions_of(const struct reading *reading);
const char *kind_of(const struct reading *reading);

/* What a column states of partition p. */
uint64_t stated_of(const struct reading *reading, unsigned p, unsigned column);

void print_table(const struct reading *reading);
void print_tsv(const struct reading *reading);

#endif
