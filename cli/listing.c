/* The listing as a table for people and as TSV. Assumes rows that an acceptance has filled, and the owners beside them. */
#include "listing.h"

#include <inttypes.h>
#include <stdbool.h>
#include <stdio.h>
#include <string.h>

const struct column columns[COLUMNS] = {
    [PDI_SPAN_START] = {"span start", "span_start"},
    [PDI_SPAN_LENGTH] = {"span length", "span_length"},
    [PDI_LOADED] = {"loaded", "loaded_bytes"},
    [PDI_LOAD_ADDR] = {"load address", "load_address"},
    [PDI_EXECUTION_ADDR] = {"execution address", "execution_address"},
    [PDI_KEY] = {"key", "key"},
    [PDI_HASH_ENTRY] = {"hash entry", "hash_entry"},
    [PDI_ATTRIBUTES] = {"attributes", "attributes"},
    [OWNER_IMAGE] = {"owner image", "owner_image"},
};

enum { CELL = 24 };              /* room for any title and for 2^64 - 1 */

/* The whole table as text, titles first, so that each column can be as wide as its widest cell. Column 0 is p. */
struct table {
    unsigned lines;
    char cells[1 + PDI_MOST_PARTITIONS][1 + COLUMNS][CELL];
};

unsigned partitions_of(const struct reading *reading)
{
    return (unsigned)pdi_row_number(reading->rows, PDI_PARTITIONS);
}

const char *kind_of(const struct reading *reading)
{
    return pdi_row_number(reading->rows, PDI_KIND) == 1 ? "full" : "partial";
}

uint64_t stated_of(const struct reading *reading, unsigned p, unsigned column)
{
    return column == OWNER_IMAGE ? reading->owners[p - 1] : pdi_row_field(reading->rows, p, (enum pdi_row)column);
}

/* By the partition's type, attribute bits 26:24. */
static bool has_load_address(uint64_t attributes)
{
    uint64_t type = attributes >> 24 & 7;
    return type == 1 || type == 4 || type == 5;
}

static void fill_cell(char *cell, const struct reading *reading, unsigned p, unsigned column)
{
    uint64_t value = stated_of(reading, p, column);
    bool absent = (column == PDI_HASH_ENTRY && value == 0)
        || (column == PDI_LOAD_ADDR && !has_load_address(stated_of(reading, p, PDI_ATTRIBUTES)));
    if (absent)
        snprintf(cell, CELL, "-");
    else if (column == PDI_SPAN_LENGTH || column == PDI_LOADED || column == OWNER_IMAGE)
        snprintf(cell, CELL, "%" PRIu64, value);
    else if (column == PDI_KEY || column == PDI_ATTRIBUTES)
        snprintf(cell, CELL, "0x%08" PRIx64, value);
    else
        snprintf(cell, CELL, "0x%" PRIx64, value);
}

static void fill_table(struct table *table, const struct reading *reading)
{
    table->lines = 1 + partitions_of(reading);
    snprintf(table->cells[0][0], CELL, "p");
    for (unsigned column = 0; column < COLUMNS; column++)
        snprintf(table->cells[0][1 + column], CELL, "%s", columns[column].title);
    for (unsigned p = 1; p < table->lines; p++) {
        snprintf(table->cells[p][0], CELL, "%u", p);
        for (unsigned column = 0; column < COLUMNS; column++)
            fill_cell(table->cells[p][1 + column], reading, p, column);
    }
}

static int width_of(const struct table *table, unsigned column)
{
    size_t width = 0;
    for (unsigned line = 0; line < table->lines; line++) {
        size_t length = strlen(table->cells[line][column]);
        if (length > width)
            width = length;
    }
    return (int)width;
}

void print_table(const struct reading *reading)
{
    printf("%s image: images %" PRIu64 ", partitions %u, billed bytes %" PRIu64 "\n", kind_of(reading),
           pdi_row_number(reading->rows, PDI_IMAGES), partitions_of(reading), pdi_row_number(reading->rows, PDI_BILLED));
    struct table table;
    fill_table(&table, reading);
    for (unsigned line = 0; line < table.lines; line++)
        for (unsigned column = 0; column <= COLUMNS; column++)
            printf("%*s%s", width_of(&table, column), table.cells[line][column], column < COLUMNS ? "  " : "\n");
}

void print_tsv(const struct reading *reading)
{
    putchar('p');
    for (unsigned column = 0; column < COLUMNS; column++)
        printf("\t%s", columns[column].name);
    putchar('\n');
    for (unsigned p = 1; p <= partitions_of(reading); p++) {
        printf("%u", p);
        for (unsigned column = 0; column < COLUMNS; column++)
            printf("\t%" PRIu64, stated_of(reading, p, column));
        putchar('\n');
    }
}
