/* The helper functions and the declarations of pdi.h, as C and as C++. It calls nothing of the archive. Ends with 0 if all is right. */
#include "pdi.h"

#include <stdio.h>
#include <string.h>

static int faults;

static void expect(int holds, const char *what)
{
    if (!holds) {
        printf("pdi.h: %s\n", what);
        faults++;
    }
}

static void put_number(uint8_t *rows, size_t i, uint64_t value)
{
    for (size_t k = 0; k < 8; k++)
        rows[8 * i + k] = (uint8_t)(value >> (8 * k));
}

static void test_answers(void)
{
    expect(pdi_number(0) == PDI_ACCEPTED && pdi_partition(0) == 0, "an acceptance");
    expect(pdi_number(64 * 14 + 2) == PDI_PARTITION_LENGTHS && pdi_partition(64 * 14 + 2) == 2, "number 14, p 2");
    uint64_t largest = UINT64_C(64) * PDI_LAST_RULE + PDI_MOST_PARTITIONS;
    expect(pdi_number(largest) == PDI_LAST_RULE && pdi_partition(largest) == PDI_MOST_PARTITIONS, "the last number and partition");
    expect(pdi_number(64) == PDI_IMAGE_TOO_LONG && pdi_partition(64) == 0, "number 1");
}

static void test_rows(void)
{
    /* Not one byte more than is asked for, so that a sanitizer would see a read past the rows. */
    static uint8_t rows[PDI_ROWS_BYTES];
    const size_t numbers = PDI_ROWS_NUMBERS, head = PDI_HEAD, row = PDI_ROW;
    const enum pdi_row first = PDI_SPAN_START, last = (enum pdi_row)(PDI_ROW - 1);
    const uint64_t base = UINT64_C(0xF1E2D3C4B5A60000);
    for (size_t i = 0; i < numbers; i++)
        put_number(rows, i, base + i);
    for (size_t i = 0; i < numbers; i++)
        expect(pdi_row_number(rows, i) == base + i, "a number of the rows");
    expect(pdi_row_field(rows, 1, first) == base + head, "the first field of row 1");
    expect(pdi_row_field(rows, 1, last) == base + head + row - 1, "the last field of row 1");
    expect(pdi_row_field(rows, 2, first) == base + head + row, "the first field of row 2");
    expect(pdi_row_field(rows, PDI_MOST_PARTITIONS, last) == base + numbers - 1, "the last field of the last row");
    memset(rows, 0xFF, sizeof rows);
    expect(pdi_row_number(rows, 0) == UINT64_MAX, "2^64 - 1");
}

/* Arguments of the types that the calls take, and the size of what they answer; sizeof calls nothing. */
static void test_calls(void)
{
    const uint8_t *image = NULL;
    uint8_t *rows = NULL;
    const size_t length = 0;
    const uint64_t number = 0;
    (void)image, (void)rows, (void)length, (void)number;
    expect(sizeof pdi_read(image, length, number, rows, length) == 8, "what pdi_read answers");
    expect(sizeof pdi_bill(image, length, number) == 8, "what pdi_bill answers");
    expect(sizeof pdi_body_length(image, length, number, number) == 8, "what pdi_body_length answers");
    expect(sizeof pdi_owner(image, length, number, number) == 8, "what pdi_owner answers");
}

/* What names stand for. How long the rows and the image may be is asked of the archive itself, by the outside test. */
static void test_order(void)
{
    expect(PDI_KIND == 0 && PDI_IMAGES == 1 && PDI_PARTITIONS == 2 && PDI_BILLED == 3 && PDI_BILLED + 1 == PDI_HEAD, "the head's order");
    expect(PDI_SPAN_START == 0 && PDI_ATTRIBUTES < PDI_ROW, "the order of a row");
    expect(PDI_LAST_RULE < 64 && PDI_MOST_PARTITIONS < 64, "an answer that is 64 * number + p");
    expect(PDI_IMAGE_HEADERS == PDI_LOAD_CLASH + 1 && PDI_IMAGE_HEADERS <= PDI_LAST_RULE, "rule 20 comes after 19");
}

int main(void)
{
    test_answers();
    test_rows();
    test_calls();
    test_order();
    return faults != 0;
}
