/* A stand-in for the archive that answers what the environment says, for an image of one partition. The real one can't answer so for a
 * file that nobody changes; the command must stay safe for one that somebody does. */
#include "pdi.h"

#include <stdlib.h>
#include <string.h>

static uint64_t told(const char *name, uint64_t otherwise)
{
    const char *text = getenv(name);
    return text == NULL ? otherwise : strtoull(text, NULL, 10);
}

static void put_number(uint8_t *rows, size_t i, uint64_t value)
{
    for (size_t k = 0; k < 8; k++)
        rows[8 * i + k] = (uint8_t)(value >> (8 * k));
}

uint64_t pdi_read(const uint8_t *image, size_t image_len, uint64_t place, uint8_t *rows, size_t rows_len)
{
    (void)image, (void)image_len, (void)place;
    memset(rows, 0, rows_len);
    put_number(rows, PDI_KIND, 2);
    put_number(rows, PDI_IMAGES, 1);
    put_number(rows, PDI_PARTITIONS, 1);
    put_number(rows, PDI_BILLED, 16);
    put_number(rows, PDI_HEAD + PDI_SPAN_START, told("LIAR_START", 0));
    return told("LIAR_ANSWER", 0);
}

uint64_t pdi_bill(const uint8_t *image, size_t image_len, uint64_t place)
{
    (void)image, (void)image_len, (void)place;
    return told("LIAR_BILL", 16);
}

uint64_t pdi_body_length(const uint8_t *image, size_t image_len, uint64_t place, uint64_t p)
{
    (void)image, (void)image_len, (void)place, (void)p;
    return told("LIAR_BODY", 16);
}

uint64_t pdi_owner(const uint8_t *image, size_t image_len, uint64_t place, uint64_t p)
{
    (void)image, (void)image_len, (void)place, (void)p;
    return told("LIAR_OWNER", 1);
}
