/* A user of the installed archive: prints number, p, billed bytes, the number of partitions, the first body's length and the first
 * partition's owner image, of the image that its argument names, table at place 0. */
#include <pdi.h>

#include <inttypes.h>
#include <stdio.h>

int main(int argc, char **argv)
{
    static uint8_t image[1 << 16];
    uint8_t rows[PDI_ROWS_BYTES];
    FILE *file = argc == 2 ? fopen(argv[1], "rb") : NULL;
    if (file == NULL)
        return 2;
    size_t length = fread(image, 1, sizeof image, file);
    if (fclose(file) != 0)
        return 2;
    uint64_t answer = pdi_read(image, length, 0, rows, sizeof rows);
    printf("%u %u", pdi_number(answer), pdi_partition(answer));
    if (pdi_number(answer) == PDI_ACCEPTED)
        printf(" %" PRIu64 " %" PRIu64 " %" PRIu64 " %" PRIu64, pdi_bill(image, length, 0), pdi_row_number(rows, PDI_PARTITIONS),
               pdi_body_length(image, length, 0, 1), pdi_owner(image, length, 0, 1));
    putchar('\n');
    return 0;
}
