/* Prints what pdi_owner answers for each p that is asked for, in one line, as C and as C++. usage: owner FILE PLACE P...
 * Assumes an image of at most 64 KiB. */
#include "pdi.h"

#include <inttypes.h>
#include <stdio.h>
#include <stdlib.h>

int main(int argc, char **argv)
{
    /* Its type is stated once more: a declaration of any other wouldn't build. */
    uint64_t (*owner)(const uint8_t *image, size_t image_len, uint64_t place, uint64_t p) = pdi_owner;
    static uint8_t image[1 << 16];
    FILE *file = argc > 3 ? fopen(argv[1], "rb") : NULL;
    if (file == NULL)
        return 2;
    size_t length = fread(image, 1, sizeof image, file);
    if (fclose(file) != 0)
        return 2;
    uint64_t place = strtoull(argv[2], NULL, 10);
    for (int i = 3; i < argc; i++)
        printf("%s%" PRIu64, i > 3 ? " " : "", owner(image, length, place, strtoull(argv[i], NULL, 10)));
    putchar('\n');
    return 0;
}
