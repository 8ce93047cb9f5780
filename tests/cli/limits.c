/* Prints the limits of pdi.h, each as NAME=VALUE, for the tests in other languages: so no test writes such a number down again. */
#include "pdi.h"

#include <inttypes.h>
#include <stdio.h>

#define PRINT(name) printf("%s=%" PRIu64 "\n", #name, (uint64_t)(name))

int main(void)
{
    PRINT(PDI_LAST_RULE);
    PRINT(PDI_LONGEST_IMAGE);
    PRINT(PDI_MOST_IMAGES);
    PRINT(PDI_MOST_PARTITIONS);
    PRINT(PDI_ROWS_NUMBERS);
    PRINT(PDI_ROWS_BYTES);
    return 0;
}
