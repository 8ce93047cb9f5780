/* Writing a body to OUT. */
#ifndef OUTPUT_H
#define OUTPUT_H

#include <stddef.h>
#include <stdint.h>

#include "image.h"
#include "report.h"

/* The stored bytes of a partition, inside the image's mapping. */
struct body {
    const uint8_t *bytes;
    size_t length;
};

/* Writes the body to the file `out`, whole or not at all; `-` is standard output. */
enum status write_body(const struct image *image, const struct body *body, const char *out);

#endif
