/* The answers as JSON objects, each on standard output, one line. */
#ifndef JSON_H
#define JSON_H

#include <stdint.h>

#include "image.h"
#include "listing.h"
#include "locate.h"

void print_json_listing(const struct reading *reading);
void print_json_bill(const struct reading *reading, uint64_t billed);

/* `place` is null for an image that is refused at any place. */
void print_json_refusal(const uint64_t *place, uint64_t answer);

/* A search that didn't end in one place, with all candidates. */
void print_json_search(const struct image *image, const struct search *search);

#endif
