/* --place auto: where in the image a table lies. */
#ifndef LOCATE_H
#define LOCATE_H

#include <stdbool.h>
#include <stdint.h>

#include "image.h"

/* A place at which rules 3 to 5 hold, with what pdi_read answers there. */
struct candidate {
    uint64_t place;
    uint64_t answer;
};

struct search {
    uint64_t candidates;         /* how many there are */
    uint64_t accepting;          /* how many of them pdi_read accepts */
    uint64_t place;              /* the first that accepts */
};

/* The first candidate at `from` or after it; `from` is a multiple of 4. */
bool next_candidate(const struct image *image, uint64_t from, struct candidate *candidate);

/* Tries the whole image, or as far as the `most`th candidate. */
struct search search_image(const struct image *image, uint64_t most);

/* Says on standard error what a search found that didn't end in one place. */
void report_search(const struct image *image, const struct search *search);

/* Why such a search gives no place. */
const char *search_failure(const struct search *search);

/* Says on standard error, of an image that is refused at place 0 with this answer, that nobody gave the place, and what a search finds. */
void report_assumed_place(const struct image *image, uint64_t answer);

#endif
