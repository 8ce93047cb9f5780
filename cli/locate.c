/* --place auto. The guide doesn't say where the table lies, so every multiple of 4 may be its place. Assumes an image that isn't too long:
 * pdi_read would refuse it at every place with number 1.
 *
 * Candidates aren't kept but found again where they are reported: an image may have millions, and a search needs no memory this way. */
#include "locate.h"

#include <inttypes.h>
#include <stdio.h>
#include <string.h>

#include "pdi.h"
#include "report.h"

enum { TABLE_BYTES = 128, KIND_STRING = 0x28 };

/* Only what rule 5 refuses fails here: it is a sieve in front of pdi_read, which decides. A hole of a sparse file fails at one byte. */
static bool may_be_table(const uint8_t *at)
{
    return at[2] == 1 && at[0] == 0 && at[1] == 0 && at[3] == 0
        && (memcmp(at + KIND_STRING, "FPDI", 4) == 0 || memcmp(at + KIND_STRING, "PPDI", 4) == 0);
}

static bool is_candidate(uint64_t answer)
{
    unsigned number = pdi_number(answer);
    return number != PDI_TABLE_PLACE && number != PDI_TABLE_CHECKSUM && number != PDI_TABLE_VERSION;
}

bool next_candidate(const struct image *image, uint64_t from, struct candidate *candidate)
{
    uint8_t rows[PDI_ROWS_BYTES];
    for (uint64_t place = from; place + TABLE_BYTES <= image->length; place += 4) {
        if (!may_be_table(image->bytes + place))
            continue;
        candidate->place = place;
        candidate->answer = pdi_read(image->bytes, image->length, place, rows, sizeof rows);
        if (is_candidate(candidate->answer))
            return true;
    }
    return false;
}

struct search search_image(const struct image *image, uint64_t most)
{
    struct search search = {0, 0, 0};
    struct candidate candidate;
    for (uint64_t from = 0; search.candidates < most && next_candidate(image, from, &candidate); from = candidate.place + 4) {
        search.candidates++;
        if (pdi_number(candidate.answer) == PDI_ACCEPTED && search.accepting++ == 0)
            search.place = candidate.place;
    }
    return search;
}

const char *search_failure(const struct search *search)
{
    if (search->candidates == 0)
        return "no table found";
    return search->accepting == 0 ? "no place is accepted" : "more than one place is accepted";
}

static void put_place(uint64_t place)
{
    fprintf(stderr, "place %" PRIu64 " (0x%" PRIx64 ")", place, place);
}

static void report_candidate(const struct image *image, const struct candidate *candidate)
{
    start_line_about(image->name);
    put_place(candidate->place);
    fputs(": ", stderr);
    if (pdi_number(candidate->answer) == PDI_ACCEPTED)
        fputs("accepted\n", stderr);
    else
        end_line_with_refusal(candidate->answer);
}

void report_search(const struct image *image, const struct search *search)
{
    bool several = search->accepting > 1;
    struct candidate candidate;
    uint64_t from = 0;
    for (uint64_t done = 0; done < search->candidates && next_candidate(image, from, &candidate); done++) {
        if (!several || pdi_number(candidate.answer) == PDI_ACCEPTED)
            report_candidate(image, &candidate);
        from = candidate.place + 4;
    }
    start_line_about(image->name);
    if (several)
        fprintf(stderr, "%s, and foliobriar does not choose: give one with --place\n", search_failure(search));
    else
        fprintf(stderr, "refused: %s\n", search_failure(search));
}

/* Nobody asked for this search, so it ends early where somebody has filled an image with tables. */
enum { MOST_TABLES = 1000 };

static void report_accepting(const struct image *image, const struct search *search)
{
    bool several = search->accepting > 1;
    fputs(several ? "more than one place that is accepted, first " : "the table at ", stderr);
    put_place(search->place);
    if (!several)
        fprintf(stderr, ", where the image is accepted: billed bytes %" PRIu64, pdi_bill(image->bytes, image->length, search->place));
    putc('\n', stderr);
}

/* Of tables that are refused only the first is told: --place auto lists them all. */
void report_assumed_place(const struct image *image, uint64_t answer)
{
    struct search search = search_image(image, MOST_TABLES);
    uint64_t at_0 = is_candidate(answer) ? 1 : 0;
    struct candidate other;
    start_line_about(image->name);
    fputs("place 0 was assumed; --place auto finds ", stderr);
    if (search.candidates == MOST_TABLES) {
        fprintf(stderr, "%d tables or more\n", (int)MOST_TABLES);
    } else if (search.accepting > 0) {
        report_accepting(image, &search);
    } else if (search.candidates > at_0 && next_candidate(image, 4, &other)) {
        fputs("a table at ", stderr);
        put_place(other.place);
        fputs(", where the image is ", stderr);
        end_line_with_refusal(other.answer);
    } else {
        fputs(at_0 == 0 ? "no table\n" : "no table at another place\n", stderr);
    }
}
