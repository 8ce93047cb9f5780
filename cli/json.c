/* JSON. Addresses, keys and attributes are strings, as many readers of JSON lose integers over 2^53; all else is a plain integer. Assumes
 * that the words of the rules need no escapes, as rules.c says; no other text is written. */
#include "json.h"

#include <inttypes.h>
#include <stdbool.h>
#include <stdio.h>

#include "rules.h"

static bool is_hexadecimal(unsigned column)
{
    return column == PDI_LOAD_ADDR || column == PDI_EXECUTION_ADDR || column == PDI_KEY || column == PDI_ATTRIBUTES;
}

static void print_row(const struct reading *reading, unsigned p)
{
    printf("{\"p\": %u", p);
    for (unsigned column = 0; column < COLUMNS; column++) {
        uint64_t value = stated_of(reading, p, column);
        if (is_hexadecimal(column))
            printf(", \"%s\": \"0x%" PRIx64 "\"", columns[column].name, value);
        else
            printf(", \"%s\": %" PRIu64, columns[column].name, value);
    }
    putchar('}');
}

void print_json_listing(const struct reading *reading)
{
    printf("{\"accepted\": true, \"place\": %" PRIu64 ", \"kind\": \"%s\", \"images\": %" PRIu64, reading->place, kind_of(reading),
           pdi_row_number(reading->rows, PDI_IMAGES));
    printf(", \"partitions\": %u, \"billed\": %" PRIu64 ", \"rows\": [", partitions_of(reading),
           pdi_row_number(reading->rows, PDI_BILLED));
    for (unsigned p = 1; p <= partitions_of(reading); p++) {
        fputs(p > 1 ? ", " : "", stdout);
        print_row(reading, p);
    }
    puts("]}");
}

void print_json_bill(const struct reading *reading, uint64_t billed)
{
    printf("{\"accepted\": true, \"place\": %" PRIu64 ", \"billed\": %" PRIu64 "}\n", reading->place, billed);
}

/* The members that tell of an answer. */
static void print_answer(uint64_t answer)
{
    printf("\"number\": %u, \"p\": %u, \"rule\": \"%s\"", pdi_number(answer), pdi_partition(answer),
           rule_of(pdi_number(answer))->found);
}

void print_json_refusal(const uint64_t *place, uint64_t answer)
{
    fputs("{\"accepted\": false, \"place\": ", stdout);
    if (place == NULL)
        fputs("null, ", stdout);
    else
        printf("%" PRIu64 ", ", *place);
    print_answer(answer);
    puts("}");
}

void print_json_search(const struct image *image, const struct search *search)
{
    printf("{\"accepted\": false, \"place\": null, \"number\": null, \"p\": null, \"rule\": \"%s\", \"candidates\": [",
           search_failure(search));
    struct candidate candidate;
    uint64_t from = 0;
    for (uint64_t done = 0; done < search->candidates && next_candidate(image, from, &candidate); done++) {
        bool accepted = pdi_number(candidate.answer) == PDI_ACCEPTED;
        printf("%s{\"place\": %" PRIu64 ", \"accepted\": %s, ", done > 0 ? ", " : "", candidate.place, accepted ? "true" : "false");
        print_answer(candidate.answer);
        putchar('}');
        from = candidate.place + 4;
    }
    puts("]}");
}
