/* foliobriar: the commands. What an image states is pdi_read's answer, what it costs pdi_bill's, and whose a partition is pdi_owner's;
 * nothing is reckoned here. Assumes that FOLIOBRIAR_VERSION is defined by the build, from cli/VERSION. */
#include <inttypes.h>
#include <signal.h>
#include <stdbool.h>
#include <stdio.h>

#include "help.h"
#include "image.h"
#include "json.h"
#include "listing.h"
#include "locate.h"
#include "options.h"
#include "output.h"
#include "pdi.h"
#include "report.h"
#include "rules.h"
#include "standard_files.h"

/* Two calls on the same bytes can't disagree, so the bytes aren't the same any more. */
static enum status trouble_with_changed(const struct image *image)
{
    return trouble(image->name, "was changed while it was being read");
}

/* Asks for the owner of each partition. False where one is no image of the table, as pdi_read has just counted them. */
static bool ask_owners(const struct image *image, struct reading *reading)
{
    uint64_t images = pdi_row_number(reading->rows, PDI_IMAGES);
    for (unsigned p = 1; p <= partitions_of(reading); p++) {
        uint64_t owner = pdi_owner(image->bytes, image->length, reading->place, p);
        if (owner < 1 || owner > images)
            return false;
        reading->owners[p - 1] = owner;
    }
    return true;
}

static enum status list(const struct request *request, const struct image *image, struct reading *reading)
{
    if (!ask_owners(image, reading))
        return trouble_with_changed(image);
    switch (request->form) {
    case FORM_PEOPLE:
        print_table(reading);
        break;
    case FORM_TSV:
        print_tsv(reading);
        break;
    case FORM_JSON:
        print_json_listing(reading);
        break;
    }
    return STATUS_ACCEPTED;
}

static enum status bill(const struct request *request, const struct image *image, const struct reading *reading)
{
    uint64_t billed = pdi_bill(image->bytes, image->length, reading->place);
    if (billed != pdi_row_number(reading->rows, PDI_BILLED))
        return trouble_with_changed(image);
    switch (request->form) {
    case FORM_PEOPLE:
        printf("%" PRIu64 "\n", billed);
        break;
    case FORM_TSV:
        printf("billed\n%" PRIu64 "\n", billed);
        break;
    case FORM_JSON:
        print_json_bill(reading, billed);
        break;
    }
    return STATUS_ACCEPTED;
}

static enum status body(const struct request *request, const struct image *image, const struct reading *reading)
{
    unsigned partitions = partitions_of(reading);
    if (request->partition < 1 || request->partition > partitions) {
        start_line_about(image->name);
        fprintf(stderr, "there is no partition %" PRIu64 ": the image has %u partition%s, counted from 1\n", request->partition,
                partitions, partitions == 1 ? "" : "s");
        return STATUS_TROUBLE;
    }
    uint64_t start = pdi_row_field(reading->rows, (unsigned)request->partition, PDI_SPAN_START);
    uint64_t length = pdi_body_length(image->bytes, image->length, reading->place, request->partition);
    if (length == 0 || start > image->length || length > image->length - start)
        return trouble_with_changed(image);
    struct body stored = {image->bytes + start, (size_t)length};
    return write_body(image, &stored, request->out);
}

/* Settles the place of --place auto. */
static enum status find_place(const struct request *request, const struct image *image, uint64_t *place)
{
    struct search search = search_image(image, UINT64_MAX);
    if (search.accepting == 1) {
        *place = search.place;
        start_line_about(image->name);
        fprintf(stderr, "table found at place %" PRIu64 " (0x%" PRIx64 ")\n", *place, *place);
        return STATUS_ACCEPTED;
    }
    report_search(image, &search);
    if (request->form == FORM_JSON)
        print_json_search(image, &search);
    return search.accepting == 0 ? STATUS_REFUSED : STATUS_TROUBLE;
}

static enum status refuse(const struct request *request, const struct image *image, const uint64_t *place, uint64_t answer)
{
    if (request->form == FORM_JSON)
        print_json_refusal(place, answer);
    enum status status = report_refusal(image->name, answer);
    /* An image that is too long is refused at any place. */
    if (request->assumed && image->length <= PDI_LONGEST_IMAGE)
        report_assumed_place(image, answer);
    return status;
}

/* Reads the image where the request says. Anything but an acceptance is reported here. */
static enum status read_image(const struct request *request, const struct image *image, struct reading *reading)
{
    reading->place = request->place;
    bool search = request->search;
    if (search && image->length > PDI_LONGEST_IMAGE)
        return refuse(request, image, NULL, pdi_read(image->bytes, image->length, 0, reading->rows, sizeof reading->rows));
    if (search) {
        enum status status = find_place(request, image, &reading->place);
        if (status != STATUS_ACCEPTED)
            return status;
    }
    uint64_t answer = pdi_read(image->bytes, image->length, reading->place, reading->rows, sizeof reading->rows);
    if (pdi_number(answer) != PDI_ACCEPTED)
        return refuse(request, image, &reading->place, answer);
    return STATUS_ACCEPTED;
}

static enum status answer_about(const struct request *request, const struct image *image)
{
    struct reading reading;
    enum status status = read_image(request, image, &reading);
    if (status != STATUS_ACCEPTED)
        return status;
    if (request->command == COMMAND_LIST)
        return list(request, image, &reading);
    if (request->command == COMMAND_BILL)
        return bill(request, image, &reading);
    return body(request, image, &reading);
}

static enum status explain(const struct request *request)
{
    if (request->numbered)
        explain_rule(request->number);
    else
        explain_all_rules();
    return STATUS_ACCEPTED;
}

static enum status run(const struct request *request)
{
    if (request->help) {
        print_help(request->command);
        return STATUS_ACCEPTED;
    }
    if (request->version) {
        puts("foliobriar " FOLIOBRIAR_VERSION);
        return STATUS_ACCEPTED;
    }
    if (request->command == COMMAND_EXPLAIN)
        return explain(request);
    struct image image;
    if (!map_image(request->file, &image))
        return STATUS_TROUBLE;
    enum status status = answer_about(request, &image);
    unmap_image(&image);
    return status;
}

int main(int argc, char **argv)
{
    reserve_standard_files();
    signal(SIGPIPE, SIG_IGN);    /* a closed pipe, or a file over its limit, is an error to report, not a sudden end */
    signal(SIGXFSZ, SIG_IGN);
    setvbuf(stderr, NULL, _IOLBF, BUFSIZ);
    struct request request;
    enum status status = parse_request(argc, argv, &request) ? run(&request) : STATUS_TROUBLE;
    return (int)finish_standard_output(status);
}
