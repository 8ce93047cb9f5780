/* What --help prints. A test compares it with the options and with the man page. */
#include "help.h"

#include <stdio.h>

#include "pdi.h"

static const char usage_list[] = "foliobriar list FILE [--place N|auto] [--tsv|--json]\n";
static const char usage_bill[] = "foliobriar bill FILE [--place N|auto] [--tsv|--json]\n";
static const char usage_body[] = "foliobriar body FILE P -o OUT [--place N|auto]\n";
static const char usage_explain[] = "foliobriar explain [NUMBER]\n";

static const char place_option[] =
    "  --place N        the table lies N bytes from the start of FILE; decimal or 0x hexadecimal; 0 is assumed if not given\n"
    "  --place auto     try every place; go on only if exactly one is accepted\n";
static const char form_options[] =
    "  --tsv            a header line and plain decimal numbers between tabs, for programs\n"
    "  --json           one JSON object, also for a refusal; addresses, keys and attributes as \"0x...\"\n";
static const char output_option[] =
    "  -o, --output OUT the file to write, whole or not at all; - is standard output\n";
static const char general_options[] =
    "  --help           this help; after a command, help on that command\n"
    "  --version        the version\n";
static const char statuses[] =
    "\nExit status: 0 accepted, 1 refused, 2 wrong use or a file that cannot be read or written.\n";

static void print_summary(void)
{
    printf("Usage: %s       %s       %s       %s", usage_list, usage_bill, usage_body, usage_explain);
    fputs("       foliobriar [COMMAND] --help\n"
          "       foliobriar --version\n"
          "\nReads PDI boot images for Versal Gen 2 parts, and refuses each that breaks a rule, by the rule's number.\n"
          "\nCommands:\n"
          "  list             what the image's headers state: a row for each partition\n"
          "  bill             the billed bytes alone\n"
          "  body             write the stored body of partition P, counted from 1\n"
          "  explain          a refusal number in plain words, or all of them\n"
          "\nOptions, before or after the operands; -- ends them:\n",
          stdout);
    printf("%s%s%s%s%s", place_option, form_options, output_option, general_options, statuses);
}

void print_help(enum command command)
{
    switch (command) {
    case COMMAND_NONE:
        print_summary();
        break;
    case COMMAND_LIST:
        printf("Usage: %s\nPrints the kind, the images, the partitions and the billed bytes, then a row for each partition.\n", usage_list);
        printf("Addresses, keys and attributes are hexadecimal, lengths are bytes. - stands for a load address or hash\n"
               "entry that is not there. The owner image is the image that the partition belongs to, counted from 1 in\n"
               "the table's order.\n\n%s%s%s", place_option, form_options, statuses);
        break;
    case COMMAND_BILL:
        printf("Usage: %s\nPrints the billed bytes alone on a line.\n\n%s%s%s", usage_bill, place_option, form_options, statuses);
        break;
    case COMMAND_BODY:
        printf("Usage: %s\nWrites the stored body of partition P, counted from 1, to OUT.\n\n%s%s%s", usage_body, output_option,
               place_option, statuses);
        break;
    case COMMAND_EXPLAIN:
        printf("Usage: %s\nSays what was found for a refusal number from 1 to %d, whose header it is and what to ask of the client;\n"
               "0 is an acceptance. Without a number it lists all, one a line.\n", usage_explain, (int)PDI_LAST_RULE);
        break;
    }
}
