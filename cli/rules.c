/* The refusal numbers in plain words, those of docs/RULES.md row for row; a test compares them. The words are plain ASCII, for any
 * terminal, and have neither quotation marks nor backslashes, so that they can stand in a JSON string as they are. A test compares the
 * limits that they state with pdi.h. */
#include "rules.h"

#include <stdio.h>
#include <string.h>

#include "pdi.h"

static const struct rule rules[PDI_LAST_RULE + 1] = {
    [PDI_ACCEPTED] = {
     "The image is accepted: it breaks no rule, and its rows, its bill, its bodies and its owners are those that its headers state",
     "the image", "Nothing"},
    [PDI_IMAGE_TOO_LONG] = {
     "The image is longer than 1 GiB (1,073,741,824 bytes)",
     "the file", "To split the delivery"},
    [PDI_ROWS_TOO_SHORT] = {
     "The row buffer is too short: 260 numbers, or 2,080 bytes for the host, are needed",
     "our own call", "Nothing of the client: the caller has to lend more"},
    [PDI_TABLE_PLACE] = {
     "The table place is no multiple of 4, or the table's 128 bytes do not fit into the image",
     "our call, or the file", "Where the table lies; whether the file was cut"},
    [PDI_TABLE_CHECKSUM] = {
     "The table's checksum is not the sum of its 31 words",
     "table", "Where the table lies, if no place was given; a fresh copy; whether the file was changed after it was made"},
    [PDI_TABLE_VERSION] = {
     "The version is not 0x00010000, or the kind is neither FPDI (full) nor PPDI (partial)",
     "table", "Where the table lies, if no place was given; which tool made the image, and for which part"},
    [PDI_TABLE_FIELDS] = {
     "There are not 1 to 32 images and 1 to 32 partitions; a header size is wrong; the optional words are no multiple of 4; "
     "or the reserved word 0x78 is not 0",
     "table", "Which tool made the image"},
    [PDI_TABLE_KEY] = {
     "The table's key word is neither 0 nor one of the eight common keys",
     "table", "Which key source was chosen"},
    [PDI_BOOT_HEADER] = {
     "A full image whose boot header is not sound: its place, its fixed words, its checksum, its key or its lengths",
     "boot header", "A fresh copy; which tool made the boot header"},
    [PDI_TABLE_PARTS] = {
     "The optional data or the image headers do not fit into the image",
     "table", "Whether the file was cut"},
    [PDI_PARTITION_CHAIN] = {
     "The chain of partition headers breaks: header p does not fit into the image, ends the chain too early, or goes on after "
     "the last partition",
     "header p", "How many partitions were meant"},
    [PDI_PARTITION_CHECKSUM] = {
     "The checksum of header p is not the sum of its 31 words",
     "header p", "A fresh copy"},
    [PDI_PARTITION_ATTRIBUTES] = {
     "The reserved word 0x78 of header p is not 0, or an attribute has a value that the guide does not give",
     "header p", "Which tool made the image"},
    [PDI_PARTITION_KEY] = {
     "The key word of header p is no key of the guide",
     "header p", "Which key source was chosen"},
    [PDI_PARTITION_LENGTHS] = {
     "The lengths of header p are not in order (1 <= unencrypted <= encrypted <= total), or an actual key or signature size is "
     "over its total",
     "header p", "How the partition was packed"},
    [PDI_PARTITION_SPAN] = {
     "The partition's data, or the 48 bytes of its checksum, do not fit into the image",
     "header p", "Whether the file was cut"},
    [PDI_LOAD_ADDRESS] = {
     "The load address is wrong: the load range passes 2^64, or a partition that is not loaded does not have 0xFFFFFFFF in "
     "both halves",
     "header p", "Where the partition is to be loaded"},
    [PDI_HASH_BLOCK] = {
     "The hash block is wrong: only one of length and offset is 0, the length fits no number of entries from 1 to 33, it "
     "passes the image, or its own index is not there exactly once. p = 0 is the table's own block",
     "header p, or table", "Which tool made the hash blocks"},
    [PDI_STORED_CLASH] = {
     "Two stored parts share bytes that must not: headers, tables, data, a hash block with one of them, or two hash blocks that "
     "are not the same",
     "the image", "How the image was put together"},
    [PDI_LOAD_CLASH] = {
     "The load range of partition p meets that of an earlier one",
     "header p", "Which of the two is to lie at those addresses"},
    [PDI_IMAGE_HEADERS] = {
     "An image header is wrong: its checksum is not the sum of its 15 words, its number of partitions is 0, these numbers do not "
     "add up to the table's, or the partition header that it names is not the first of its run of the chain",
     "image headers", "A fresh copy; which partitions each image is to have"},
};

/* An archive or a header newer than these words could have more numbers. */
static const struct rule unknown = {"A rule that this command does not know", "the image", "Nothing: ask for a newer foliobriar"};

const struct rule *rule_of(unsigned number)
{
    return number <= PDI_LAST_RULE && rules[number].found != NULL ? &rules[number] : &unknown;
}

void explain_rule(unsigned number)
{
    const struct rule *rule = rule_of(number);
    printf("number %u\n  found  %s\n  whose  %s\n  ask    %s\n", number, rule->found, rule->whose, rule->ask);
    if (strstr(rule->whose, "header p") != NULL)
        puts("  p      the partition, counted from 1 in chain order; 0 means the image as a whole, or its table");
}

void explain_all_rules(void)
{
    for (unsigned number = 0; number <= PDI_LAST_RULE; number++)
        printf("%2u  %s\n", number, rule_of(number)->found);
}
