/* The calls of libpdi_host.a: a proved reader of PDI boot images for Versal Gen 2 parts, for C and C++.
 *
 * Each call takes any input, ends, allocates nothing, keeps nothing between calls and never writes to the image. What it assumes is what C
 * can't state: `image` points to `image_len` readable bytes, `rows` to `rows_len` writable ones, the two don't overlap, and nobody else
 * writes either during the call. A pointer whose length is 0 is never followed and may be null.
 *
 * A call needs less than 8 KiB of stack.
 */
#ifndef PDI_H
#define PDI_H

#include <stddef.h>
#include <stdint.h>

#ifdef __cplusplus
extern "C" {
#endif

/* Why an image is refused: the number of the first rule it breaks. `foliobriar explain` has each in plain words. */
enum pdi_refusal {
    PDI_ACCEPTED = 0,            /* no rule is broken */
    PDI_IMAGE_TOO_LONG = 1,      /* over PDI_LONGEST_IMAGE bytes */
    PDI_ROWS_TOO_SHORT = 2,      /* under PDI_ROWS_BYTES bytes; pdi_read only */
    PDI_TABLE_PLACE = 3,         /* no multiple of 4, or the table passes the image */
    PDI_TABLE_CHECKSUM = 4,      /* not the sum of the table's other words */
    PDI_TABLE_VERSION = 5,       /* version or kind string */
    PDI_TABLE_FIELDS = 6,        /* counts, header sizes, optional words, reserved word */
    PDI_TABLE_KEY = 7,           /* neither 0 nor a common key */
    PDI_BOOT_HEADER = 8,         /* full images only */
    PDI_TABLE_PARTS = 9,         /* optional data or image headers pass the image */
    PDI_PARTITION_CHAIN = 10,    /* a header passes the image, or the chain is shorter or longer than the table says */
    PDI_PARTITION_CHECKSUM = 11, /* not the sum of the header's other words */
    PDI_PARTITION_ATTRIBUTES = 12, /* an attribute's value, or the reserved word */
    PDI_PARTITION_KEY = 13,      /* neither 0, nor a common key, nor a user key */
    PDI_PARTITION_LENGTHS = 14,  /* of the data, of the key or of the signature */
    PDI_PARTITION_SPAN = 15,     /* the data, or the 48 bytes of their checksum, pass the image */
    PDI_LOAD_ADDRESS = 16,       /* the load range passes 2^64, or an address where none may be */
    PDI_HASH_BLOCK = 17,         /* its length, its place, or no single entry with its own index */
    PDI_STORED_CLASH = 18,       /* two stored parts share bytes that must not */
    PDI_LOAD_CLASH = 19,         /* two partitions are loaded to one address */
    PDI_IMAGE_HEADERS = 20,      /* a checksum, a count, or where an image's run of partitions starts */
    PDI_LAST_RULE = PDI_IMAGE_HEADERS /* the highest number */
};

/* The row buffer holds a head and then, in chain order, a row for each partition. Here are the numbers of the head, */
enum pdi_head {
    PDI_KIND = 0,                /* 1 full, 2 partial */
    PDI_IMAGES = 1,              /* how many images the table states */
    PDI_PARTITIONS = 2,          /* how many rows follow */
    PDI_BILLED = 3,              /* bytes */
    PDI_HEAD = 4                 /* how many numbers the head has */
};

/* and those of a row. */
enum pdi_row {
    PDI_SPAN_START = 0,          /* bytes from the start of the image; the body starts here too */
    PDI_SPAN_LENGTH = 1,         /* bytes */
    PDI_LOADED = 2,              /* bytes */
    PDI_LOAD_ADDR = 3,           /* 2^64 - 1 if it has none */
    PDI_EXECUTION_ADDR = 4,      /* as the header states it */
    PDI_KEY = 5,                 /* the key word */
    PDI_HASH_ENTRY = 6,          /* its byte offset in the image, 0 if there is none */
    PDI_ATTRIBUTES = 7,          /* the attribute word */
    PDI_ROW = 8                  /* how many numbers a row has */
};

/* The limits. What follows from others is reckoned from them, here and wherever this header is used. */
#define PDI_LONGEST_IMAGE UINT64_C(1073741824)     /* bytes of the longest image that isn't refused for its length */
#define PDI_MOST_IMAGES 32                         /* of a table */
#define PDI_MOST_PARTITIONS 32                     /* of a table, be they one image's or several images' */
#define PDI_ROWS_NUMBERS (PDI_HEAD + PDI_ROW * PDI_MOST_PARTITIONS)  /* of a row buffer that is long enough for any image */
#define PDI_ROWS_BYTES (8u * PDI_ROWS_NUMBERS)     /* the same in bytes, 8 to a number */

/* Reads the image whose table lies `place` bytes from its start. The answer is 64 * number + p: number 0 is an acceptance, any other a
 * refusal, and p is the partition it is about, 1 to PDI_MOST_PARTITIONS, or 0. An acceptance of N partitions changes the first
 * 8 * (PDI_HEAD + PDI_ROW * N) bytes of `rows`, 8 to a number, little-endian. A refusal changes none. */
uint64_t pdi_read(const uint8_t *image, size_t image_len, uint64_t place, uint8_t *rows, size_t rows_len);

/* The billed bytes of the image; 0 if it is refused. */
uint64_t pdi_bill(const uint8_t *image, size_t image_len, uint64_t place);

/* The length in bytes of the stored body of partition p, counted from 1. It starts where the partition's span does. 0 if the image is
 * refused or has no partition p; a partition of an accepted image is never empty. */
uint64_t pdi_body_length(const uint8_t *image, size_t image_len, uint64_t place, uint64_t p);

/* The owner image of partition p, both counted from 1: which of the table's images, in its order, has p in its run of the chain. It is at
 * most the head's PDI_IMAGES. 0 if the image is refused or has no partition p. */
uint64_t pdi_owner(const uint8_t *image, size_t image_len, uint64_t place, uint64_t p);

/* The number of an answer. */
static inline unsigned pdi_number(uint64_t answer) { return (unsigned)(answer / 64); }

/* The partition an answer is about, 0 if none. */
static inline unsigned pdi_partition(uint64_t answer) { return (unsigned)(answer % 64); }

/* The i-th number of a row buffer, from 0. */
static inline uint64_t pdi_row_number(const uint8_t *rows, size_t i)
{
    uint64_t value = 0;
    for (size_t k = 8; k > 0; k--)
        value = value * 256 + rows[8 * i + k - 1];
    return value;
}

/* A field of the row of partition p, from 1 to the head's PDI_PARTITIONS, in a buffer that pdi_read has filled. */
static inline uint64_t pdi_row_field(const uint8_t *rows, unsigned p, enum pdi_row field)
{
    return pdi_row_number(rows, PDI_HEAD + (size_t)PDI_ROW * (p - 1u) + (size_t)field);
}

#ifdef __cplusplus
}
#endif

#endif
