"""Writes the input of the program `bench_cases`: every case of document 01's "The bench image", starred or not, cases at the reader's
edges, those of image headers, and full images, whose boot header is too long to compute in crates/pdi_cases. Its file `stdin` holds what
this writes, and its file `stdout` what documents 01 and 02 say of each. The program takes less than 65,536 bytes.

A case is its name, padded with spaces to 32 bytes; the image's length, the numbers in the row buffer and the p whose body and owner are
asked for, 4 bytes each; the table place, 8 bytes; all little-endian; and the image. The limits are those of pdi.h, from the environment
(limits.sh).
"""

import os
import struct
import sys

sys.dont_write_bytecode = True  # nothing is left beside the sources
from bench_image import HEADER, IMAGE_HEADER, MOST, TABLE, bench, broken, edited, two, with_block
from headers import put, seal, seal_boot_header
from images import full
from owned_image import owned

ENOUGH = int(os.environ["PDI_ROWS_NUMBERS"])


def case(name, image, place=0, rows=ENOUGH, p=1):
    sys.stdout.buffer.write(struct.pack("<32sIIIQ", name.encode().ljust(32), len(image), rows, p, place) + image)


def word(name, offset, value):
    case(name, edited({offset: value}))


def load(name, attributes, high, low):
    case(name, edited({HEADER + 0x24: attributes, HEADER + 0x1C: high, HEADER + 0x18: low}))


case("as_given", bench())
for length in 0, 1, 127, 128:
    case(f"image_of_{length}", bench()[:length])
for place in 0, 2, 4, 208, 212, 2**64 - 4, 2**64 - 1:
    case(f"place_{place}", bench(), place)
for rows in ENOUGH + 1, ENOUGH, ENOUGH - 1, 0:
    case(f"rows_{rows}", bench(), rows=rows)
case(f"rows_{ENOUGH - 1}_place_2", bench(), 2, ENOUGH - 1)

word("partitions_0", TABLE + 0xC, 0)
word(f"partitions_{MOST + 1}", TABLE + 0xC, MOST + 1)
word("image_header_size_15", TABLE + 0x2C, 0x00200F20)
word("image_header_size_17", TABLE + 0x2C, 0x00201120)
word("table_key_5C3CA5A3", TABLE + 0x40, 0x5C3CA5A3)

word("next_48", HEADER + 0xC, 48)
word("type_0", HEADER + 0x24, 0x00000001)
word("attributes_0400C001", HEADER + 0x24, 0x0400C001)
word("key_A5C3C5A4", HEADER + 0x44, 0xA5C3C5A4)
word("key_C3A5C573", HEADER + 0x44, 0xC3A5C573)
word("unencrypted_5", HEADER + 0x4, 5)
word("total_5", HEADER + 0x8, 5)
word("total_40000000", HEADER + 0x8, 0x40000000)

load("type_2_load_00100000", 0x02000001, 0, 0x00100000)
load("type_2_load_FFFFFFFFFFFFFFFF", 0x02000001, 0xFFFFFFFF, 0xFFFFFFFF)
load("load_FFFFFFFFFFFFFFF0", 0x04000001, 0xFFFFFFFF, 0xFFFFFFF0)
load("load_FFFFFFFFFFFFFFF1", 0x04000001, 0xFFFFFFFF, 0xFFFFFFF1)

word("data_79", HEADER + 0x20, 79)
case("block_index_1", with_block(1))
case("block_index_2", with_block(2))
case("block_length_52", with_block(1, 52))
case("second_load_00100010", two(0x00100010), p=2)
case("second_load_0010000F", two(0x0010000F), p=2)

word("image_partitions_0", IMAGE_HEADER + 4, 0)
word("image_partitions_2", IMAGE_HEADER + 4, 2)
word("image_first_header_49", IMAGE_HEADER, 49)
case("image_checksum_00000030", broken(IMAGE_HEADER + 0x3C))
case("two_images", owned(1, 1), p=2)

BOOT = 4416  # the size of a boot header: the table's place, right behind it


def full_word(name, offset, value, sealed=True):
    """A full image with a word changed and its checksums put right, but where asked the boot header's left as it was."""
    image = full(BOOT)
    put(image, offset, value)
    seal(image, BOOT + TABLE)
    seal(image, BOOT + HEADER)
    if sealed:
        seal_boot_header(image)
    case(name, image, BOOT)


case("full", full(BOOT), BOOT)
full_word("full_first_bytes", 0xC, 0xFFFFFFFF, sealed=False)
full_word("full_sum_of_1098_words", 0x1138, 1, sealed=False)
full_word("full_sum_of_1099_words", 0x1138, 1)
full_word("full_width_AA995567", 0x10, 0xAA995567)
full_word("full_table_key_A5C3C5A3", BOOT + TABLE + 0x40, 0xA5C3C5A3)
full_word("full_source_4415", 0x1C, 4415)
full_word("full_plm_total_336", 0x30, 336)
full_word("full_plm_total_337", 0x30, 337)
full_word("full_data_1100", BOOT + HEADER + 0x20, 1100)
