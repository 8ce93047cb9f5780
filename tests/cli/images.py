"""Writes the images of the tests into a directory, and their expected answers.

Usage: images.py DIRECTORY

Each image is NAME.pdi. cases.tsv has a line for each answer to expect: name, place, number, p. The bench image and its edits are in
bench_image.py, images of several images in owned_image.py; here are images of as many partitions as may be, and full ones.
"""

import os
import pathlib
import sys

sys.dont_write_bytecode = True  # nothing is left beside the sources
from bench_image import HEADER, IMAGE_HEADER, MOST, TABLE, bench, both_twins_bad, broken, decoy, edited, first_twin_bad
from bench_image import large, moved, packed, spanned, twins, two, with_block
from headers import put, put_boot_header, put_header, put_image_header, put_table
from owned_image import exchanged, owned, recounted

MOST_IMAGES = int(os.environ["PDI_MOST_IMAGES"])


def many(table=0):
    """As many partitions as may be, with values of many widths; each third has no load address, and each second its own hash block.

    A full image where the table leaves room for a boot header."""
    first = table + 192
    blocks = first + MOST * 128
    image = bytearray(blocks + MOST // 2 * 64)
    put_table(image, table, kind=b"FPDI" if table else b"PPDI", image_headers=table + 128, partitions=MOST, first=first)
    put_image_header(image, table + 128, first=first, partitions=MOST)
    for p in range(1, MOST + 1):
        at, start = first + 128 * (p - 1), len(image)
        image += bytes([p]) * (4 * p)
        loaded = p % 3 != 0
        block = (64, blocks + 64 * (p // 2 - 1)) if p % 2 == 0 else (0, 0)
        if block[0]:
            put(image, block[1], p)
        put_header(
            image,
            at,
            lengths=(p, p, p),
            data=start,
            load=p << (p + 25) if loaded else 0xFFFFFFFFFFFFFFFF,
            attributes=0x04000000 + p if p < 16 and loaded else 0x01000000 if loaded else 0x02000000,
            following=at + 128 if p < MOST else 0,
            execution=(1 << 2 * p) - 1,
            key=0xC3A5C573 if p == 7 else 0,
            block=block,
        )
    if table:
        put_boot_header(image)
    return image


def full(table=8192, plm_total=16):
    """A full image: boot header, PLM at 4416, table at `table`, one partition."""
    image = bytearray(table + 336)
    put_boot_header(image, plm_total)
    put_table(image, table, kind=b"FPDI", images=1, image_headers=table + 128, first=table + 192)
    put_image_header(image, table + 128, first=table + 192)
    put_header(image, table + 192, lengths=(4, 4, 4), data=table + 320, load=0xFFFC0000, execution=0xFFFC0010)
    image[table + 320 :] = bytes(range(16))
    return image


def table_cases():
    """The bench image, and edits of its table."""
    yield "bench", bench(), (0, 0, 0), (2, 3, 0), (208, 4, 0), (212, 3, 0)
    yield "empty", bytearray(), (0, 3, 0)
    yield "table_checksum", broken(TABLE + 0x30), (0, 4, 0)
    yield "version", edited({TABLE: 0x00020000}), (0, 5, 0)
    yield "partitions_0", edited({TABLE + 0x0C: 0}), (0, 6, 0)
    yield "partitions_over", edited({TABLE + 0x0C: MOST + 1}), (0, 6, 0)
    for size in 15, 17:
        yield f"image_header_size_{size}", edited({TABLE + 0x2C: 0x00200020 + (size << 8)}), (0, 6, 0)
    yield "table_key", edited({TABLE + 0x40: 0x5C3CA5A3}), (0, 7, 0)
    yield "optional_words", edited({TABLE + 0x58: 0xFFFFFFFC}), (0, 9, 0)


def header_cases():
    """Edits of the bench image's partition header, and a second one."""
    yield "next_48", edited({HEADER + 0x0C: 48}), (0, 10, 1)
    yield "header_checksum", broken(HEADER + 0x10), (0, 11, 1)
    yield "type_0", edited({HEADER + 0x24: 0x00000001}), (0, 12, 1)
    yield "free_bits", edited({HEADER + 0x24: 0x0400C001}), (0, 0, 0)
    yield "no_key", edited({HEADER + 0x44: 0xA5C3C5A4}), (0, 13, 1)
    yield "user_key", edited({HEADER + 0x44: 0xC3A5C573}), (0, 0, 0)
    yield "u_5", edited({HEADER + 4: 5}), (0, 14, 1)
    yield "t_5", edited({HEADER + 8: 5}), (0, 15, 1)
    yield "t_huge", edited({HEADER + 8: 0x40000000}), (0, 15, 1)
    yield "type_2_loaded", edited({HEADER + 0x24: 0x02000001}), (0, 16, 1)
    yield "type_2", edited({HEADER + 0x24: 0x02000001, HEADER + 0x18: 0xFFFFFFFF, HEADER + 0x1C: 0xFFFFFFFF}), (0, 0, 0)
    for kind in 1, 4, 5:
        yield f"loaded_{kind}", edited({HEADER + 0x24: kind << 24}), (0, 0, 0)
    for kind in 2, 3, 6, 7:
        ones = {HEADER + 0x18: 0xFFFFFFFF, HEADER + 0x1C: 0xFFFFFFFF}
        yield f"unloaded_{kind}", edited({HEADER + 0x24: kind << 24, **ones}), (0, 0, 0)
    yield "load_end", edited({HEADER + 0x18: 0xFFFFFFF0, HEADER + 0x1C: 0xFFFFFFFF}), (0, 0, 0)
    yield "load_past_end", edited({HEADER + 0x18: 0xFFFFFFF1, HEADER + 0x1C: 0xFFFFFFFF}), (0, 16, 1)
    yield "d_79", edited({HEADER + 0x20: 79}), (0, 18, 0)
    yield "block", with_block(1), (0, 0, 0)
    yield "block_index_2", with_block(2), (0, 17, 1)
    yield "block_52", with_block(1, length=52), (0, 17, 1)
    yield "two", two(0x00100010), (0, 0, 0)
    yield "two_clash", two(0x0010000F), (0, 19, 2)


def owner_cases():
    """Image headers: those of the bench image, and of several images."""
    yield "image_count_0", edited({IMAGE_HEADER + 4: 0}), (0, 20, 0)
    yield "image_count_2", edited({IMAGE_HEADER + 4: 2}), (0, 20, 0)
    yield "image_first_49", edited({IMAGE_HEADER: 49}), (0, 20, 0)
    yield "image_checksum", broken(IMAGE_HEADER + 0x3C), (0, 20, 0)
    yield "image_free_words", edited({IMAGE_HEADER + 4 * word: 0xFFFFFFFF for word in range(2, 15)}), (0, 0, 0)
    yield "owned", owned(1, 2, 1), (0, 0, 0)
    yield "owned_most", owned(*[1] * MOST_IMAGES), (0, 0, 0)
    yield "owned_over", recounted((1, 2, 1), 1, 2, 2), (0, 20, 0)
    yield "owned_under", recounted((1, 1, 2), 1, 1, 1), (0, 20, 0)
    yield "owned_otherwise", recounted((1, 2, 1), 1, 1, 2), (0, 20, 0)
    yield "owned_exchanged", exchanged(1, 2, 1), (0, 20, 0)


def layout_cases():
    """Images that are laid out otherwise, and full ones."""
    yield "packed", packed(), (0, 0, 0)
    yield "large", large(), (0, 0, 0)
    yield "spanned", spanned(), (0, 15, 1)
    yield "many", many(), (0, 0, 0)
    yield "full_many", many(table=8192), (8192, 0, 0), (0, 4, 0)
    yield "full", full(), (8192, 0, 0), (0, 4, 0)
    yield "full_bad", full(plm_total=15), (8192, 8, 0)
    yield "moved", moved(), (336, 0, 0)
    yield "twins", twins(), (0, 0, 0), (336, 0, 0)
    yield "first_twin_bad", first_twin_bad(), (0, 6, 0), (336, 0, 0)
    yield "both_twins_bad", both_twins_bad(), (0, 6, 0), (336, 14, 1)
    yield "decoy", decoy(), (0, 4, 0)


def cases():
    """Name, image, and one (place, number, p) or more."""
    yield from table_cases()
    yield from header_cases()
    yield from owner_cases()
    yield from layout_cases()


def main():
    directory = pathlib.Path(sys.argv[1])
    lines = []
    for name, image, *answers in cases():
        (directory / f"{name}.pdi").write_bytes(image)
        lines += ["\t".join(map(str, (name, *answer))) for answer in answers]
    (directory / "cases.tsv").write_text("".join(line + "\n" for line in lines))


if __name__ == "__main__":
    main()
