"""The bench image of document 01 and images made from it by edits.

A checksum is put right after an edit unless the edit is of the checksum itself. The limits are those of pdi.h, from the environment
(limits.sh).
"""

import os

from headers import put, put_header, put_image_header, put_table, seal, seal_image_header

TABLE, IMAGE_HEADER, HEADER = 0, 128, 192  # where the bench image has them
MOST = int(os.environ["PDI_MOST_PARTITIONS"])
LONGEST = int(os.environ["PDI_LONGEST_IMAGE"])


def bench():
    image = bytearray(336)
    put_table(image, TABLE, image_headers=IMAGE_HEADER, first=HEADER)
    put_image_header(image, IMAGE_HEADER, first=HEADER)
    put_header(image, HEADER, lengths=(4, 4, 4), data=320, load=0x00100000)
    image[320:336] = bytes(range(16))
    return image


def edited(edits, image=None):
    """The bench image with words changed, {offset: word}, and its three checksums put right."""
    image = bench() if image is None else image
    for offset, word in edits.items():
        put(image, offset, word)
    seal(image, TABLE)
    seal_image_header(image, IMAGE_HEADER)
    seal(image, HEADER)
    return image


def broken(offset):
    """The bench image with a byte changed and no checksum put right."""
    image = bench()
    image[offset] ^= 1
    return image


def with_block(index, length=64):
    image = bench() + bytes(64)
    put(image, 336, index)
    return edited({HEADER + 0x60: length, HEADER + 0x64: 84}, image)


def two(load):
    """The bench image with a second partition of one word, of the same image."""
    image = bench() + bytes(132)
    put_header(image, 336, lengths=(1, 1, 1), data=464, load=load)
    image[464:468] = b"tail"
    return edited({TABLE + 0x0C: 2, IMAGE_HEADER + 4: 2, HEADER + 0x0C: 84}, image)


def packed():
    """A partition whose body, loaded bytes and span differ: 5 words stored of 7, 3 loaded."""
    image = bench() + bytes(12)
    image[320:348] = bytes(range(65, 93))
    return edited({HEADER: 5, HEADER + 4: 3, HEADER + 8: 7}, image)


def large():
    """The bench image with a partition that takes 1 MiB."""
    image = bench() + bytes((1 << 20) - 16)
    image[-4:] = b"last"
    words = 1 << 18
    return edited({HEADER: words, HEADER + 4: words, HEADER + 8: words}, image)


def spanned():
    """The front of an image as long as may be, whose partition takes all the rest."""
    words = (LONGEST - 320) // 4
    return edited({HEADER: words, HEADER + 4: words, HEADER + 8: words})


def moved(place=336):
    """The bench image with its table moved behind all else."""
    image = bench() + bytes(place + 128 - 336)
    image[place : place + 128] = image[0:128]
    image[0:128] = bytes(128)
    return image


def twins():
    """The bench image with a second, equal table at 336."""
    image = bench()
    return image + image[0:128]


def first_twin_bad():
    image = twins()
    put(image, TABLE + 0x0C, MOST + 1)
    seal(image, TABLE)
    return image


def both_twins_bad():
    """Two candidates: a partition too many at 0, and at 336 a sound table whose partition has its lengths out of order."""
    image = first_twin_bad()
    put(image, HEADER + 4, 5)
    seal(image, HEADER)
    return image


def decoy():
    """Version and kind stand at 0, but the checksum is wrong: no candidate."""
    return broken(TABLE + 0x30)
