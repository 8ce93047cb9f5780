"""Writes the headers of an image, for the makers of images beside it. The words and offsets are written out here and not taken from the
command's sources, so that a fault there can't hide.
"""

import struct


def put(image, offset, *words):
    struct.pack_into(f"<{len(words)}I", image, offset, *words)


def seal(image, offset, words=32):
    """Puts the checksum of a table or partition header right, or of a header of so many words: its last word, from all others."""
    put(image, offset + 4 * (words - 1), sum(struct.unpack_from(f"<{words - 1}I", image, offset)) & 0xFFFFFFFF)


def seal_image_header(image, at):
    seal(image, at, 16)


def put_table(image, place, *, kind=b"PPDI", images=1, image_headers, partitions=1, first):
    put(image, place, 0x00010000, images, image_headers // 4, partitions, first // 4)
    image[place + 0x28 : place + 0x2C] = kind
    put(image, place + 0x2C, 0x00201020)
    seal(image, place)


def put_image_header(image, at, *, first, partitions=1):
    """An image that owns so many partitions, the first with its header at byte `first`."""
    put(image, at, first // 4, partitions)
    seal_image_header(image, at)


def put_header(image, at, *, lengths, data, load, attributes=0x04000001, following=0, execution=0, key=0, block=(0, 0)):
    """`lengths` are encrypted, unencrypted and total words; `data`, `following` and the block's offset are bytes."""
    put(image, at, *lengths, following // 4, execution & 0xFFFFFFFF, execution >> 32, load & 0xFFFFFFFF, load >> 32, data // 4, attributes)
    put(image, at + 0x44, key)
    put(image, at + 0x60, block[0], block[1] // 4)
    seal(image, at)


def seal_boot_header(image):
    put(image, 0x113C, -sum(struct.unpack_from("<1099I", image, 0x10)) & 0xFFFFFFFF)


def put_boot_header(image, plm_total=16):
    put(image, 0x10, 0xAA995566)
    image[0x14:0x18] = b"XNLX"
    put(image, 0x18, 0, 4416, 0, 4, 4, 16, plm_total)
    seal_boot_header(image)
