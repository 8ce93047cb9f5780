"""Images of several images, each the owner of a run of the partitions, and ways to break rule 20 in them."""

from headers import put, put_header, put_image_header, put_table, seal_image_header

FIRST = 128  # where the first image header lies, behind the table at 0; all others follow


def owned(*counts):
    """Images that own so many partitions each. A partition is one word. Partition headers lie backwards: runs follow the chain alone."""
    partitions = sum(counts)
    headers = FIRST + 64 * len(counts)
    data = headers + 128 * partitions
    chain = list(range(headers, data, 128))[::-1]
    image = bytearray(data + 4 * partitions)
    put_table(image, 0, images=len(counts), image_headers=FIRST, partitions=partitions, first=chain[0])
    for i, count in enumerate(counts):
        put_image_header(image, FIRST + 64 * i, first=chain[sum(counts[:i])], partitions=count)
    for i, (at, following) in enumerate(zip(chain, chain[1:] + [0])):
        put_header(image, at, lengths=(1, 1, 1), data=data + 4 * i, load=4 * i, following=following)
    return image


def recounted(counts, *stated):
    """owned(*counts) whose image headers state other numbers of partitions."""
    image = owned(*counts)
    for i, count in enumerate(stated):
        put(image, FIRST + 64 * i + 4, count)
        seal_image_header(image, FIRST + 64 * i)
    return image


def exchanged(*counts):
    """owned(*counts) whose last two image headers have changed places."""
    image = owned(*counts)
    last = FIRST + 64 * (len(counts) - 1)
    image[last - 64 : last + 64] = image[last : last + 64] + image[last - 64 : last]
    return image
