/* An image file in memory. */
#ifndef IMAGE_H
#define IMAGE_H

#include <stdbool.h>
#include <stddef.h>
#include <stdint.h>
#include <sys/stat.h>

struct image {
    const char *name;
    const uint8_t *bytes;        /* null where length is 0 */
    size_t length;               /* at most PDI_LONGEST_IMAGE + 1, which is enough for the refusal */
    dev_t device;                /* device and inode say whether another name is the same file */
    ino_t inode;
};

/* Maps the file read-only. Where that fails it says why on standard error. */
bool map_image(const char *name, struct image *image);
void unmap_image(struct image *image);

/* Whether a file just asked with stat is the image's own. */
bool is_image_file(const struct image *image, const struct stat *file);

#endif
