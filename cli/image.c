/* Mapping the image file. Nothing is copied, so a 1 GiB image costs no memory of its own. Assumes that nobody changes the file meanwhile;
 * a file that is cut short under the mapping still ends in a message and status 2. */
#include "image.h"

#include <fcntl.h>
#include <signal.h>
#include <string.h>
#include <sys/mman.h>
#include <unistd.h>

#include "pdi.h"
#include "report.h"

/* A read of the mapping past the file's present end, or from a failing disk, raises SIGBUS. Only calls that are safe in a handler. */
static void end_on_bus_error(int signal_number)
{
    static const char line[] = "foliobriar: the image file was cut short, or its disk failed, while it was being read\n";
    (void)signal_number;
    ssize_t written = write(STDERR_FILENO, line, sizeof line - 1);
    (void)written;               /* if it fails, there is nobody left to tell */
    _exit(STATUS_TROUBLE);
}

static void catch_bus_errors(void)
{
    struct sigaction action;
    memset(&action, 0, sizeof action);
    action.sa_handler = end_on_bus_error;
    sigemptyset(&action.sa_mask);
    sigaction(SIGBUS, &action, NULL);
}

/* A file of no length that still gives a byte is one of the system's own, and can't be mapped. */
static bool map_nothing(int file, struct image *image)
{
    char byte;
    if (read(file, &byte, 1) != 0) {
        trouble(image->name, "states no length and cannot be mapped");
        return false;
    }
    image->bytes = NULL;
    image->length = 0;
    return true;
}

static bool map_open_file(int file, struct image *image)
{
    struct stat state;
    if (fstat(file, &state) != 0) {
        trouble_with_reason(image->name, "cannot be examined");
        return false;
    }
    if (!S_ISREG(state.st_mode)) {
        trouble(image->name, S_ISDIR(state.st_mode) ? "is a directory, not an image file" : "is not a regular file and cannot be mapped");
        return false;
    }
    image->device = state.st_dev;
    image->inode = state.st_ino;
    if (state.st_size == 0)
        return map_nothing(file, image);

    /* One byte over the longest image is enough for pdi_read to refuse it. */
    uint64_t length = (uint64_t)state.st_size;
    image->length = (size_t)(length > PDI_LONGEST_IMAGE ? PDI_LONGEST_IMAGE + 1 : length);
    void *bytes = mmap(NULL, image->length, PROT_READ, MAP_PRIVATE, file, 0);
    if (bytes == MAP_FAILED) {
        trouble_with_reason(image->name, "cannot be mapped");
        return false;
    }
    image->bytes = bytes;
    return true;
}

bool map_image(const char *name, struct image *image)
{
    image->name = name;
    /* Without O_NONBLOCK, a pipe that nobody writes to would be waited for instead of refused. */
    int file = open(name, O_RDONLY | O_CLOEXEC | O_NOCTTY | O_NONBLOCK);
    if (file < 0) {
        trouble_with_reason(name, "cannot be opened");
        return false;
    }
    catch_bus_errors();
    bool mapped = map_open_file(file, image);
    close(file);
    return mapped;
}

void unmap_image(struct image *image)
{
    if (image->length != 0)
        munmap((void *)image->bytes, image->length);
    image->bytes = NULL;
    image->length = 0;
}

bool is_image_file(const struct image *image, const struct stat *file)
{
    return file->st_dev == image->device && file->st_ino == image->inode;
}
