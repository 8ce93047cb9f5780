/* Linked around the command's own calls of close, write and fsync (ld --wrap): at the first of the calls that FAULT_IN names, the signal
 * FAULT_SIGNAL comes or the file FAULT_CUT is cut to nothing. So a test meets that very moment, however fast the machine is. */
#include <signal.h>
#include <stdbool.h>
#include <stdlib.h>
#include <string.h>
#include <unistd.h>

int __real_close(int file);
ssize_t __real_write(int file, const void *bytes, size_t length);
int __real_fsync(int file);
int __wrap_close(int file);
ssize_t __wrap_write(int file, const void *bytes, size_t length);
int __wrap_fsync(int file);

static void come(const char *call)
{
    static bool came;
    const char *in = getenv("FAULT_IN");
    const char *number = getenv("FAULT_SIGNAL");
    const char *name = getenv("FAULT_CUT");
    if (came || in == NULL || strcmp(in, call) != 0)
        return;
    came = true;
    if (number != NULL)
        raise(atoi(number));
    if (name != NULL && truncate(name, 0) != 0)
        abort();
}

int __wrap_close(int file)
{
    come("close");
    return __real_close(file);
}

ssize_t __wrap_write(int file, const void *bytes, size_t length)
{
    come("write");
    return __real_write(file, bytes, length);
}

int __wrap_fsync(int file)
{
    come("fsync");
    return __real_fsync(file);
}
