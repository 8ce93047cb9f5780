/* The standard files: 0, 1 and 2 open from the start, and at the end a look at whether all that was printed arrived. */
#include "standard_files.h"

#include <errno.h>
#include <fcntl.h>
#include <stdbool.h>
#include <stdio.h>
#include <unistd.h>

void reserve_standard_files(void)
{
    /* The wrong way round on purpose: a read of 0 or a write to 1 or 2 still fails, as it would on a closed file. */
    for (int file = STDIN_FILENO; file <= STDERR_FILENO; file++)
        if (fcntl(file, F_GETFD) < 0 && errno == EBADF && open("/dev/null", file == STDIN_FILENO ? O_WRONLY : O_RDONLY) != file)
            _exit(STATUS_TROUBLE);
}

enum status finish_standard_output(enum status status)
{
    bool failed = ferror(stdout) != 0;
    errno = 0;
    if (fclose(stdout) != 0)
        failed = true;
    if (!failed)
        return status;
    if (errno == 0)
        return trouble("standard output", "cannot be written");
    return trouble_with_reason("standard output", "cannot be written");
}
