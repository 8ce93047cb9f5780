/* Writing OUT. A regular file is written under another name beside OUT and then renamed: whoever opens OUT finds the old file or the whole
 * body, also after a full disk. Anything else that OUT may be (a device, a pipe) is written straight. Assumes that SIGPIPE and SIGXFSZ are
 * ignored (main sees to it), so that a closed pipe or a file over its limit is an error of write. */
#include "output.h"

#include <errno.h>
#include <fcntl.h>
#include <signal.h>
#include <stdbool.h>
#include <stdio.h>
#include <stdlib.h>
#include <string.h>
#include <unistd.h>

enum { PIECE = 1 << 20 };        /* bytes for each write; between two of them a signal is heard */

/* Signals that end the command. They wait while an unfinished file lies beside OUT, so that it is removed first. */
static const int ending[] = {SIGHUP, SIGINT, SIGQUIT, SIGTERM};
enum { ENDING = sizeof ending / sizeof ending[0] };

static void hold_ending_signals(sigset_t *held, sigset_t *before)
{
    sigemptyset(held);
    for (size_t i = 0; i < ENDING; i++) {
        struct sigaction action;
        /* One that is ignored (nohup) stays so: held, it would look like a wish to end. */
        if (sigaction(ending[i], NULL, &action) == 0 && action.sa_handler != SIG_IGN)
            sigaddset(held, ending[i]);
    }
    sigprocmask(SIG_BLOCK, held, before);
}

/* Whether none of `held` came meanwhile. If one did, errno is EINTR. */
static bool may_go_on(const sigset_t *held)
{
    sigset_t waiting;
    sigemptyset(&waiting);
    sigpending(&waiting);
    for (size_t i = 0; i < ENDING; i++) {
        if (sigismember(held, ending[i]) == 1 && sigismember(&waiting, ending[i]) == 1) {
            errno = EINTR;
            return false;
        }
    }
    return true;
}

/* Leaves the reason in errno where it fails. */
static bool write_all(int file, const struct body *body, const sigset_t *held)
{
    size_t done = 0;
    while (done < body->length) {
        if (!may_go_on(held))
            return false;
        size_t left = body->length - done;
        ssize_t written = write(file, body->bytes + done, left < PIECE ? left : PIECE);
        if (written >= 0)
            done += (size_t)written;
        else if (errno != EINTR)
            return false;
    }
    return true;
}

/* The system answers EFAULT, and no SIGBUS comes, where a write meets bytes of the mapping that the file no longer has. */
static enum status trouble_writing(const struct image *image, const char *out)
{
    if (errno == EFAULT)
        return trouble(image->name, "was cut short, or its disk failed, while it was being read");
    return trouble_with_reason(out, "cannot be written");
}

static enum status write_straight(const struct image *image, const struct body *body, int file, const char *out)
{
    sigset_t none;
    sigemptyset(&none);
    return write_all(file, body, &none) ? STATUS_ACCEPTED : trouble_writing(image, out);
}

static enum status write_standard_output(const struct image *image, const struct body *body)
{
    struct stat state;
    if (fstat(STDOUT_FILENO, &state) == 0 && S_ISREG(state.st_mode) && is_image_file(image, &state))
        return trouble("standard output", "is the image file itself");
    return write_straight(image, body, STDOUT_FILENO, "standard output");
}

static enum status write_device(const struct image *image, const struct body *body, const char *out)
{
    int file = open(out, O_WRONLY | O_CLOEXEC | O_NOCTTY);
    if (file < 0)
        return trouble_with_reason(out, "cannot be written");
    enum status status = write_straight(image, body, file, out);
    if (close(file) != 0 && status == STATUS_ACCEPTED)
        status = trouble_with_reason(out, "cannot be written");
    return status;
}

/* A name for mkstemp in the directory of `out`. It is short, as the name of `out` may be as long as a name can be. */
static char *name_beside(const char *out)
{
    static const char pattern[] = ".foliobriar.XXXXXX";
    const char *slash = strrchr(out, '/');
    size_t directory = slash == NULL ? 0 : (size_t)(slash - out) + 1;
    char *name = malloc(directory + sizeof pattern);
    if (name != NULL) {
        memcpy(name, out, directory);
        memcpy(name + directory, pattern, sizeof pattern);
    }
    return name;
}

/* mkstemp makes a file for its owner only; OUT gets what any new file would. */
static bool give_usual_mode(int file)
{
    mode_t mask = umask(0);
    umask(mask);
    return fchmod(file, 0666 & ~mask) == 0;
}

/* Writes the body under the name `unfinished`, which mkstemp completes, and renames it. Removes it where anything fails. */
static bool write_and_rename(const struct body *body, char *unfinished, const char *out, const sigset_t *held)
{
    int file = mkstemp(unfinished);
    if (file < 0)
        return false;
    /* fsync, as some file systems tell of a full disk only then, and as the name must not get ahead of the bytes in a power cut. */
    bool good = give_usual_mode(file) && write_all(file, body, held) && fsync(file) == 0 && may_go_on(held);
    int reason = errno;
    if (close(file) != 0 && good) {
        good = false;
        reason = errno;
    }
    if (good && rename(unfinished, out) == 0)
        return true;
    if (good)
        reason = errno;
    unlink(unfinished);
    errno = reason;
    return false;
}

static enum status write_file(const struct image *image, const struct body *body, const char *out)
{
    char *unfinished = name_beside(out);
    if (unfinished == NULL)
        return trouble_with_reason(out, "cannot be written");
    sigset_t held;
    sigset_t before;
    hold_ending_signals(&held, &before);
    bool good = write_and_rename(body, unfinished, out, &held);
    int reason = errno;
    sigprocmask(SIG_SETMASK, &before, NULL);     /* a signal that waited ends the command here */
    free(unfinished);
    errno = reason;
    return good ? STATUS_ACCEPTED : trouble_writing(image, out);
}

/* A link stays a link: the file that it leads to is the one that is replaced. */
static enum status write_over(const struct image *image, const struct body *body, const char *out)
{
    /* The directory decides over a rename. A file that is write-protected is meant to stay all the same. */
    if (access(out, W_OK) != 0)
        return trouble_with_reason(out, "cannot be written");
    char *real = realpath(out, NULL);
    if (real == NULL)
        return trouble_with_reason(out, "cannot be written");
    enum status status = write_file(image, body, real);
    free(real);
    return status;
}

enum status write_body(const struct image *image, const struct body *body, const char *out)
{
    if (strcmp(out, "-") == 0)
        return write_standard_output(image, body);
    struct stat state;
    if (stat(out, &state) != 0) {
        if (errno != ENOENT)
            return trouble_with_reason(out, "cannot be written");
        if (lstat(out, &state) == 0)
            return trouble(out, "is a link that leads to no file");
        return write_file(image, body, out);
    }
    if (is_image_file(image, &state))
        return trouble(out, "is the image file itself");
    if (S_ISREG(state.st_mode))
        return write_over(image, body, out);
    return write_device(image, body, out);
}
