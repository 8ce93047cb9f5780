/* How much stack each call of the archive takes on one image: a line with the call's name and the bytes for each. usage: stack FILE PLACE
 *
 * A call runs on a stack of its own that holds the same byte everywhere. How far below the calling frame another byte is found afterwards
 * is what was used, with the few bytes of that frame. Each call is made once before: the loader's search for the C library's functions,
 * which takes stack in the first call only, is no part of it. */
#include <inttypes.h>
#include <stdio.h>
#include <stdlib.h>
#include <string.h>
#include <sys/mman.h>
#include <ucontext.h>

#include "pdi.h"

enum { STACK = 1 << 20, KNOWN = 5000 };

static uint8_t *stack;
static uint8_t *frame;           /* of the function that makes the call */
static uint8_t *image;
static size_t length;
static uint64_t place;
static uint64_t answer;

/* Its use is known, so it shows whether the measure is right. */
static void call_known(void)
{
    volatile uint8_t bytes[KNOWN];
    frame = __builtin_frame_address(0);
    for (size_t i = 0; i < KNOWN; i++)
        bytes[i] = 1;
    answer = bytes[0];
}

static void call_read(void)
{
    static uint8_t rows[PDI_ROWS_BYTES];
    frame = __builtin_frame_address(0);
    answer = pdi_read(image, length, place, rows, sizeof rows);
}

static void call_bill(void)
{
    frame = __builtin_frame_address(0);
    answer = pdi_bill(image, length, place);
}

static void call_body_length(void)
{
    frame = __builtin_frame_address(0);
    answer = pdi_body_length(image, length, place, 1);
}

static void call_owner(void)
{
    frame = __builtin_frame_address(0);
    answer = pdi_owner(image, length, place, 1);
}

static size_t used_over(uint8_t byte, void (*call)(void))
{
    static ucontext_t here, there;
    memset(stack, byte, STACK);
    if (getcontext(&there) != 0)
        abort();
    there.uc_stack.ss_sp = stack;
    there.uc_stack.ss_size = STACK;
    there.uc_link = &here;
    makecontext(&there, call, 0);
    if (swapcontext(&here, &there) != 0)
        abort();
    const uint8_t *deepest = stack;
    while (deepest < frame && *deepest == byte)
        deepest++;
    return (size_t)(frame - deepest);
}

/* The deepest byte that is written may be the very byte that was there, but not for two bytes. */
static size_t used_by(void (*call)(void))
{
    size_t one = used_over(0xA5, call);
    size_t other = used_over(0x5A, call);
    return one > other ? one : other;
}

static void read_file(const char *name)
{
    FILE *file = fopen(name, "rb");
    if (file == NULL || fseek(file, 0, SEEK_END) != 0)
        exit(2);
    length = (size_t)ftell(file);
    image = malloc(length);
    rewind(file);
    if (image == NULL || fread(image, 1, length, file) != length || fclose(file) != 0)
        exit(2);
}

/* Only the path of an accepted image goes through all rules. */
static void measure(const char *name, void (*call)(void), int accepts_with_0)
{
    call();
    if ((answer == 0) != accepts_with_0) {
        fputs("stack: the image is refused, so nothing is measured\n", stderr);
        exit(2);
    }
    printf("%s %zu\n", name, used_by(call));
}

int main(int argc, char **argv)
{
    if (argc != 3)
        return 2;
    read_file(argv[1]);
    place = strtoull(argv[2], NULL, 10);
    stack = mmap(NULL, STACK, PROT_READ | PROT_WRITE, MAP_PRIVATE | MAP_ANONYMOUS, -1, 0);
    if (stack == MAP_FAILED)
        return 2;
    size_t known = used_by(call_known);
    if (known < KNOWN || known > KNOWN + 256) {
        fprintf(stderr, "stack: %zu bytes are found where some %d are used, so nothing is measured\n", known, (int)KNOWN);
        return 2;
    }
    measure("pdi_read", call_read, 1);
    measure("pdi_bill", call_bill, 0);
    measure("pdi_body_length", call_body_length, 0);
    measure("pdi_owner", call_owner, 0);
    return fflush(stdout) == 0 ? 0 : 2;
}
