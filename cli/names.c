/* Names on standard error. A file may have any name, and a terminal takes control characters as commands: U+0001 to U+001F, U+007F and
 * U+0080 to U+009F, and some terminals also a byte from 0x80 to 0x9F that is part of no character. None of these may reach it, nor split
 * the line. Assumes a terminal that reads UTF-8. */
#include "names.h"

#include <stdbool.h>
#include <stddef.h>
#include <stdio.h>

/* The sound sequences of UTF-8: the Unicode Standard's table 3-7, without the control characters. No row has the overlong forms, the
 * surrogates, or what is over U+10FFFF. */
static const struct form {
    unsigned char first[2];      /* the least first byte, and the greatest */
    unsigned char second[2];     /* the same for the second byte; all later ones are 0x80 to 0xBF */
    size_t length;
} forms[] = {
    {{0x20, 0x7e}, {0, 0}, 1},
    {{0xc2, 0xc2}, {0xa0, 0xbf}, 2},
    {{0xc3, 0xdf}, {0x80, 0xbf}, 2},
    {{0xe0, 0xe0}, {0xa0, 0xbf}, 3},
    {{0xe1, 0xec}, {0x80, 0xbf}, 3},
    {{0xed, 0xed}, {0x80, 0x9f}, 3},
    {{0xee, 0xef}, {0x80, 0xbf}, 3},
    {{0xf0, 0xf0}, {0x90, 0xbf}, 4},
    {{0xf1, 0xf3}, {0x80, 0xbf}, 4},
    {{0xf4, 0xf4}, {0x80, 0x8f}, 4},
};

static bool is_within(unsigned char byte, const unsigned char *range)
{
    return byte >= range[0] && byte <= range[1];
}

/* Whether the bytes have this form. A name ends with a zero byte, which no form has, so that nothing is read behind it. */
static bool has_form(const unsigned char *bytes, const struct form *form)
{
    static const unsigned char later[] = {0x80, 0xbf};
    if (!is_within(bytes[0], form->first))
        return false;
    for (size_t i = 1; i < form->length; i++)
        if (!is_within(bytes[i], i == 1 ? form->second : later))
            return false;
    return true;
}

/* The length of the character at the start of these bytes, 0 if it is none that may be shown. */
static size_t character_length(const unsigned char *bytes)
{
    for (size_t i = 0; i < sizeof forms / sizeof forms[0]; i++)
        if (has_form(bytes, &forms[i]))
            return forms[i].length;
    return 0;
}

void put_name(const char *name)
{
    const unsigned char *bytes = (const unsigned char *)name;
    while (*bytes != 0) {
        size_t length = character_length(bytes);
        if (length == 0)
            fprintf(stderr, "\\x%02x", *bytes++);
        for (; length > 0; length--)
            putc(*bytes++, stderr);
    }
}
