/* Names of files and words of the command line, as a terminal may see them. */
#ifndef NAMES_H
#define NAMES_H

/* Writes the name to standard error as it is, save that each byte of a control character, and each that is no part of sound UTF-8, is
 * written as \x and two hexadecimal digits. */
void put_name(const char *name);

#endif
