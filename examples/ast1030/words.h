/* Reads a command's words. Each of these moves *at past what it read and the spaces behind it. 0: it is not there. */
#ifndef WORDS_H
#define WORDS_H

#include <stdint.h>

/* The most bytes of a value that can be sent on. The store takes 240 and refuses more. */
enum { VALUE_BYTES = 256 };

int read_word(const char **at, const char *word);
int read_number(const char **at, uint32_t most, uint32_t *number);

/* "text", in which \" is a quote and \\ a backslash; hex digits, two a byte; or - for no bytes. */
int read_value(const char **at, uint8_t *bytes, uint32_t *len);

int read_end(const char **at);

#endif
