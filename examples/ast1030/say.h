/* Words, numbers and bytes on the serial line. */
#ifndef SAY_H
#define SAY_H

#include <stdint.h>

void say(const char *text);
void say_line(const char *text);
void say_number(uint32_t number);
void say_hex(uint32_t number, unsigned digits);

/* A count with its noun: 1 step, 2 steps. */
void say_count(uint32_t count, const char *noun);

/* A value: "text" if all of it can be printed, otherwise its bytes in hex; - if it is empty. */
void say_value(const uint8_t *bytes, uint32_t len);

#endif
