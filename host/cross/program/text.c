#include "program.h"

void say(const char *text)
{
    platform_say(text);
}

void say_number(uint64_t number)
{
    char text[21];
    int at = 20;
    text[at] = 0;
    do {
        text[--at] = (char)('0' + (int)(number % 10));
        number /= 10;
    } while (number != 0);
    say(text + at);
}

void say_hex(const uint8_t *bytes, uint32_t len)
{
    static const char digits[] = "0123456789abcdef";
    for (uint32_t i = 0; i < len; i++) {
        const char text[] = {' ', digits[bytes[i] >> 4], digits[bytes[i] & 15], 0};
        say(text);
    }
}

/* The number that the text begins with, after spaces; the text goes on behind it. */
uint32_t decimal(const char **text)
{
    uint32_t number = 0;
    while (**text == ' ')
        ++*text;
    for (; **text >= '0' && **text <= '9'; ++*text)
        number = number * 10 + (uint32_t)(**text - '0');
    return number;
}

void failed(const char *file, int line, const char *what)
{
    flush_calls();
    say(file);
    say(":");
    say_number((uint64_t)line);
    say(": after call ");
    say_number(calls_made());
    say(" this must hold: ");
    say(what);
    say("\n");
    platform_exit(1);
}
