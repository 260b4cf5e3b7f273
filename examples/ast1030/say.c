#include "say.h"

#include "uart.h"

void say(const char *text)
{
    while (*text != '\0')
        uart_put(*text++);
}

void say_line(const char *text)
{
    say(text);
    say("\r\n");
}

void say_number(uint32_t number)
{
    char digits[11];
    unsigned i = sizeof digits - 1;
    digits[i] = '\0';
    do
        digits[--i] = (char)('0' + number % 10);
    while ((number /= 10) != 0);
    say(digits + i);
}

void say_hex(uint32_t number, unsigned digits)
{
    while (digits-- > 0)
        uart_put("0123456789abcdef"[number >> 4 * digits & 15]);
}

void say_count(uint32_t count, const char *noun)
{
    say_number(count);
    say(" ");
    say(noun);
    if (count != 1)
        say("s");
}

static int is_text(const uint8_t *bytes, uint32_t len)
{
    for (uint32_t i = 0; i < len; i++)
        if (bytes[i] < ' ' || bytes[i] > '~')
            return 0;
    return 1;
}

void say_value(const uint8_t *bytes, uint32_t len)
{
    const int text = is_text(bytes, len);
    if (len == 0) {
        say("-");
        return;
    }
    if (text)
        say("\"");
    for (uint32_t i = 0; i < len; i++) {
        if (!text) {
            say_hex(bytes[i], 2);
            continue;
        }
        if (bytes[i] == '"' || bytes[i] == '\\')
            say("\\");
        uart_put((char)bytes[i]);
    }
    if (text)
        say("\"");
}
