#include "words.h"

static int ends_word(char c)
{
    return c == ' ' || c == '\0';
}

/* The word ends here: past the spaces. */
static int past(const char **at, const char *end)
{
    if (!ends_word(*end))
        return 0;
    while (*end == ' ')
        end++;
    *at = end;
    return 1;
}

int read_word(const char **at, const char *word)
{
    const char *c = *at;
    for (; *word != '\0'; word++)
        if (*c++ != *word)
            return 0;
    return past(at, c);
}

int read_number(const char **at, uint32_t most, uint32_t *number)
{
    const char *c = *at;
    uint32_t n = 0;
    if (ends_word(*c))
        return 0;
    for (; *c >= '0' && *c <= '9'; c++) {
        n = 10 * n + (uint32_t)(*c - '0');
        if (n > most)
            return 0;
    }
    *number = n;
    return past(at, c);
}

static int digit_of(char c)
{
    if (c >= '0' && c <= '9')
        return c - '0';
    c |= 0x20;
    return c >= 'a' && c <= 'f' ? c - 'a' + 10 : -1;
}

static int read_hex(const char **at, uint8_t *bytes, uint32_t *len)
{
    const char *c = *at;
    for (*len = 0; !ends_word(*c); c += 2, ++*len) {
        const int high = digit_of(c[0]), low = high < 0 ? -1 : digit_of(c[1]);
        if (low < 0 || *len == VALUE_BYTES)
            return 0;
        bytes[*len] = (uint8_t)(high << 4 | low);
    }
    return *len > 0 && past(at, c);
}

static int read_text(const char **at, uint8_t *bytes, uint32_t *len)
{
    const char *c = *at + 1;
    for (*len = 0; *c != '"'; c++, ++*len) {
        if (*c == '\\' && (c[1] == '"' || c[1] == '\\'))
            c++;
        if (*c == '\0' || *len == VALUE_BYTES)
            return 0;
        bytes[*len] = (uint8_t)*c;
    }
    return past(at, c + 1);
}

int read_value(const char **at, uint8_t *bytes, uint32_t *len)
{
    *len = 0;
    if (read_word(at, "-"))
        return 1;
    return **at == '"' ? read_text(at, bytes, len) : read_hex(at, bytes, len);
}

int read_end(const char **at)
{
    return **at == '\0';
}
