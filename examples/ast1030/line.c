#include "line.h"

#include "say.h"
#include "uart.h"

enum { CONTROL_C = 3, BELL = 7, BACKSPACE = 8, CONTROL_U = 21, DELETE = 127 };

/* A LF right after a CR belongs to the line before. */
static char get(void)
{
    static char before;
    char c = uart_get();
    if (c == '\n' && before == '\r')
        c = uart_get();
    before = c;
    return c;
}

static unsigned take_back(unsigned len, unsigned count)
{
    for (; count > 0 && len > 0; count--, len--)
        say("\b \b");
    return len;
}

int line_read(char *line)
{
    unsigned len = 0;
    int fits = 1;
    say("> ");
    uart_flush();
    for (;;) {
        const char c = get();
        if (c == '\r' || c == '\n')
            break;
        if (c == BACKSPACE || c == DELETE)
            len = take_back(len, 1);
        else if (c == CONTROL_U || c == CONTROL_C)
            len = take_back(len, LINE_BYTES);
        else if (c < ' ' || c > '~')
            uart_put(BELL);
        else if (len + 1 == LINE_BYTES)
            fits = 0;
        else
            uart_put(line[len++] = c);
    }
    line[len] = '\0';
    say_line("");
    return fits;
}
