#include "uart.h"

/* A 16550, its registers four bytes apart. */
#define UART(number) (*(volatile uint32_t *)(0x7E784000u + 4 * (number)))

enum { DATA = 0, INTERRUPTS = 1, FIFO = 2, LINE = 3, STATUS = 5 };
enum { FIFO_ON_AND_EMPTY = 0x07, LINE_8_BITS = 0x03 };
enum { STATUS_CAME_IN = 0x01, STATUS_MAY_SEND = 0x20, STATUS_ALL_SENT = 0x40 };

/* What came in and was not asked for yet. A power of two. */
enum { WAITING = 1024 };
static char waiting[WAITING];
static uint32_t first, last;

void uart_begin(void)
{
    UART(INTERRUPTS) = 0;
    UART(LINE) = LINE_8_BITS;
    UART(FIFO) = FIFO_ON_AND_EMPTY;
}

void uart_put(char c)
{
    while ((UART(STATUS) & STATUS_MAY_SEND) == 0)
        uart_poll();
    UART(DATA) = (uint8_t)c;
}

void uart_flush(void)
{
    while ((UART(STATUS) & STATUS_ALL_SENT) == 0)
        uart_poll();
}

void uart_poll(void)
{
    while (last - first < WAITING && (UART(STATUS) & STATUS_CAME_IN) != 0)
        waiting[last++ % WAITING] = (char)UART(DATA);
}

char uart_get(void)
{
    while (first == last)
        uart_poll();
    return waiting[first++ % WAITING];
}
