/* The serial line, UART 5 of the AST1030: 8 bits, no parity, at the rate that the boot ROM has set. */
#ifndef UART_H
#define UART_H

#include <stdint.h>

void uart_begin(void);

void uart_put(char c);

/* Waits until the last byte has left the board. */
void uart_flush(void);

/* Fetches what has come in since, so that nothing is lost during flash jobs: call it between steps. */
void uart_poll(void);

/* Waits for the next byte. */
char uart_get(void);

#endif
