/* What the board does before main and when it cannot go on. */
#ifndef START_H
#define START_H

#include <stdint.h>

/* Never comes back. */
void stop(void);

/* Bytes of stack that were ever used, of so many. */
uint32_t stack_used(void);
uint32_t stack_bytes(void);

#endif
