#include "start.h"

#include "say.h"

extern int main(void);
void reset(void);

/* Set by the linker script. */
extern uint32_t bss_begin[], bss_end[], stack_begin[], stack_end[];

/* What unused stack holds. */
#define PAINT 0xA5A5A5A5u

void stop(void)
{
    for (;;)
        __asm__ volatile("wfi");
}

/* The program is loaded into RAM with its data in place. Paints up to its own frame. */
void reset(void)
{
    for (uint32_t *word = bss_begin; word < bss_end; word++)
        *word = 0;
    uint32_t *frame = __builtin_frame_address(0);
    for (uint32_t *word = stack_begin; word < frame - 16; word++)
        *word = PAINT;
    main();
    stop();
}

static void unexpected(void)
{
    say_line("The processor met a fault or an interrupt that nobody expects. Stopped.");
    stop();
}

uint32_t stack_used(void)
{
    const uint32_t *word = stack_begin;
    while (word < stack_end && *word == PAINT)
        word++;
    return (uint32_t)(stack_end - word) * 4;
}

uint32_t stack_bytes(void)
{
    return (uint32_t)(stack_end - stack_begin) * 4;
}

/* Where the stack begins, then where to go on reset, NMI, faults, and the processor's other exceptions. */
#define TO(function) ((const void *)(function))
__attribute__((section(".vectors"), used)) static const void *const vectors[16] = {
    stack_end,      TO(reset),      TO(unexpected), TO(unexpected), TO(unexpected), TO(unexpected), TO(unexpected), 0, 0, 0, 0,
    TO(unexpected), TO(unexpected), 0,              TO(unexpected), TO(unexpected),
};
