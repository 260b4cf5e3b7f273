/* A board without a system: Cortex-M and RISC-V 32 in QEMU. The stream is a file and words are the console, by semihosting. */
#include "program.h"

enum { OPEN = 0x01, WRITE0 = 0x04, WRITE = 0x05, COMMAND_LINE = 0x15, EXIT = 0x18 };
enum { CREATE_BINARY = 5, STOPPED = 0x20026, FAULT = 0x20023 };

extern char stack_top[];
void begin(void);
void trapped(void);

#if defined(__arm__)

static uintptr_t semihost(uintptr_t operation, const void *block)
{
    register uintptr_t r0 __asm__("r0") = operation;
    register const void *r1 __asm__("r1") = block;
    __asm__ volatile("bkpt 0xab" : "+r"(r0) : "r"(r1) : "memory");
    return r0;
}

/* The stack's top, reset, and the exceptions, all of which end the program. */
struct vectors {
    char *top;
    void (*handlers[15])(void);
};

__attribute__((section(".vectors"), used)) static const struct vectors vectors = {
    stack_top,
    {begin, trapped, trapped, trapped, trapped, trapped, trapped, trapped, trapped, trapped, trapped, trapped, trapped,
     trapped, trapped}};

#else

__asm__(".section .vectors, \"ax\"\n.globl _start\n"
        "_start: la sp, stack_top\nla t0, trapped\ncsrw mtvec, t0\ncall begin\n.text\n");

static uintptr_t semihost(uintptr_t operation, const void *block)
{
    register uintptr_t a0 __asm__("a0") = operation;
    register const void *a1 __asm__("a1") = block;
    __asm__ volatile(".balign 16\n.option push\n.option norvc\nslli x0, x0, 0x1f\nebreak\nsrai x0, x0, 7\n.option pop\n"
                     : "+r"(a0)
                     : "r"(a1)
                     : "memory");
    return a0;
}

#endif

static uintptr_t file;

void platform_write(const uint8_t *bytes, uint32_t len)
{
    const uintptr_t block[] = {file, (uintptr_t)bytes, len};
    if (len != 0 && semihost(WRITE, block) != 0)
        platform_exit(2);
}

void platform_say(const char *text)
{
    semihost(WRITE0, text);
}

void platform_exit(int code)
{
    for (;;)
        semihost(EXIT, (const void *)(uintptr_t)(code == 0 ? STOPPED : FAULT));
}

__attribute__((aligned(4))) void trapped(void)
{
    flush_calls();
    say("trapped after call ");
    say_number(calls_made());
    say(" began\n");
    platform_exit(2);
}

/* The command line is the program's name and its three numbers. */
void begin(void)
{
    static const char name[] = "stream";
    static char line[64];
    const uintptr_t open[] = {(uintptr_t)name, CREATE_BINARY, sizeof name - 1};
    const uintptr_t asked[] = {(uintptr_t)line, sizeof line};
    const char *at = line;
    uint32_t rounds, limit;
    file = semihost(OPEN, open);
    if (file == UINTPTR_MAX || semihost(COMMAND_LINE, asked) != 0)
        platform_exit(2);
    while (*at != ' ' && *at != 0)
        at++;
    rounds = decimal(&at);
    limit = decimal(&at);
    program(rounds, limit, decimal(&at));
}
