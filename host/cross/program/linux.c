/* Linux without a C library: x86-64, AArch64, RISC-V 64. The stream is standard output, words are standard error. */
#include "program.h"

void begin(const uintptr_t *stack);

#if defined(__x86_64__)

__asm__(".globl _start\n_start: mov %rsp, %rdi\nand $-16, %rsp\ncall begin\n");
enum { WRITE = 1, EXIT = 60 };

static long system_call(long number, long a, long b, long c)
{
    long result;
    __asm__ volatile("syscall" : "=a"(result) : "a"(number), "D"(a), "S"(b), "d"(c) : "rcx", "r11", "memory");
    return result;
}

#elif defined(__aarch64__)

__asm__(".globl _start\n_start: mov x0, sp\nbl begin\n");
enum { WRITE = 64, EXIT = 93 };

static long system_call(long number, long a, long b, long c)
{
    register long x8 __asm__("x8") = number, x0 __asm__("x0") = a, x1 __asm__("x1") = b, x2 __asm__("x2") = c;
    __asm__ volatile("svc 0" : "+r"(x0) : "r"(x8), "r"(x1), "r"(x2) : "memory");
    return x0;
}

#else

__asm__(".globl _start\n_start: mv a0, sp\ncall begin\n");
enum { WRITE = 64, EXIT = 93 };

static long system_call(long number, long a, long b, long c)
{
    register long a7 __asm__("a7") = number, a0 __asm__("a0") = a, a1 __asm__("a1") = b, a2 __asm__("a2") = c;
    __asm__ volatile("ecall" : "+r"(a0) : "r"(a7), "r"(a1), "r"(a2) : "memory");
    return a0;
}

#endif

static void write_all(int to, const uint8_t *bytes, uint32_t len)
{
    while (len != 0) {
        const long written = system_call(WRITE, to, (long)(uintptr_t)bytes, (long)len);
        if (written <= 0)
            platform_exit(2);
        bytes += written;
        len -= (uint32_t)written;
    }
}

void platform_write(const uint8_t *bytes, uint32_t len)
{
    write_all(1, bytes, len);
}

void platform_say(const char *text)
{
    uint32_t len = 0;
    while (text[len] != 0)
        len++;
    write_all(2, (const uint8_t *)text, len);
}

void platform_exit(int code)
{
    for (;;)
        system_call(EXIT, code, 0, 0);
}

/* The number of words, then the words: the program's name and its three numbers. */
void begin(const uintptr_t *stack)
{
    uint32_t numbers[3] = {0, 0, 0};
    for (uintptr_t i = 2; i <= stack[0] && i < 5; i++) {
        const char *word = (const char *)stack[i];
        numbers[i - 2] = decimal(&word);
    }
    program(numbers[0], numbers[1], numbers[2]);
}
