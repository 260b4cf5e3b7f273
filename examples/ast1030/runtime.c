/*
 * What compiled code asks for and a board without a C library lacks: copying and filling, and on ARM the division of 64-bit
 * numbers. A board with newlib or picolibc, or with compiler-rt, has them all. Compiled with -fno-builtin, so that the loops
 * are not turned into calls of themselves.
 */
#include <stddef.h>
#include <stdint.h>

void *memcpy(void *to, const void *from, size_t len)
{
    uint8_t *t = to;
    const uint8_t *f = from;
    while (len-- > 0)
        *t++ = *f++;
    return to;
}

void *memset(void *to, int byte, size_t len)
{
    uint8_t *t = to;
    while (len-- > 0)
        *t++ = (uint8_t)byte;
    return to;
}

/* ARM's names for them. The order of aeabi_memset's arguments is another. */
void __aeabi_memset(void *to, size_t len, int byte)
{
    memset(to, byte, len);
}

void __aeabi_memclr(void *to, size_t len)
{
    memset(to, 0, len);
}

void __aeabi_memcpy(void *to, const void *from, size_t len) __attribute__((alias("memcpy")));
void __aeabi_memcpy4(void *to, const void *from, size_t len) __attribute__((alias("memcpy")));
void __aeabi_memcpy8(void *to, const void *from, size_t len) __attribute__((alias("memcpy")));
void __aeabi_memclr4(void *to, size_t len) __attribute__((alias("__aeabi_memclr")));
void __aeabi_memclr8(void *to, size_t len) __attribute__((alias("__aeabi_memclr")));

/* The quotient; the remainder goes to *rest. Division by 0, which nobody asks for, gives all ones. */
__attribute__((used)) static uint64_t divide(uint64_t number, uint64_t by, uint64_t *rest)
{
    uint64_t quotient = 0, left = 0;
    for (int bit = 63; bit >= 0; bit--) {
        left = left << 1 | (number >> bit & 1);
        if (left >= by) {
            left -= by;
            quotient |= (uint64_t)1 << bit;
        }
    }
    *rest = left;
    return quotient;
}

/* Quotient in r0 and r1, remainder in r2 and r3: no C function gives back two numbers so. */
__attribute__((naked)) void __aeabi_uldivmod(void)
{
    __asm__ volatile("push {r4, lr}\n\t"
                     "sub sp, sp, #16\n\t"
                     "add r4, sp, #8\n\t"
                     "str r4, [sp]\n\t"
                     "bl divide\n\t"
                     "ldr r2, [sp, #8]\n\t"
                     "ldr r3, [sp, #12]\n\t"
                     "add sp, sp, #16\n\t"
                     "pop {r4, pc}");
}
