/*
 * What the library leaves to its surroundings on the targets here: bytes copied and set, and division and multiplication
 * that the processor lacks. A firmware has them from its C library and libgcc or compiler-rt.
 */
#include <stddef.h>
#include <stdint.h>

void *memcpy(void *to, const void *from, size_t len);
void *memset(void *to, int byte, size_t len);

void *memcpy(void *to, const void *from, size_t len)
{
    uint8_t *t = to;
    const uint8_t *f = from;
    for (size_t i = 0; i < len; i++)
        t[i] = f[i];
    return to;
}

void *memset(void *to, int byte, size_t len)
{
    uint8_t *t = to;
    for (size_t i = 0; i < len; i++)
        t[i] = (uint8_t)byte;
    return to;
}

#if defined(__arm__) || (defined(__riscv) && __riscv_xlen == 32)

/* Bit by bit. What is divided by 0 is not asked. */
static uint64_t divide(uint64_t number, uint64_t by, uint64_t *rest)
{
    uint64_t quotient = 0, part = 0;
    for (int bit = 0; bit < 64; bit++) {
        part = part << 1 | number >> 63;
        number <<= 1;
        quotient <<= 1;
        if (part >= by) {
            part -= by;
            quotient |= 1;
        }
    }
    *rest = part;
    return quotient;
}

uint64_t __udivdi3(uint64_t number, uint64_t by);
uint64_t __umoddi3(uint64_t number, uint64_t by);

uint64_t __udivdi3(uint64_t number, uint64_t by)
{
    uint64_t rest;
    return divide(number, by, &rest);
}

uint64_t __umoddi3(uint64_t number, uint64_t by)
{
    uint64_t rest;
    divide(number, by, &rest);
    return rest;
}

#endif

#if defined(__arm__)

void __aeabi_memcpy(void *to, const void *from, size_t len);
void __aeabi_memset(void *to, size_t len, int byte);
void __aeabi_memclr(void *to, size_t len);
uint32_t __aeabi_uidiv(uint32_t number, uint32_t by);
uint64_t __aeabi_uidivmod(uint32_t number, uint32_t by);
uint64_t __aeabi_lmul(uint64_t one, uint64_t other);
void __aeabi_uldivmod(void);
uint64_t uldivmod(uint64_t number, uint64_t by, uint64_t *rest);

#define SAME(name, as) __asm__(".globl " #name "\n.thumb_set " #name ", " #as)
SAME(__aeabi_memcpy4, __aeabi_memcpy);
SAME(__aeabi_memcpy8, __aeabi_memcpy);
SAME(__aeabi_memclr4, __aeabi_memclr);
SAME(__aeabi_memclr8, __aeabi_memclr);

void __aeabi_memcpy(void *to, const void *from, size_t len)
{
    memcpy(to, from, len);
}

void __aeabi_memset(void *to, size_t len, int byte)
{
    memset(to, byte, len);
}

void __aeabi_memclr(void *to, size_t len)
{
    memset(to, 0, len);
}

/* Quotient in r0, rest in r1. */
uint64_t __aeabi_uidivmod(uint32_t number, uint32_t by)
{
    uint32_t quotient = 0, part = 0;
    for (int bit = 31; bit >= 0; bit--) {
        part = part << 1 | (number >> bit & 1);
        if (part >= by) {
            part -= by;
            quotient |= (uint32_t)1 << bit;
        }
    }
    return (uint64_t)part << 32 | quotient;
}

uint32_t __aeabi_uidiv(uint32_t number, uint32_t by)
{
    return (uint32_t)__aeabi_uidivmod(number, by);
}

/* Long multiplication of 16 bits by 16. */
uint64_t __aeabi_lmul(uint64_t one, uint64_t other)
{
    const uint32_t a = (uint32_t)one, b = (uint32_t)other;
    const uint32_t low = (a & 0xFFFF) * (b & 0xFFFF), middle = (a >> 16) * (b & 0xFFFF) + (low >> 16);
    const uint32_t cross = (a & 0xFFFF) * (b >> 16) + (middle & 0xFFFF);
    const uint32_t high = (a >> 16) * (b >> 16) + (middle >> 16) + (cross >> 16);
    const uint32_t top = high + (uint32_t)(one >> 32) * b + a * (uint32_t)(other >> 32);
    return (uint64_t)top << 32 | (cross << 16 | (low & 0xFFFF));
}

uint64_t uldivmod(uint64_t number, uint64_t by, uint64_t *rest)
{
    return divide(number, by, rest);
}

/* Quotient in r0 and r1, rest in r2 and r3. */
__attribute__((naked)) void __aeabi_uldivmod(void)
{
    __asm__("push {r4, lr}\n"
            "sub sp, #16\n"
            "add r4, sp, #8\n"
            "str r4, [sp]\n"
            "bl uldivmod\n"
            "ldr r2, [sp, #8]\n"
            "ldr r3, [sp, #12]\n"
            "add sp, #16\n"
            "pop {r4, pc}\n");
}

#endif
