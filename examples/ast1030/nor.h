/*
 * The SPI NOR chip on chip enable 0 of the AST1030's flash controller (FMC). It is read through its memory window; programs
 * and erases go to it as SPI commands.
 */
#ifndef NOR_H
#define NOR_H

#include <stdint.h>

enum { NOR_SECTOR = 4096 };

/* What went wrong with a program or erase. The chip can no longer be trusted with a step. */
struct nor_trouble {
    const char *what;
    uint32_t at;
    uint8_t wanted, found;
};

/* Makes the chip ready. The answer is its JEDEC id: maker, type, capacity. */
uint32_t nor_begin(void);

/* The chip's bytes from here on, as they are mapped into memory. Not to be read while nor_program or nor_erase runs. */
const uint8_t *nor_mapped(uint32_t at);

/* Both wait for the chip and read back what it did. 1: it did. 0: it did not; *trouble says what. */
int nor_program(uint32_t at, uint8_t byte, struct nor_trouble *trouble);
int nor_erase(uint32_t at, uint32_t len, struct nor_trouble *trouble);

#endif
