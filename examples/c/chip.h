/*
 * A simulated SPI NOR chip of 512 bytes. Its commands are those of real chips: a byte that says which, an address of three
 * bytes, data. What it holds is also mapped into memory, to be read.
 *
 *   - A program or erase needs a write enable right before it. Without one, or while the chip is busy, it is ignored.
 *   - It takes time, in which the chip is busy: it answers its status only, and the mapping reads as nonsense.
 *   - A program stays in its page: past the page's end it goes on at its start.
 *   - Programming only clears bits. An attempt to set one ends the example.
 *   - Power goes before a command. If the chip is busy then, the program or erase is whole.
 */
#ifndef CHIP_H
#define CHIP_H

#include <stddef.h>
#include <stdint.h>

/* A sector is a block of the store here. Smaller ones would do: a cut between two of them is one inside the erase. */
enum { CHIP_BYTES = 512, CHIP_PAGE = 256, CHIP_SECTOR = 256 };

enum { CHIP_PROGRAM = 0x02, CHIP_READ = 0x03, CHIP_STATUS = 0x05, CHIP_WRITE_ENABLE = 0x06, CHIP_ERASE = 0x20 };

/* A bit of the status, and how often it is read set after a program and after an erase. */
enum { CHIP_BUSY = 0x01, CHIP_PROGRAM_TIME = 1, CHIP_ERASE_TIME = 3 };

/* Power comes on with this in the flash, and goes again before the command after so many. */
void chip_power_on(const uint8_t *flash, unsigned long commands);

/* Sends a command, whole, and takes the answer. 0: power is gone. */
int chip_send(const uint8_t *command, size_t len, uint8_t *answer, size_t answer_len);

/* The flash as it is mapped into memory. */
const uint8_t *chip_mapped(void);

/* The flash itself, for whoever judges the example. A driver has no such thing. */
const uint8_t *chip_cells(void);

/* Ends the example. */
void stop(const char *why);

#endif
