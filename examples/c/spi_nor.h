/* The store on the chip, which is mapped into memory: no copy of the flash in RAM. */
#ifndef SPI_NOR_H
#define SPI_NOR_H

#include <stdint.h>

#include "chip.h"

/* Beside the store's answers. On a board nobody is there to see it. */
enum { SPI_NOR_POWER_LOST = 256 };

/* The store's blocks, each a sector of the chip. */
enum { SPI_NOR_BLOCKS = CHIP_BYTES / CHIP_SECTOR };

/* One step of the job in the record: told, done by the chip, made. The answer is that of grommetide_made. */
int spi_nor_step(uint8_t *record);

#endif
