#include "spi_nor.h"

#include "grommetide.h"

static int enable(void)
{
    const uint8_t command[] = {CHIP_WRITE_ENABLE};
    return chip_send(command, sizeof command, NULL, 0);
}

static int wait(void)
{
    const uint8_t command[] = {CHIP_STATUS};
    uint8_t status;
    do {
        if (!chip_send(command, sizeof command, &status, 1))
            return 0;
    } while ((status & CHIP_BUSY) != 0);
    return 1;
}

static int program(size_t at, uint8_t byte)
{
    const uint8_t command[] = {CHIP_PROGRAM, (uint8_t)(at >> 16), (uint8_t)(at >> 8), (uint8_t)at, byte};
    return enable() && chip_send(command, sizeof command, NULL, 0) && wait();
}

/* Sector by sector. */
static int erase(size_t at, size_t len)
{
    const size_t end = at + len;
    for (; at < end; at += CHIP_SECTOR) {
        const uint8_t command[] = {CHIP_ERASE, (uint8_t)(at >> 16), (uint8_t)(at >> 8), (uint8_t)at};
        if (!enable() || !chip_send(command, sizeof command, NULL, 0) || !wait())
            return 0;
    }
    return 1;
}

int spi_nor_step(uint8_t *record)
{
    grommetide_size at, len;
    uint8_t byte;
    int powered = 1;
    switch (grommetide_next(CHIP_BYTES, SPI_NOR_BLOCKS, record, GROMMETIDE_RECORD_BYTES, &at, &len, &byte)) {
    case GROMMETIDE_PROGRAM:
        powered = program(at, byte);
        break;
    case GROMMETIDE_ERASE:
        powered = erase(at, len);
        break;
    default: /* no step; grommetide_made says why */
        break;
    }
    if (!powered)
        return SPI_NOR_POWER_LOST;
    return grommetide_made(chip_mapped(), CHIP_BYTES, SPI_NOR_BLOCKS, record, GROMMETIDE_RECORD_BYTES);
}
