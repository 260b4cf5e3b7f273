#include "chip.h"

#include <stdio.h>
#include <stdlib.h>
#include <string.h>

enum { NONSENSE = 0x5A, HEAD = 4 };

static uint8_t cells[CHIP_BYTES], mapped[CHIP_BYTES];
static int enabled;
static unsigned busy;
static unsigned long power;

void stop(const char *why)
{
    fprintf(stderr, "stopped: %s\n", why);
    exit(1);
}

const uint8_t *chip_mapped(void)
{
    return mapped;
}

const uint8_t *chip_cells(void)
{
    return cells;
}

static void ready(void)
{
    busy = 0;
    enabled = 0;
    memcpy(mapped, cells, CHIP_BYTES);
}

void chip_power_on(const uint8_t *flash, unsigned long commands)
{
    memcpy(cells, flash, CHIP_BYTES);
    power = commands;
    ready();
}

static void begin(unsigned time)
{
    busy = time;
    memset(mapped, NONSENSE, CHIP_BYTES);
}

static uint8_t status(void)
{
    uint8_t bits = busy > 0 ? CHIP_BUSY : 0;
    if (busy > 0 && --busy == 0)
        ready();
    return bits;
}

static void program(size_t at, const uint8_t *bytes, size_t len)
{
    size_t page = at - at % CHIP_PAGE, i;
    for (i = 0; i < len; i++) {
        uint8_t *cell = &cells[page + (at + i) % CHIP_PAGE];
        if ((bytes[i] & ~*cell) != 0)
            stop("programming cannot set bits");
        *cell &= bytes[i];
    }
    begin(CHIP_PROGRAM_TIME);
}

static void erase(size_t at)
{
    memset(cells + (at - at % CHIP_SECTOR), 0xFF, CHIP_SECTOR);
    begin(CHIP_ERASE_TIME);
}

/* A command with an address. */
static void on_flash(uint8_t kind, size_t at, const uint8_t *data, size_t len, uint8_t *answer, size_t answer_len)
{
    if (at >= CHIP_BYTES || answer_len > CHIP_BYTES - at)
        stop("the chip has no such address");
    if (kind == CHIP_READ)
        memcpy(answer, cells + at, answer_len);
    else if (kind == CHIP_PROGRAM && enabled)
        program(at, data, len);
    else if (kind == CHIP_ERASE && enabled)
        erase(at);
}

int chip_send(const uint8_t *command, size_t len, uint8_t *answer, size_t answer_len)
{
    if (power == 0)
        return 0;
    power--;
    if (command[0] == CHIP_STATUS)
        *answer = status();
    else if (busy == 0 && command[0] == CHIP_WRITE_ENABLE)
        enabled = 1;
    else if (busy == 0 && len >= HEAD)
        on_flash(command[0], (size_t)command[1] << 16 | (size_t)command[2] << 8 | command[3], command + HEAD, len - HEAD,
                 answer, answer_len);
    return 1;
}
