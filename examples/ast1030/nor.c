#include "nor.h"

#define FMC_SETTINGS (*(volatile uint32_t *)0x7E620000u)
#define FMC_CONTROL (*(volatile uint32_t *)0x7E620010u)
#define WINDOW ((volatile uint8_t *)0x80000000u)

/* FMC_SETTINGS: commands may go to the chip. */
#define SETTINGS_WRITE (1u << 16)

/* FMC_CONTROL: the window reads flash; or each access is a byte on the SPI bus, while the chip is selected. */
enum { CONTROL_READ = 0, CONTROL_USER = 3, CONTROL_RELEASED = CONTROL_USER | 4 };

enum { NOR_PROGRAM = 0x02, NOR_STATUS = 0x05, NOR_WRITE_ENABLE = 0x06, NOR_ERASE = 0x20, NOR_ID = 0x9F };

/* A bit of the status, and how often it is asked. Sectors take up to 0.4 s to erase, a status at most some microseconds. */
enum { STATUS_BUSY = 0x01, STATUS_ASKED = 4000000 };

static void select_chip(void)
{
    FMC_CONTROL = CONTROL_RELEASED;
    FMC_CONTROL = CONTROL_USER;
}

/* The chip begins a program or erase when it is released. After this the window reads flash again. */
static void release_chip(void)
{
    FMC_CONTROL = CONTROL_RELEASED;
    FMC_CONTROL = CONTROL_READ;
}

static void send(uint8_t byte)
{
    *WINDOW = byte;
}

static void send_place(uint8_t command, uint32_t at)
{
    send(command);
    send((uint8_t)(at >> 16));
    send((uint8_t)(at >> 8));
    send((uint8_t)at);
}

static void enable_write(void)
{
    select_chip();
    send(NOR_WRITE_ENABLE);
    release_chip();
}

static int wait_until_ready(void)
{
    for (uint32_t asked = 0; asked < STATUS_ASKED; asked++) {
        select_chip();
        send(NOR_STATUS);
        const uint8_t status = *WINDOW;
        release_chip();
        if ((status & STATUS_BUSY) == 0)
            return 1;
    }
    return 0;
}

static int failed(struct nor_trouble *trouble, const char *what, uint32_t at, uint8_t wanted)
{
    trouble->what = what;
    trouble->at = at;
    trouble->wanted = wanted;
    trouble->found = WINDOW[at];
    return 0;
}

uint32_t nor_begin(void)
{
    uint32_t id = 0;
    FMC_SETTINGS |= SETTINGS_WRITE;
    select_chip();
    send(NOR_ID);
    for (int i = 0; i < 3; i++)
        id = id << 8 | *WINDOW;
    release_chip();
    return id;
}

const uint8_t *nor_mapped(uint32_t at)
{
    return (const uint8_t *)WINDOW + at;
}

int nor_program(uint32_t at, uint8_t byte, struct nor_trouble *trouble)
{
    const uint8_t wanted = WINDOW[at] & byte;
    enable_write();
    select_chip();
    send_place(NOR_PROGRAM, at);
    send(byte);
    release_chip();
    if (!wait_until_ready())
        return failed(trouble, "stays busy after a program", at, wanted);
    if (WINDOW[at] != wanted)
        return failed(trouble, "did not program", at, wanted);
    return 1;
}

int nor_erase(uint32_t at, uint32_t len, struct nor_trouble *trouble)
{
    const uint32_t end = at + len;
    for (uint32_t sector = at; sector < end; sector += NOR_SECTOR) {
        enable_write();
        select_chip();
        send_place(NOR_ERASE, sector);
        release_chip();
        if (!wait_until_ready())
            return failed(trouble, "stays busy after an erase", sector, 0xFF);
    }
    for (uint32_t i = at; i < end; i++)
        if (WINDOW[i] != 0xFF)
            return failed(trouble, "did not erase", i, 0xFF);
    return 1;
}
