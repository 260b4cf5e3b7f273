/*
 * The store on a simulated SPI NOR chip (chip.c) through a driver (spi_nor.c), with a power cut before every command of a
 * script and before every command of each restart. The same calls are made on a plain image with grommetide_step; after
 * every step answers, bytes and records must be the same. After every restart the objects are those of the commits whose
 * last byte is in the flash.
 *
 * The script is a format and eight rounds of two hosts, who each put an object of two bytes and commit. By docs/STORE.md,
 * "Jobs", these are 12 steps and 8 * (10 + 10 + 6 + 6) and, where host 3's put does not fit in round 8, a transfer of
 * C - 5 = (16 + 9 + 9 + 10) - 5 steps: 307. Three of them erase: two in the format, one in the transfer.
 *
 * A byte takes 4 commands (write enable, program, status twice), an erase 6 (status four times). So the script has
 * 304 * 4 + 3 * 6 = 1234. After 50 of the cuts there is no store, and the restart formats: 52 commands.
 *
 * Otherwise a restart mends the block. Of a frame that was cut after 1, 2, 3 or more bytes it closes 4, 3, 3 or 2, and where
 * something is pending a reset of 5 bytes follows. Four cuts leave each image. So in a round the cuts inside host 0's put,
 * when nothing is pending, have 4 + 3 + 3 + 6 * 2 = 22 bytes to program, those inside host 3's put 22 + 9 * 5 = 67, those
 * inside each commit 4 + 3 + 3 + 2 * 2 + 5 * 5 = 39, and those behind either put or the first commit 5: 182 bytes, four times
 * each, and four commands for each. The transfer of round 8 has 38 images more before its erase, left by 152 cuts, where 6
 * commands of an erase come before the reset's 20, and one behind it, left by 6 cuts. Where nothing is pending or torn, after
 * 34 cuts, there is nothing to do. Sum: 50 * 52 + 8 * 4 * 4 * 182 + 152 * 26 + 6 * 20 = 29968.
 */
#include <stdio.h>
#include <string.h>

#include "chip.h"
#include "grommetide.h"
#include "spi_nor.h"

enum { ROUNDS = 8, LOST = 0xA5 };

static const unsigned long NEVER = (unsigned long)-1;

/* The record on the chip's side; the plain image and its record. */
static uint8_t record[GROMMETIDE_RECORD_BYTES], plain[CHIP_BYTES], plain_record[GROMMETIDE_RECORD_BYTES];

/* What outlasts power: the flash, and what has been finished in it. */
struct past {
    uint8_t flash[CHIP_BYTES];
    unsigned formats, commits;
};

static struct past now;

/* Steps since power came on. */
static unsigned long steps;

static void power_up(const struct past *past, unsigned long commands)
{
    now = *past;
    steps = 0;
    chip_power_on(past->flash, commands);
    memcpy(plain, past->flash, CHIP_BYTES);
    memset(record, LOST, sizeof record);
    memset(plain_record, LOST, sizeof plain_record);
}

/* A call was made on both sides; the answer, which must be the same, as must the records. */
static int both(uint8_t answer, uint8_t plain_answer)
{
    if (answer != plain_answer)
        stop("another answer than on a plain image");
    if (memcmp(record, plain_record, sizeof record) != 0)
        stop("another record than on a plain image");
    return answer;
}

/* All steps of a job that began with this answer, on both sides; counts it if it ends. 0: power was lost. */
static int finish(int answer, unsigned *jobs)
{
    int plain_answer = answer;
    while (answer == GROMMETIDE_MORE) {
        answer = spi_nor_step(record);
        /* when power goes the chip has done the step, or not begun it */
        if (answer != SPI_NOR_POWER_LOST || memcmp(chip_cells(), plain, CHIP_BYTES) != 0)
            plain_answer = grommetide_step(plain, CHIP_BYTES, SPI_NOR_BLOCKS, plain_record, sizeof plain_record);
        if (answer != SPI_NOR_POWER_LOST)
            both((uint8_t)answer, (uint8_t)plain_answer);
        if (memcmp(chip_cells(), plain, CHIP_BYTES) != 0)
            stop("other bytes than in a plain image");
        steps++;
    }
    memcpy(now.flash, plain, CHIP_BYTES);
    if (plain_answer == GROMMETIDE_DONE)
        ++*jobs;
    else if (answer != SPI_NOR_POWER_LOST)
        stop("refused");
    return answer != SPI_NOR_POWER_LOST;
}

static int format(void)
{
    return finish(both(grommetide_format(chip_mapped(), CHIP_BYTES, SPI_NOR_BLOCKS, record, sizeof record),
                       grommetide_format(plain, CHIP_BYTES, SPI_NOR_BLOCKS, plain_record, sizeof plain_record)),
                  &now.formats);
}

/* What firmware does after power-up: it mounts, and formats a chip that has no store. */
static int restart(void)
{
    unsigned mounts = 0;
    int answer = both(grommetide_mount(chip_mapped(), CHIP_BYTES, SPI_NOR_BLOCKS, record, sizeof record),
                      grommetide_mount(plain, CHIP_BYTES, SPI_NOR_BLOCKS, plain_record, sizeof plain_record));
    if (answer != GROMMETIDE_NO_STORE)
        return finish(answer, &mounts);
    if (now.formats > 0)
        stop("the store is gone");
    return format();
}

static int ask(uint8_t host, const uint8_t *message, unsigned *jobs)
{
    uint8_t reply[1];
    return finish(both(grommetide_request(chip_mapped(), CHIP_BYTES, SPI_NOR_BLOCKS, record, sizeof record, host, message,
                                          message[0], reply, sizeof reply),
                       grommetide_request(plain, CHIP_BYTES, SPI_NOR_BLOCKS, plain_record, sizeof plain_record, host, message,
                                          message[0], reply, sizeof reply)),
                  jobs);
}

static int put(uint8_t host, uint8_t id, uint8_t letter, unsigned round)
{
    const uint8_t message[] = {8, 0, 0x01, 1, id, 0, letter, (uint8_t)('0' + round)};
    unsigned puts = 0;
    return ask(host, message, &puts);
}

static int commit(uint8_t host)
{
    const uint8_t message[] = {4, 0, 0x03, 1};
    return ask(host, message, &now.commits);
}

static int script(void)
{
    unsigned round;
    if (!format())
        return 0;
    for (round = 1; round <= ROUNDS; round++) {
        if (!put(0, 1, 'A', round) || !put(3, 2, 'B', round) || !commit(3) || !commit(0))
            return 0;
    }
    return 1;
}

/* The object is as it was put in this round; there is none before the first. */
static void expect(uint8_t id, uint8_t letter, unsigned round)
{
    const uint8_t message[] = {6, 0, 0x05, 1, id, 0}, *value = chip_mapped();
    grommetide_size at, len;
    uint8_t answer =
        grommetide_read(value, CHIP_BYTES, SPI_NOR_BLOCKS, record, sizeof record, 0, message, sizeof message, &at, &len);
    value += at;
    if (round == 0 ? answer != GROMMETIDE_NO_OBJECT
                   : answer != GROMMETIDE_DONE || len != 2 || value[0] != letter || value[1] != '0' + round)
        stop("an object is not that of the finished commits");
}

static void expect_objects(void)
{
    expect(1, 'A', now.commits / 2);
    expect(2, 'B', (now.commits + 1) / 2);
}

/* A restart from here, cut before each of its commands; how many these are. */
static unsigned long cut_restarts(struct past here)
{
    unsigned long cuts;
    for (cuts = 0;; cuts++) {
        struct past cut;
        power_up(&here, cuts);
        if (restart())
            break;
        cut = now;
        power_up(&cut, NEVER);
        restart();
        expect_objects();
    }
    expect_objects();
    return cuts;
}

/* A program without a write enable is ignored, and one while the chip is busy; one that reaches its page's end wraps. */
static void try_chip(const uint8_t *blank)
{
    const uint8_t enable[] = {CHIP_WRITE_ENABLE}, status[] = {CHIP_STATUS}, read[] = {CHIP_READ, 0, 0, 0};
    const uint8_t ignored[] = {CHIP_PROGRAM, 0, 0, 9, 3}, wrapped[] = {CHIP_PROGRAM, 0, 0, CHIP_PAGE - 1, 1, 2};
    uint8_t expected[CHIP_BYTES], found[CHIP_BYTES], busy, ready;
    chip_power_on(blank, NEVER);
    chip_send(ignored, sizeof ignored, NULL, 0);
    chip_send(enable, sizeof enable, NULL, 0);
    chip_send(wrapped, sizeof wrapped, NULL, 0);
    chip_send(enable, sizeof enable, NULL, 0);
    chip_send(ignored, sizeof ignored, NULL, 0);
    chip_send(status, sizeof status, &busy, 1);
    chip_send(status, sizeof status, &ready, 1);
    chip_send(read, sizeof read, found, CHIP_BYTES);
    memset(expected, 0xFF, CHIP_BYTES);
    expected[CHIP_PAGE - 1] = 1;
    expected[0] = 2;
    if (memcmp(found, expected, CHIP_BYTES) != 0 || busy != CHIP_BUSY || ready != 0)
        stop("the chip is not as chip.h says");
}

int main(void)
{
    struct past blank = {{0}, 0, 0};
    unsigned long cuts, more = 0;
    memset(blank.flash, 0xFF, CHIP_BYTES);
    try_chip(blank.flash);
    for (cuts = 0;; cuts++) {
        power_up(&blank, cuts);
        if (script())
            break;
        more += cut_restarts(now);
    }
    expect_objects();
    printf("the script: %lu steps, %lu commands, power cut before each\n", steps, cuts);
    printf("the restarts: %lu commands, power cut before each\n", more);
    printf("every step as on a plain image, after every restart the objects of the finished commits\n");
    return 0;
}
