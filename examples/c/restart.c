/*
 * The store on a simulated NOR array: format, put, commit, power cuts in the middle of a second commit and of the restart
 * after it, restart, read.
 *
 * The array is not mapped into memory: it is changed only by nor_program and nor_erase, and refuses to set bits. The store
 * is lent a copy in RAM; each step is done to the array and to the copy. A power cut loses the copy and the board record.
 */
#include <stdio.h>
#include <stdlib.h>
#include <string.h>

#include "grommetide.h"

enum { LENGTH = 512, BLOCKS = 2 };

static uint8_t nor[LENGTH];

static void stop(const char *why)
{
    fprintf(stderr, "restart: %s\n", why);
    exit(1);
}

static void nor_program(size_t at, uint8_t byte)
{
    if ((byte & ~nor[at]) != 0)
        stop("programming cannot set bits");
    nor[at] &= byte;
}

static void nor_erase(size_t at, size_t len)
{
    memset(nor + at, 0xFF, len);
}

struct board {
    uint8_t copy[LENGTH];
    uint8_t record[GROMMETIDE_RECORD_BYTES];
};

static void power_up(struct board *board)
{
    memcpy(board->copy, nor, LENGTH);
    memset(board->record, 0, sizeof board->record);
}

/* One step of the job in hand, told, done to the array and to the copy, made. */
static uint8_t step(struct board *board)
{
    grommetide_size at, len;
    uint8_t byte;
    switch (grommetide_next(LENGTH, BLOCKS, board->record, sizeof board->record, &at, &len, &byte)) {
    case GROMMETIDE_PROGRAM:
        nor_program(at, byte);
        board->copy[at] &= byte;
        break;
    case GROMMETIDE_ERASE:
        nor_erase(at, len);
        memset(board->copy + at, 0xFF, len);
        break;
    default:
        stop("there is no step");
    }
    return grommetide_made(board->copy, LENGTH, BLOCKS, board->record, sizeof board->record);
}

/* Up to `most` steps of the job in hand; how many were made. */
static unsigned steps(struct board *board, unsigned most)
{
    unsigned made = 0;
    uint8_t answer = GROMMETIDE_MORE;
    while (made < most && answer == GROMMETIDE_MORE) {
        answer = step(board);
        made++;
    }
    if (answer != GROMMETIDE_MORE && answer != GROMMETIDE_DONE)
        stop("a step was refused");
    return made;
}

static unsigned begin(struct board *board, uint8_t answer, unsigned most)
{
    if (answer == GROMMETIDE_DONE)
        return 0;
    if (answer != GROMMETIDE_MORE)
        stop("refused");
    return steps(board, most);
}

static unsigned mount(struct board *board, unsigned most)
{
    return begin(board, grommetide_mount(board->copy, LENGTH, BLOCKS, board->record, sizeof board->record), most);
}

static unsigned format(struct board *board)
{
    return begin(board, grommetide_format(board->copy, LENGTH, BLOCKS, board->record, sizeof board->record), LENGTH);
}

static unsigned request(struct board *board, uint8_t host, const uint8_t *message, unsigned most)
{
    uint8_t reply[1];
    uint8_t answer = grommetide_request(board->copy, LENGTH, BLOCKS, board->record, sizeof board->record, host, message,
                                        message[0], reply, sizeof reply);
    return begin(board, answer, most);
}

static void show(const struct board *board, const char *when)
{
    static const uint8_t read_5[] = {6, 0, 0x05, 1, 5, 0};
    grommetide_size at, len;
    uint8_t answer = grommetide_read(board->copy, LENGTH, BLOCKS, board->record, sizeof board->record, 0, read_5,
                                     sizeof read_5, &at, &len);
    if (answer != GROMMETIDE_DONE)
        stop("object 5 is gone");
    printf("%s: object 5 is \"%.*s\", %u bytes at %u\n", when, (int)len, (const char *)board->copy + at, (unsigned)len,
           (unsigned)at);
}

int main(void)
{
    static const uint8_t put_on[] = {8, 0, 0x01, 1, 5, 0, 'o', 'n'};
    static const uint8_t put_off[] = {9, 0, 0x01, 1, 5, 0, 'o', 'f', 'f'};
    static const uint8_t commit[] = {4, 0, 0x03, 1};
    struct board board;

    if (grommetide_record_size() != GROMMETIDE_RECORD_BYTES)
        stop("header and library differ");
    nor_erase(0, LENGTH);
    power_up(&board);
    if (grommetide_mount(board.copy, LENGTH, BLOCKS, board.record, sizeof board.record) != GROMMETIDE_NO_STORE)
        stop("a store on blank flash");
    printf("blank flash: no store; formatted in %u steps\n", format(&board));

    printf("host 2 puts 5 = \"on\" in %u steps", request(&board, 2, put_on, LENGTH));
    printf(" and commits in %u\n", request(&board, 2, commit, LENGTH));
    show(&board, "committed");

    printf("host 1 puts 5 = \"off\" in %u steps", request(&board, 1, put_off, LENGTH));
    printf("; power is cut after %u steps of its commit\n", request(&board, 1, commit, 5));
    power_up(&board);
    printf("restart, cut again after %u step of the mount\n", mount(&board, 1));
    power_up(&board);
    printf("restart: mounted in %u steps\n", mount(&board, LENGTH));
    show(&board, "after the cuts");

    request(&board, 1, put_off, LENGTH);
    request(&board, 1, commit, LENGTH);
    power_up(&board);
    printf("again, and cut after the last step; restart: mounted in %u steps\n", mount(&board, LENGTH));
    show(&board, "after that cut");
    return 0;
}
