/*
 * How blocks wear: a hundred changes of one setting on flash of 2, 4 and 16 blocks of 256 bytes, erases counted by block.
 *
 * A change is a put of two bytes and a commit, 10 + 6 steps. By docs/STORE.md, "Jobs", block 0 has room for 15 of them after
 * its header; the 16th begins with a transfer of U - 5 = (16 + 9) - 5 steps to the next block, which has room for 14. So
 * there are seven transfers, in changes 16, 30, 44, 58, 72, 86 and 100: 100 * 16 + 7 * 20 = 1740 steps.
 */
#include <stdio.h>
#include <stdlib.h>
#include <string.h>

#include "grommetide.h"

enum { SIZE = 256, CHANGES = 100 };

static uint8_t image[GROMMETIDE_BLOCKS_MAX * SIZE], record[GROMMETIDE_RECORD_BYTES];
static size_t image_len;
static uint8_t blocks;
static unsigned erases[GROMMETIDE_BLOCKS_MAX];

/* All steps of a job that began with this answer; how many they are. */
static unsigned finish(uint8_t answer)
{
    grommetide_size at, len;
    uint8_t byte;
    unsigned steps = 0;
    while (answer == GROMMETIDE_MORE) {
        if (grommetide_next(image_len, blocks, record, sizeof record, &at, &len, &byte) == GROMMETIDE_ERASE)
            erases[at / SIZE]++;
        answer = grommetide_step(image, image_len, blocks, record, sizeof record);
        steps++;
    }
    if (answer != GROMMETIDE_DONE) {
        fprintf(stderr, "wear: refused with %u\n", answer);
        exit(1);
    }
    return steps;
}

static unsigned ask(const uint8_t *message)
{
    uint8_t reply[1];
    return finish(grommetide_request(image, image_len, blocks, record, sizeof record, 0, message, message[0], reply,
                                     sizeof reply));
}

static unsigned change(unsigned number)
{
    const uint8_t put[] = {8, 0, 0x01, 1, 5, 0, (uint8_t)('0' + number / 10), (uint8_t)('0' + number % 10)};
    const uint8_t commit[] = {4, 0, 0x03, 1};
    unsigned steps = ask(put);
    return steps + ask(commit);
}

static void wear(uint8_t number_of_blocks)
{
    unsigned i, steps = 0;
    blocks = number_of_blocks;
    image_len = (size_t)blocks * SIZE;
    memset(image, 0xFF, image_len);
    printf("%u blocks: formatted in %u steps; ", blocks,
           finish(grommetide_format(image, image_len, blocks, record, sizeof record)));
    memset(erases, 0, sizeof erases);
    for (i = 0; i < CHANGES; i++)
        steps += change(i);
    printf("%u changes in %u steps; erases", CHANGES, steps);
    for (i = 0; i < blocks; i++)
        printf(" %u", erases[i]);
    printf("\n");
}

int main(void)
{
    static const uint8_t read[] = {6, 0, 0x05, 1, 5, 0};
    grommetide_size at, len;
    wear(2);
    wear(4);
    wear(GROMMETIDE_BLOCKS_MAX);
    if (grommetide_read(image, image_len, blocks, record, sizeof record, 0, read, sizeof read, &at, &len) != GROMMETIDE_DONE)
        return 1;
    printf("object 5 is \"%.*s\", in block %u\n", (int)len, (const char *)image + at, (unsigned)(at / SIZE));
    return 0;
}
