/*
 * A board that comes back: its flash has lost bits, the mount is refused, and grommetide_fault says where the image broke.
 */
#include <stdio.h>
#include <stdlib.h>

#include "grommetide.h"

enum { BLOCKS = 2 };

static uint8_t image[512], record[GROMMETIDE_RECORD_BYTES];

/* By GROMMETIDE_FIELD_LENGTH and so on; 0 is none. */
static const char *const fields[] = {"-", "length", "kind", "host", "id", "finish", "time", "state", "rest", "crc"};

static void finish(uint8_t answer)
{
    while (answer == GROMMETIDE_MORE)
        answer = grommetide_step(image, sizeof image, BLOCKS, record, sizeof record);
    if (answer != GROMMETIDE_DONE) {
        fprintf(stderr, "broken: refused with %u\n", answer);
        exit(1);
    }
}

static void request(const uint8_t *message)
{
    uint8_t reply[1];
    finish(grommetide_request(image, sizeof image, BLOCKS, record, sizeof record, 2, message, message[0], reply,
                              sizeof reply));
}

/* What a service desk would note of the image as it is now. */
static void diagnose(const char *when)
{
    grommetide_size block, place;
    uint8_t field;
    uint8_t answer = grommetide_fault(image, sizeof image, BLOCKS, &block, &field, &place);
    printf("%s: %u", when, answer);
    if (answer == GROMMETIDE_FOREIGN)
        printf(", block %u broke at its %s, byte %u", (unsigned)block, fields[field], (unsigned)place);
    printf("\n");
}

int main(void)
{
    static const uint8_t put[] = {8, 0, 0x01, 1, 5, 0, 'o', 'n'}, commit[] = {4, 0, 0x03, 1};

    finish(grommetide_format(image, sizeof image, BLOCKS, record, sizeof record));
    request(put);
    request(commit);
    diagnose("as it was");

    image[28] &= 0xFD; /* the commit's kind was 3; with no bit left it would be a closed frame's */
    if (grommetide_mount(image, sizeof image, BLOCKS, record, sizeof record) != GROMMETIDE_FOREIGN)
        return 1;
    diagnose("one bit lost in byte 28");

    image[20] |= 0x10; /* the put's host was 2 */
    diagnose("one bit gained in byte 20");

    image[8] = 0xF8;
    diagnose("one bit lost in byte 8");
    return 0;
}
