/*
 * A board goes over to the second edition of the flash format, in which each frame has a checksum. The power is cut after each
 * step of the convert; after every restart all objects are there, in edition 1 or 2, and the board converts again if it is 1.
 *
 * By docs/STORE.md three objects of 6, 2 and 0 bytes need U = 16 + 13 + 9 + 7 = 45 bytes in edition 1, 4 more for each in
 * edition 2. So the convert has 57 - 5 = 52 steps: the 51st makes the new block valid, the 52nd erases the old one.
 */
#include <stdio.h>
#include <stdlib.h>
#include <string.h>

#include "grommetide.h"

enum { SIZE = 256, BLOCKS = 2, LENGTH = BLOCKS * SIZE, OBJECTS = 3, EDITION = 15, RESERVE = 22 };

struct object {
    uint8_t id, len;
    const char *value;
};

static const struct object objects[OBJECTS] = {{1, 6, "low 20"}, {5, 2, "on"}, {200, 0, ""}};

static uint8_t image[LENGTH], record[GROMMETIDE_RECORD_BYTES];

static void stop(const char *why)
{
    fprintf(stderr, "convert: %s\n", why);
    exit(1);
}

/* Up to `most` steps of the job that a call answered; how many were made. */
static unsigned steps(uint8_t answer, unsigned most)
{
    grommetide_size made = 0;
    if (answer == GROMMETIDE_MORE)
        answer = grommetide_run(image, LENGTH, BLOCKS, record, sizeof record, most, &made);
    if (answer != GROMMETIDE_DONE && answer != GROMMETIDE_MORE)
        stop("refused");
    return (unsigned)made;
}

static uint8_t ask(const uint8_t *message, uint8_t *reply, size_t reply_len)
{
    return grommetide_request(image, LENGTH, BLOCKS, record, sizeof record, 0, message, message[0], reply, reply_len);
}

/* The record is lost with the power, and what the firmware does first is a mount. */
static void restart(void)
{
    memset(record, 0xA5, sizeof record);
    steps(grommetide_mount(image, LENGTH, BLOCKS, record, sizeof record), LENGTH);
}

static unsigned convert(unsigned most)
{
    static const uint8_t message[] = {4, 0, 0x08, 1};
    uint8_t reply[1];
    return steps(ask(message, reply, sizeof reply), most);
}

/* The log page: settled objects, and U, which goes by the edition. */
static unsigned used(unsigned *count)
{
    static const uint8_t log[] = {5, 0, 0x06, 1, 1};
    uint8_t page[14];
    if (ask(log, page, sizeof page) != GROMMETIDE_DONE)
        stop("no log");
    *count = page[8] + 256u * page[9];
    return page[10] + 256u * page[11];
}

static void put(const struct object *object)
{
    uint8_t message[6 + 240] = {0, 0, 0x01, 1}, reply[1];
    message[0] = (uint8_t)(6 + object->len);
    message[4] = object->id;
    memcpy(message + 6, object->value, object->len);
    steps(ask(message, reply, sizeof reply), LENGTH);
}

static void make_store(void)
{
    static const uint8_t commit[] = {4, 0, 0x03, 1};
    uint8_t reply[1];
    int i;
    steps(grommetide_format(image, LENGTH, BLOCKS, record, sizeof record), LENGTH);
    for (i = 0; i < OBJECTS; i++)
        put(&objects[i]);
    steps(ask(commit, reply, sizeof reply), LENGTH);
}

static void expect_objects(void)
{
    int i;
    for (i = 0; i < OBJECTS; i++) {
        const uint8_t read[] = {6, 0, 0x05, 1, objects[i].id, 0};
        grommetide_size at, len;
        if (grommetide_read(image, LENGTH, BLOCKS, record, sizeof record, 0, read, sizeof read, &at, &len) != GROMMETIDE_DONE ||
            len != objects[i].len || memcmp(image + at, objects[i].value, len) != 0)
            stop("an object is not as it was");
    }
}

/* Converts this image with the power cut after so many steps; the edition that the restart finds. */
static uint8_t cut_after(const uint8_t *before, unsigned most)
{
    uint8_t found;
    memcpy(image, before, LENGTH);
    restart();
    if (convert(most) != most)
        stop("a convert of fewer steps");
    restart();
    expect_objects();
    found = record[EDITION];
    convert(LENGTH);
    expect_objects();
    if (record[EDITION] != 2)
        stop("not in edition 2");
    return found;
}

/* One bit of object 1's value is lost, on this image; what a mount then says. */
static void lose_a_bit(const uint8_t *before, unsigned at, const char *edition)
{
    grommetide_size block, place;
    uint8_t field, answer;
    memcpy(image, before, LENGTH);
    image[at] &= (uint8_t)~0x04;
    answer = grommetide_fault(image, LENGTH, BLOCKS, &block, &field, &place);
    printf("one bit lost in edition %s: mount answers %u", edition, answer);
    if (answer == GROMMETIDE_FOREIGN && field == GROMMETIDE_FIELD_CRC)
        printf(", block %u broke at its checksum, byte %u", (unsigned)block, (unsigned)place);
    printf("\n");
}

int main(void)
{
    uint8_t first[LENGTH], second[LENGTH];
    unsigned count, bytes, whole, cut, old = 0;

    make_store();
    bytes = used(&count);
    printf("edition %u: %u objects, %u bytes; in edition 2 %u\n", record[EDITION], count, bytes, bytes + 4 * count);
    if (bytes + 4 * count + RESERVE > SIZE)
        stop("no put or delete would have room after a convert");
    memcpy(first, image, LENGTH);
    whole = convert(LENGTH);
    memcpy(second, image, LENGTH);
    bytes = used(&count);
    printf("converted in %u steps: edition %u, %u objects, %u bytes\n", whole, record[EDITION], count, bytes);
    for (cut = 0; cut <= whole; cut++)
        old += cut_after(first, cut) == 1;
    printf("power cut after 0 to %u steps: %u times edition 1, %u times edition 2, all objects there\n", whole, old, cut - old);
    lose_a_bit(first, 23, "1");
    lose_a_bit(second, SIZE + 22, "2");
    return 0;
}
