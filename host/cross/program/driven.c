/* Next, its flash step and made beside step: after each, the same answer, image and record; on every kind of job. */
#include "program.h"

static void finish_beside(uint8_t answer)
{
    uint32_t made = 0;
    while (answer == GROMMETIDE_MORE) {
        answer = step_beside();
        must(++made <= 65536);
    }
    must(answer == GROMMETIDE_DONE);
    must(step_beside() == GROMMETIDE_DONE);
}

static void ask_beside(uint8_t host, const struct message *message)
{
    finish_beside(ask(host, message));
}

/* Puts, deletes, commits and aborts until the store has moved on to the next block, with something pending on the way. */
static void fill_block(uint32_t size)
{
    static const struct message commit = {{0x04, 0x00, 0x03, 0x01}, 4}, abort = {{0x04, 0x00, 0x04, 0x01}, 4};
    uint8_t value[40];
    for (uint8_t id = 0; all(here.image + size, 0xFF, size); id++) {
        const struct message delete = message_of(DELETE, id, NULL, 0);
        struct message put;
        fill(value, id, sizeof value);
        put = message_of(PUT, id & 3, value, id % sizeof value);
        must(id < 250);
        ask_beside(id & 1, &put);
        ask_beside(2, &delete);
        ask_beside(2, &abort);
        ask_beside(id & 1, &commit);
    }
}

/* Mounts that drop a change, that close a torn frame, and that do both. */
static void mend_block(const struct message *put)
{
    for (int what = 1; what <= 3; what++) {
        if (what & 1)
            ask_beside(3, put);
        if (what & 2) {
            must(ask(2, put) == GROMMETIDE_MORE);
            step_beside();
        }
        lose_record(&here);
        finish_beside(call_mount(&here));
    }
}

/* Something is pending, and closed frames of 12 to 23 bytes leave a mount no room for a reset: it makes a transfer. */
static void fill_up(void)
{
    const struct message delete = message_of(DELETE, 9, NULL, 0);
    const uint32_t size = here.len / here.blocks;
    uint32_t end;
    uint8_t *bytes;
    ask_beside(1, &delete);
    end = here.record[4] + 256u * here.record[5];
    bytes = here.image + size * here.record[3];
    while (size - end >= 12) {
        const uint32_t len = size - end < 24 ? size - end : 12;
        const uint8_t head[] = {(uint8_t)len, 0, 0, 0};
        copy(bytes + end, head, 4);
        bytes[end + len - 1] = 0xFE;
        end += len;
    }
    here.record[4] = (uint8_t)end;
    here.record[5] = (uint8_t)(end >> 8);
    event("closed frames up to the block's end");
}

/* A put and a delete of host 1 are settled by a commit that moves the store. */
static void commit_and_move(const struct message *put)
{
    static const struct message commit = {{0x04, 0x00, 0x03, 0x01}, 4};
    const uint8_t block = here.record[3], id = put->bytes[4];
    ask_beside(1, put);
    fill_up();
    ask_beside(1, &commit);
    must(here.record[3] != block && (here.record[PLACES + 2 * id] | here.record[PLACES + 2 * id + 1]) != 0);
}

static void all_jobs(uint32_t len, uint8_t blocks)
{
    const struct message put = put_of(7, "pending"), convert = bare(CONVERT);
    clear(&here, len, blocks);
    must(call_mount(&here) == GROMMETIDE_NO_STORE);
    finish_beside(call_format(&here));
    fill_block(len / blocks);
    mend_block(&put);
    commit_and_move(&put);
    ask_beside(0, &convert);
    must(here.record[EDITION] == 2);
    mend_block(&put);
    commit_and_move(&put);
    fill_up();
    lose_record(&here);
    finish_beside(call_mount(&here));
    finish_beside(call_format(&here));
}

void driven(void)
{
    all_jobs(512, 2);
    all_jobs(1152, 3);
    all_jobs(4096, 16);
}
