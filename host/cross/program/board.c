#include "program.h"

static _Alignas(4) uint8_t images[2][IMAGE_BYTES + 4];
static _Alignas(4) uint8_t records[2][GROMMETIDE_RECORD_BYTES + 3];

struct board here = {images[0], records[0], 0, GROMMETIDE_RECORD_BYTES, 2};
struct board twin = {images[1], records[1], 0, GROMMETIDE_RECORD_BYTES, 2};

/* Where the buffers begin, 0 to 3 bytes behind a multiple of four: the library asks for no alignment. */
void place(uint32_t image, uint32_t record)
{
    here.image = images[0] + image;
    here.record = records[0] + record;
    twin.image = images[1] + (image ^ 1);
    twin.record = records[1] + record;
}

/* Blank flash; the record is unmounted. */
void clear(struct board *board, uint32_t len, uint8_t blocks)
{
    board->len = len;
    board->blocks = blocks;
    fill(board->image, 0xFF, len);
    fill(board->record, 0, GROMMETIDE_RECORD_BYTES);
}

/* The power went: mount and format take no record, whatever stands there. */
void lose_record(struct board *board)
{
    fill(board->record, 0xA5, GROMMETIDE_RECORD_BYTES);
    event("power cut");
}

void copy_board(struct board *to, const struct board *from)
{
    to->len = from->len;
    to->blocks = from->blocks;
    to->record_len = from->record_len;
    copy(to->image, from->image, from->len);
    copy(to->record, from->record, GROMMETIDE_RECORD_BYTES);
}

/* Does to the flash what next told. */
void flash_step(struct board *board, uint8_t answer)
{
    if (answer == GROMMETIDE_PROGRAM) {
        must(told.second == 1 && told.first < board->len);
        board->image[told.first] &= told.byte;
    } else if (answer == GROMMETIDE_ERASE) {
        must(told.second <= board->len && told.first <= board->len - told.second);
        fill(board->image + told.first, 0xFF, (uint32_t)told.second);
    }
}

/* A step, and beside it next, its flash step and made on a copy. */
uint8_t step_beside(void)
{
    uint8_t answer;
    copy_board(&twin, &here);
    flash_step(&twin, call_next(&twin));
    answer = call_made(&twin);
    must(call_step(&here) == answer);
    must(same(here.image, twin.image, here.len));
    must(same(here.record, twin.record, GROMMETIDE_RECORD_BYTES));
    return answer;
}

/* All steps of the job, one by one. */
uint8_t finish(uint8_t answer, uint32_t *steps)
{
    *steps = 0;
    while (answer == GROMMETIDE_MORE) {
        answer = call_step(&here);
        must(++*steps <= 65536);
    }
    return answer;
}

/* So many steps, and more are left. */
void goes_on(uint32_t steps)
{
    for (uint32_t i = 0; i < steps; i++)
        must(call_step(&here) == GROMMETIDE_MORE);
}

struct message message_of(uint8_t kind, uint32_t id, const uint8_t *value, uint32_t len)
{
    struct message message;
    const int has_id = kind == PUT || kind == DELETE || kind == READ;
    const uint8_t head[] = {(uint8_t)(4 + (has_id ? 2 : 0) + len), 0, kind, 1, (uint8_t)id, (uint8_t)(id >> 8)};
    message.len = head[0];
    copy(message.bytes, head, has_id ? 6 : 4);
    copy(message.bytes + (has_id ? 6 : 4), value, len);
    return message;
}

struct message put_of(uint8_t id, const char *text)
{
    uint32_t len = 0;
    while (text[len] != 0)
        len++;
    return message_of(PUT, id, (const uint8_t *)text, len);
}

/* Commit, abort, convert, and log of page 1. */
struct message bare(uint8_t kind)
{
    const uint8_t page = 1;
    return message_of(kind, 0, &page, kind == LOG ? 1 : 0);
}

uint8_t ask(uint8_t host, const struct message *message)
{
    return call_request(&here, host, message, 14);
}

void serve(uint8_t host, const struct message *message, uint32_t steps)
{
    uint32_t made;
    must(finish(ask(host, message), &made) == GROMMETIDE_DONE);
    must(made == steps);
}

void mounts(uint32_t steps)
{
    uint32_t made;
    lose_record(&here);
    must(finish(call_mount(&here), &made) == GROMMETIDE_DONE);
    must(made == steps);
}

void formats(uint32_t steps)
{
    uint32_t made;
    must(call_format(&here) == GROMMETIDE_MORE);
    must(finish(GROMMETIDE_MORE, &made) == GROMMETIDE_DONE);
    must(made == steps);
}

/* The record as the header lays it out. */
void is_idle(uint8_t block, uint32_t end)
{
    const uint32_t last = here.len - 1;
    const uint8_t head[] = {1, (uint8_t)last, (uint8_t)(last >> 8), block, (uint8_t)end, (uint8_t)(end >> 8), here.blocks};
    must(same(here.record, head, sizeof head));
}

void is_pending(uint8_t host, uint32_t bytes)
{
    uint8_t counts[8] = {0};
    counts[2 * host] = (uint8_t)bytes;
    counts[2 * host + 1] = (uint8_t)(bytes >> 8);
    must(same(here.record + 7, counts, sizeof counts));
}

void holds(uint8_t id, const char *text)
{
    const struct message read = message_of(READ, id, NULL, 0);
    const struct message value = put_of(id, text);
    must(call_read(&here, 0, &read) == GROMMETIDE_DONE);
    must(told.second == value.len - 6 && told.first + told.second <= here.len);
    must(same(here.image + told.first, value.bytes + 6, (uint32_t)told.second));
    must(ask(3, &read) == GROMMETIDE_DONE);
}

void holds_none(uint8_t id)
{
    const struct message read = message_of(READ, id, NULL, 0);
    must(call_read(&here, 0, &read) == GROMMETIDE_NO_OBJECT && told.first == 0 && told.second == 0);
    must(ask(3, &read) == GROMMETIDE_NO_OBJECT);
}

/* Log page 1, its numbers given. */
void log_says(uint32_t time, uint32_t count, uint32_t used)
{
    const struct message log = bare(LOG);
    const uint32_t size = here.len / here.blocks;
    const uint8_t page[] = {14, 0, 1, 2, (uint8_t)time, (uint8_t)(time >> 8), (uint8_t)(time >> 16), (uint8_t)(time >> 24),
                            (uint8_t)count, (uint8_t)(count >> 8), (uint8_t)used, (uint8_t)(used >> 8),
                            (uint8_t)size, (uint8_t)(size >> 8), 0xEE, 0xEE};
    must(ask(1, &log) == GROMMETIDE_DONE);
    must(same(reply, page, sizeof page));
}
