/* Journals as a store might have left them, and such that are foreign in one field. */
#include "program.h"

enum { HEADER = 16, SETTLED = 5, RESET = 7, FRAME_MAX = 260 };

/* The length of a frame's value: most are short, some near the longest that there may be. */
static uint32_t value_len(void)
{
    return one_in(12) ? 238 + below(5) : below(24);
}

/* CRC-32 of IEEE 802.3, bit by bit, as four bytes behind these. */
static void seal(uint8_t *bytes, uint32_t len)
{
    uint32_t crc = 0xFFFFFFFF;
    for (uint32_t bit = 0; bit < 8 * len; bit++) {
        const uint32_t low = (crc ^ (uint32_t)bytes[bit / 8] >> bit % 8) & 1;
        crc = crc >> 1 ^ (low ? 0xEDB88320 : 0);
    }
    for (uint32_t i = 0; i < SEAL; i++)
        bytes[len + i] = (uint8_t)(~crc >> 8 * i);
}

/* A frame of this kind in this edition; its bytes. */
static uint32_t frame(uint8_t *to, uint8_t edition, uint8_t kind, uint8_t id)
{
    const uint32_t value = kind == PUT || kind == SETTLED ? value_len() : 0;
    const uint8_t host = (uint8_t)below(4);
    uint32_t at = 4;
    if (kind != SETTLED && kind != RESET)
        to[at++] = host;
    if (kind == PUT || kind == DELETE || kind == SETTLED) {
        to[at++] = id;
        to[at++] = 0;
    }
    for (uint32_t i = 0; i < value; i++)
        to[at++] = (uint8_t)(one_in(3) ? 0xFF : any());
    to[0] = (uint8_t)(at + 1 + (edition == 2 ? SEAL : 0));
    to[1] = 0;
    to[2] = kind;
    to[3] = 0;
    if (edition == 2) {
        seal(to, at);
        at += SEAL;
    }
    to[at++] = 0xFE;
    return at;
}

/* A frame that was torn and closed: its kind is 0, its finish byte there, or not yet; its body may be any. */
static void close_frame(uint8_t *bytes, uint32_t len, int whole)
{
    for (uint32_t i = 4; one_in(2) && i + 1 < len; i++)
        bytes[i] = (uint8_t)(one_in(2) ? 0xFF : any());
    bytes[2] = 0;
    bytes[3] = whole || one_in(2) ? 0 : 0xFF;
    bytes[len - 1] = whole ? 0xFE : 0xFF;
}

/* A field becomes another by a little: in the length, the kind, the host, the id, the checksum or the finish byte. */
static void spoil(uint8_t *bytes, uint32_t len)
{
    const uint32_t at = one_in(3) ? len - 1 : one_in(4) ? len - 1 - below(6) % len : below(8) % len;
    bytes[at] = (uint8_t)(one_in(2) ? bytes[at] + 1 : one_in(2) ? bytes[at] - 1 : any());
}

static void header(uint8_t *block, uint8_t edition)
{
    const uint8_t time = (uint8_t)(one_in(20) ? below(2) : 1 + below(6));
    const uint8_t bytes[] = {16, 0, edition, 0x4A, (uint8_t)~time, 0xFF, 0xFF, 0xFF, (uint8_t)(one_in(10) ? 0xFE : 0xFC)};
    copy(block, bytes, sizeof bytes);
    if (one_in(30))
        fill(block + 4, 0, 4);
    if (one_in(12))
        spoil(block, HEADER);
}

/* A journal's plan: how many settled frames stand first, how many frames in all, which of them is spoiled, if one is. */
struct plan {
    uint32_t settled, frames, bad;
    uint8_t kinds; /* puts and deletes, or commits and aborts too */
};

/* The kind of a frame that is no settled one. */
static uint8_t any_kind(const struct plan *plan)
{
    return (uint8_t)(one_in(12) ? RESET : 1 + below(plan->kinds));
}

static struct plan any_plan(uint32_t size)
{
    struct plan plan;
    plan.settled = below(5);
    plan.frames = plan.settled + (one_in(3) ? size : below(8));
    plan.bad = one_in(3) ? below(12) : size;
    plan.kinds = (uint8_t)(one_in(3) ? 2 : one_in(10) ? 6 : 4);
    return plan;
}

/* Settled frames with rising ids, then others, as many as fit or fewer, then a tail that is blank or torn; where frames end. */
static uint32_t journal(uint8_t *block, uint32_t size)
{
    static uint8_t bytes[FRAME_MAX];
    const struct plan plan = any_plan(size);
    uint32_t at = HEADER;
    uint8_t id = (uint8_t)below(3), edition = (uint8_t)(1 + below(2));
    header(block, edition);
    for (uint32_t i = 0; i <= plan.frames; i++) {
        uint32_t len = frame(bytes, edition, i < plan.settled ? SETTLED : any_kind(&plan), id);
        id = (uint8_t)(id + !one_in(60) + (one_in(4) ? below(90) : 0));
        if (i >= plan.settled && one_in(8))
            close_frame(bytes, len, i < plan.frames);
        else if (i == plan.frames)
            len = one_in(2) ? 0 : below(len);
        if (i == plan.bad && len != 0)
            spoil(bytes, len);
        if (len > size - at)
            break;
        copy(block + at, bytes, len);
        at += i == plan.frames ? 0 : len;
    }
    return at;
}

void count_pending(const uint8_t *block, uint32_t end, uint8_t *counts)
{
    uint32_t bytes[4] = {0, 0, 0, 0};
    for (uint32_t at = HEADER; at + 5 <= end && block[at] != 0; at += block[at]) {
        const uint8_t kind = block[at + 2], host = block[at + 4] & 3;
        if (kind == PUT || kind == DELETE)
            bytes[host] += block[at];
        else if (kind == COMMIT || kind == ABORT)
            bytes[host] = 0;
        else if (kind == RESET)
            bytes[0] = bytes[1] = bytes[2] = bytes[3] = 0;
    }
    for (uint32_t host = 0; host < 4; host++) {
        counts[2 * host] = (uint8_t)bytes[host];
        counts[2 * host + 1] = (uint8_t)(bytes[host] >> 8);
    }
}

static void set_place(uint8_t *places, uint8_t id, uint32_t at)
{
    places[2 * id] = (uint8_t)at;
    places[2 * id + 1] = (uint8_t)(at >> 8);
}

/* A host's changes from this frame on, up to its commit. */
static void settle(const uint8_t *block, uint32_t at, uint32_t commit, uint8_t host, uint8_t *places)
{
    for (; at < commit; at += block[at]) {
        const uint8_t kind = block[at + 2];
        if ((kind == PUT || kind == DELETE) && (block[at + 4] & 3) == host)
            set_place(places, block[at + 5], kind == PUT ? at : 0);
    }
}

void place_objects(const uint8_t *block, uint32_t end, uint8_t *places)
{
    uint32_t since[4] = {0, 0, 0, 0}; /* by host, its first pending frame */
    for (uint32_t at = HEADER; at + 5 <= end && block[at] != 0; at += block[at]) {
        const uint8_t kind = block[at + 2], host = block[at + 4] & 3;
        if (kind == SETTLED)
            set_place(places, block[at + 4], at);
        else if ((kind == PUT || kind == DELETE) && since[host] == 0)
            since[host] = at;
        else if (kind == COMMIT && since[host] != 0)
            settle(block, since[host], at, host, places);
        if (kind == COMMIT || kind == ABORT)
            since[host] = 0;
        else if (kind == RESET)
            since[0] = since[1] = since[2] = since[3] = 0;
    }
}

uint32_t craft(const struct board *board, uint32_t full)
{
    const uint32_t size = board->len / board->blocks, alone = one_in(2);
    uint32_t end = 0;
    fill(board->image, 0xFF, board->len);
    for (uint32_t block = 0; block < board->blocks; block++) {
        if (block == full)
            end = journal(board->image + block * size, size);
        else if (!alone && one_in(4))
            journal(board->image + block * size, size);
    }
    return end;
}
