/* Calls at random, on sound boards, forged records and damaged images, with cuts between steps and inside erases. */
#include "program.h"

/* Bytes of a block as a cut inside its erase may leave them: each bit as it was or 1. */
static void raise_bits(uint8_t *block, uint32_t size)
{
    const uint32_t way = below(6), from = below(size), bit = 1u << below(8);
    for (uint32_t i = 0; i < size; i++) {
        if (way == 0)
            block[i] |= (uint8_t)any();
        else if (way == 1 && i >= from)
            block[i] = 0xFF;
        else if (way == 2 && i < from)
            block[i] = 0xFF;
        else if (way == 3 && i == from % 16)
            block[i] |= (uint8_t)bit;
        else if (way == 4 && i != from % 16)
            block[i] = 0xFF;
    }
    if (way == 5)
        block[from] |= (uint8_t)bit;
}

static struct message any_message(void)
{
    static const uint8_t no_value[GROMMETIDE_VALUE_MAX] = {0};
    const uint8_t kind = (uint8_t)(one_in(20) ? CONVERT : 1 + below(one_in(40) ? 8 : 6));
    const uint32_t id = one_in(60) ? any() & 0xFFFF : one_in(30) ? 254 + below(4) : below(one_in(8) ? 256 : 6);
    const uint32_t len = below(one_in(6) ? GROMMETIDE_VALUE_MAX + 2 : 24);
    struct message message = message_of(kind, id, no_value, kind == PUT ? len > 240 ? 240 : len : kind == LOG);
    for (uint32_t i = 6; kind == PUT && i < message.len; i++)
        message.bytes[i] = one_in(5) ? 0xFF : (uint8_t)any();
    if (kind == LOG)
        message.bytes[4] = one_in(20) ? (uint8_t)any() : 1;
    if (one_in(50))
        message.len = below(MESSAGE_MAX);
    if (one_in(50) && message.len != 0)
        message.bytes[below(4) % message.len] = (uint8_t)any();
    for (uint32_t i = 0; one_in(100) && i < message.len; i++)
        message.bytes[i] = (uint8_t)any();
    return message;
}

/* The power goes; a format follows where there is no store to be mounted. */
static void restart(void)
{
    uint8_t answer;
    lose_record(&here);
    answer = call_mount(&here);
    if (answer != GROMMETIDE_MORE && answer != GROMMETIDE_DONE) {
        call_fault(&here);
        if (!one_in(5))
            answer = call_format(&here);
    }
    if (answer == GROMMETIDE_MORE && !one_in(4))
        call_run(&here, 100000);
}

/* The job in hand up to one of its erases, and the power lost in it. `behind` steps stand after a transfer's erase. */
static void cut_in_erase(uint32_t behind)
{
    uint32_t steps;
    copy_board(&twin, &here);
    call_run(&twin, 100000);
    steps = (uint32_t)told.first;
    if (steps > behind)
        call_run(&here, one_in(3) ? below(3) : steps - behind - 1);
    if (call_next(&here) == GROMMETIDE_ERASE) {
        must(told.second <= here.len && told.first <= here.len - told.second);
        raise_bits(here.image + told.first, (uint32_t)told.second);
    }
    restart();
}

static void go_on(uint32_t frame)
{
    switch (below(12)) {
    case 0:
        cut_in_erase(frame);
        break;
    case 1:
        call_run(&here, below(60));
        restart();
        break;
    case 2:
        for (uint32_t i = below(16); i != 0; i--)
            step_beside();
        break;
    case 3:
        for (uint32_t i = below(16); i != 0; i--)
            call_step(&here);
        break;
    default:
        call_run(&here, one_in(8) ? UINT64_MAX : 100000);
    }
}

static void any_request(void)
{
    const struct message message = any_message();
    const uint8_t host = (uint8_t)(one_in(40) ? any() : below(4));
    const uint8_t kind = message.bytes[2];
    const uint32_t seal = here.record[EDITION] == 2 ? SEAL : 0;
    const uint32_t frame = kind == PUT ? message.len + 2 : kind == DELETE ? 8 : 6;
    if (call_request(&here, host, &message, one_in(10) ? below(REPLY_BYTES) : 14) == GROMMETIDE_MORE)
        go_on(kind == CONVERT ? 0 : frame + seal);
}

static void any_read(void)
{
    struct message message = message_of(READ, below(one_in(4) ? 256 : 6), NULL, 0);
    if (one_in(20))
        message = any_message();
    call_read(&here, (uint8_t)(one_in(30) ? any() : below(4)), &message);
}

/* A format, a mount that may move the store, or a put, and some of its steps. */
static void into_job(void)
{
    const struct message put = put_of((uint8_t)below(6), "in the middle of a frame");
    uint8_t answer;
    if (one_in(4))
        answer = call_format(&here);
    else if (one_in(2)) {
        lose_record(&here);
        answer = call_mount(&here);
    } else
        answer = call_request(&here, (uint8_t)below(4), &put, 14);
    if (answer == GROMMETIDE_MORE)
        call_run(&here, below(50));
}

/* A byte of the record, mostly of the phase, the head, the first places or the job. */
static uint32_t record_byte(void)
{
    if (one_in(3))
        return below(GROMMETIDE_RECORD_BYTES);
    return one_in(3) ? PLACES + below(16) : one_in(2) ? below(PLACES) : 528 + below(52);
}

/* Some bytes of the record become others. */
static void forge(void)
{
    if (!one_in(3))
        into_job();
    for (uint32_t i = 1 + below(4); i != 0; i--) {
        const uint32_t at = record_byte();
        here.record[at] = (uint8_t)(one_in(2) ? below(10) : any());
    }
    event("a record forged");
    any_read();
    for (uint32_t i = below(6); i != 0; i--)
        step_beside();
    call_run(&here, below(200));
    if (!one_in(3))
        restart();
}

static void damage_block(uint8_t *block, uint32_t size)
{
    const uint32_t at = one_in(2) ? below(24) : below(size);
    switch (below(6)) {
    case 0: /* the last time that there is: worn */
        fill(block + 4, 0, 4);
        break;
    case 1: /* the block beside, so that times are equal */
        copy(block, block == here.image ? block + size : block - size, size);
        break;
    case 2:
        for (uint32_t i = 0; i < size; i++)
            block[i] = (uint8_t)(one_in(3) ? any() : 0xFF);
        break;
    case 3:
        block[at] = (uint8_t)any();
        break;
    default:
        block[at] ^= (uint8_t)(1u << below(8));
    }
}

/* Journals that no store wrote, and an idle record that fits one of them. */
static void by_hand(void)
{
    const uint32_t block = below(here.blocks), end = craft(&here, block), last = here.len - 1;
    const uint8_t head[] = {1, (uint8_t)last, (uint8_t)(last >> 8), (uint8_t)block, (uint8_t)end, (uint8_t)(end >> 8), here.blocks};
    fill(here.record, 0, GROMMETIDE_RECORD_BYTES);
    copy(here.record, head, sizeof head);
    count_pending(here.image + here.len / here.blocks * block, end, here.record + sizeof head);
    place_objects(here.image + here.len / here.blocks * block, end, here.record + PLACES);
    here.record[EDITION] = here.image[here.len / here.blocks * block + 2];
    if (one_in(8))
        here.record[sizeof head + below(9)] ^= (uint8_t)(1u << below(8));
    if (one_in(8))
        here.record[PLACES + below(16)] ^= (uint8_t)(1u << below(8));
    event("journals written by hand");
    for (uint32_t i = below(5); i != 0; i--)
        one_in(3) ? any_read() : any_request();
}

static void damage(void)
{
    const uint32_t size = here.len / here.blocks;
    if (one_in(3))
        by_hand();
    else {
        damage_block(here.image + size * below(here.blocks), size);
        event("an image damaged");
    }
    call_fault(&here);
    if (one_in(2))
        any_request();
    restart();
}

/* A call that is told another length of the image, number of blocks or length of the record. */
static void mislead(void)
{
    const struct board right = here;
    if (one_in(4))
        into_job();
    switch (below(3)) {
    case 0:
        here.blocks = (uint8_t)(one_in(2) ? any() : 16 * below(2) + below(2));
        if (one_in(2)) /* and a record that is forged to say the same */
            here.record[6] = here.blocks;
        break;
    case 1:
        here.len = one_in(2) ? here.len & (any() | 0xFF00) : below(here.len + 1);
        break;
    default:
        here.record_len = below(2000);
    }
    switch (below(8)) {
    case 0: call_step(&here); break;
    case 1: call_run(&here, below(20)); break;
    case 2: call_next(&here); break;
    case 3: call_made(&here); break;
    case 4: any_read(); break;
    case 5: call_fault(&here); break;
    case 6: one_in(2) ? call_mount(&here) : call_format(&here); break;
    default: any_request();
    }
    here.len = right.len;
    here.blocks = right.blocks;
    here.record_len = right.record_len;
}

static void one(void)
{
    const uint32_t which = below(100);
    if (which < 50)
        any_request();
    else if (which < 62)
        any_read();
    else if (which < 70)
        step_beside();
    else if (which < 76)
        call_run(&here, below(100));
    else if (which < 82)
        restart();
    else if (which < 86)
        call_fault(&here);
    else if (which < 90)
        forge();
    else if (which < 94)
        damage();
    else if (which < 97)
        mislead();
    else if (which < 99) {
        if (call_format(&here) == GROMMETIDE_MORE)
            go_on(10);
    } else
        call_record_size();
}

/* Two to sixteen blocks, mostly short ones, on a board that was formatted, is blank or has anything in its flash. */
static void begin_round(uint32_t limit, int wide)
{
    const uint32_t blocks = 2 + below(15), most = (limit / blocks - 256) / 128 + 1;
    const uint32_t more = below(wide ? most : most < 4 ? most : 4);
    place(one_in(8) ? below(4) : 0, one_in(8) ? below(4) : 0);
    clear(&here, blocks * (256 + 128 * more), (uint8_t)blocks);
    if (one_in(8))
        for (uint32_t i = 0; i < here.len; i++)
            here.image[i] = (uint8_t)(one_in(3) ? any() : 0xFF);
    if (one_in(8))
        restart();
    else if (call_format(&here) == GROMMETIDE_MORE)
        call_run(&here, 100000);
}

/* Each answer of the header must have come, if there were rounds enough for all. */
static void every_answer(void)
{
    for (uint32_t answer = 0; answer < 256; answer++)
        must(was_seen((uint8_t)answer) == (answer <= 12 || answer == GROMMETIDE_PENDING || answer >= 252));
}

void at_random(uint32_t rounds, uint32_t limit)
{
    for (uint32_t round = 0; round < rounds; round++) {
        const int wide = one_in(64);
        begin_round(limit, wide);
        for (uint32_t i = wide ? 30 : 100; i != 0; i--)
            one();
    }
    if (rounds >= 200)
        every_answer();
}
