#include "store.h"

#include "say.h"
#include "start.h"
#include "uart.h"

static uint8_t record[GROMMETIDE_RECORD_BYTES];
static uint32_t steps;

/* In the sector behind the store while a format is under way. Written to its end before the first step of the format. */
static const uint8_t under_way[] = {'f', 'o', 'r', 'm', 'a', 't', '.', '.'};

const uint8_t *store_image(void)
{
    return nor_mapped(STORE_AT);
}

/* A chip that does not do as told must not be used on: the record would go on where the flash has not. */
static void stop_at(const struct nor_trouble *trouble)
{
    say("flash: the chip ");
    say(trouble->what);
    say(" at byte ");
    say_number(trouble->at);
    say(": it holds ");
    say_hex(trouble->found, 2);
    say(", not ");
    say_hex(trouble->wanted, 2);
    say_line(". Stopped.");
    stop();
}

static void program(uint32_t at, uint8_t byte)
{
    struct nor_trouble trouble;
    if (!nor_program(at, byte, &trouble))
        stop_at(&trouble);
}

static void erase(uint32_t at, uint32_t len)
{
    struct nor_trouble trouble;
    if (!nor_erase(at, len, &trouble))
        stop_at(&trouble);
}

/* Makes the steps of the job that a call has begun. Between them the serial line is served. */
static uint8_t finish(uint8_t answer)
{
    steps = 0;
    while (answer == GROMMETIDE_MORE) {
        grommetide_size at, len;
        uint8_t byte;
        const uint8_t told = grommetide_next(STORE_BYTES, STORE_BLOCKS, record, sizeof record, &at, &len, &byte);
        if (told == GROMMETIDE_PROGRAM)
            program(STORE_AT + (uint32_t)at, byte);
        else if (told == GROMMETIDE_ERASE)
            erase(STORE_AT + (uint32_t)at, (uint32_t)len);
        answer = grommetide_made(store_image(), STORE_BYTES, STORE_BLOCKS, record, sizeof record);
        steps++;
        uart_poll();
    }
    return answer;
}

uint32_t store_steps(void)
{
    return steps;
}

uint8_t store_mount(void)
{
    return finish(grommetide_mount(store_image(), STORE_BYTES, STORE_BLOCKS, record, sizeof record));
}

int store_format_was_cut(void)
{
    const uint8_t *flag = nor_mapped(STORE_FLAG);
    for (unsigned i = 0; i < sizeof under_way; i++)
        if (flag[i] != under_way[i])
            return 0;
    return 1;
}

uint8_t store_format(void)
{
    if (!store_format_was_cut()) {
        erase(STORE_FLAG, NOR_SECTOR);
        for (unsigned i = 0; i < sizeof under_way; i++)
            program(STORE_FLAG + i, under_way[i]);
    }
    const uint8_t answer = finish(grommetide_format(store_image(), STORE_BYTES, STORE_BLOCKS, record, sizeof record));
    if (answer == GROMMETIDE_DONE)
        erase(STORE_FLAG, NOR_SECTOR);
    return answer;
}

static uint8_t request(uint8_t host, const uint8_t *message, uint32_t len, uint8_t *reply, uint32_t reply_len)
{
    return finish(grommetide_request(store_image(), STORE_BYTES, STORE_BLOCKS, record, sizeof record, host, message, len,
                                     reply, reply_len));
}

uint8_t store_request(uint8_t host, const uint8_t *message, uint32_t len)
{
    uint8_t none[1];
    return request(host, message, len, none, 0);
}

uint8_t store_read(uint16_t id, const uint8_t **value, uint32_t *len)
{
    const uint8_t message[] = {6, 0, 0x05, 1, (uint8_t)id, (uint8_t)(id >> 8)};
    grommetide_size at = 0, bytes = 0;
    const uint8_t answer = grommetide_read(store_image(), STORE_BYTES, STORE_BLOCKS, record, sizeof record, 0, message,
                                           sizeof message, &at, &bytes);
    *value = store_image() + (uint32_t)at;
    *len = (uint32_t)bytes;
    return answer;
}

static uint32_t number_at(const uint8_t *bytes, unsigned count)
{
    uint32_t number = 0;
    while (count-- > 0)
        number = number << 8 | bytes[count];
    return number;
}

uint8_t store_log(struct store_log *log)
{
    static const uint8_t message[] = {5, 0, 0x06, 1, 1};
    uint8_t page[14];
    const uint8_t answer = request(0, message, sizeof message, page, sizeof page);
    if (answer == GROMMETIDE_DONE) {
        log->time = number_at(page + 4, 4);
        log->objects = number_at(page + 8, 2);
        log->used = number_at(page + 10, 2);
        log->block = number_at(page + 12, 2);
    }
    return answer;
}

uint8_t store_fault(struct store_fault *fault)
{
    grommetide_size block, place;
    const uint8_t answer = grommetide_fault(store_image(), STORE_BYTES, STORE_BLOCKS, &block, &fault->field, &place);
    fault->block = (uint32_t)block;
    fault->place = (uint32_t)place;
    return answer;
}

int store_is_blank(void)
{
    for (uint32_t i = 0; i < STORE_BYTES; i++)
        if (store_image()[i] != 0xFF)
            return 0;
    return 1;
}

int store_is_worn(void)
{
    struct store_log log;
    return store_log(&log) == GROMMETIDE_DONE && log.time == 0xFFFFFFFFu;
}
