#include "program.h"
#include "raw.h"

/* What numbers are before a call sets them. */
#define UNTOLD 0xA5A5A5A5A5A5A5A5u

struct told told;
_Alignas(4) uint8_t reply[REPLY_BYTES];

static uint32_t hash, number, asked;
static const char *happened;
static uint32_t seen[8];
static uint8_t stream[STREAM_BYTES];
static uint32_t streamed;

void begin_calls(uint32_t call)
{
    hash = 2166136261u;
    number = 0;
    asked = call;
    happened = "";
    fill(reply, 0xEE, sizeof reply);
}

uint32_t calls_made(void)
{
    return number;
}

int was_seen(uint8_t answer)
{
    return (int)(seen[answer >> 5] >> (answer & 31) & 1);
}

void event(const char *what)
{
    happened = what;
}

/* For a fixed number it is one to one in the hash, and the other way round: one word that differs is never lost. */
static inline uint32_t mixed(uint32_t old, uint32_t word)
{
    const uint32_t new = (old ^ word) * 16777619u;
    return new << 13 | new >> 19;
}

static inline uint32_t word(const uint8_t *b)
{
    return (uint32_t)b[0] | (uint32_t)b[1] << 8 | (uint32_t)b[2] << 16 | (uint32_t)b[3] << 24;
}

/* Words are little-endian on every target. Most buffers stand at multiples of four, which is quicker. */
static uint32_t mixed_bytes(uint32_t old, const uint8_t *bytes, uint32_t len)
{
    uint32_t i = 0;
    if (((uintptr_t)bytes & 3) == 0) {
        const uint8_t *b = __builtin_assume_aligned(bytes, 4);
        for (; i + 4 <= len; i += 4)
            old = mixed(old, word(b + i));
    }
    for (; i + 4 <= len; i += 4)
        old = mixed(old, word(bytes + i));
    for (; i < len; i++)
        old = mixed(old, bytes[i]);
    return old;
}

static void write_hash(void)
{
    if (asked != 0)
        return;
    for (int i = 0; i < 4; i++)
        stream[streamed++] = (uint8_t)(hash >> 8 * i);
    if (streamed == sizeof stream)
        flush_calls();
}

static void say_part(const char *name, const uint8_t *bytes, uint32_t len)
{
    say(name);
    say_number(mixed_bytes(0, bytes, len));
}

static void say_board(const struct board *board)
{
    say_part("\n  hashes: image ", board->image, board->len);
    say_part(", record ", board->record, GROMMETIDE_RECORD_BYTES);
    say_part(", reply ", reply, sizeof reply);
    say("; the record begins");
    say_hex(board->record, 7);
    say("\n");
}

/* A number that belongs to the call, for the call that is asked for. */
static void with(const char *name, uint64_t value)
{
    if (number == asked) {
        say(name);
        say_number(value);
    }
}

static void begin(const char *name, const struct board *board)
{
    number++;
    told.first = told.second = UNTOLD;
    told.byte = (uint8_t)UNTOLD;
    if (number != asked)
        return;
    say("call ");
    say_number(number);
    say(": grommetide_");
    say(name);
    with(", image of ", board->len);
    with(" bytes, blocks ", board->blocks);
    with(", record of ", board->record_len);
    if (*happened != 0) {
        say("; before it: ");
        say(happened);
    }
    say_board(board);
}

static void say_end(const struct board *board, unsigned long answer)
{
    with("  answer ", answer);
    if (told.first != UNTOLD)
        with(", told ", told.first);
    if (told.second != UNTOLD)
        with(" ", told.second);
    if (told.byte != (uint8_t)UNTOLD)
        with(" ", told.byte);
    say_board(board);
    platform_exit(0);
}

static uint8_t end(const struct board *board, unsigned long answer)
{
    const uint8_t byte = (uint8_t)answer;
    const uint64_t numbers[] = {told.first, told.second};
    if (ANSWER_IS_EXTENDED)
        must(answer == byte);
    hash = mixed(mixed(hash, byte), told.byte);
    for (int i = 0; i < 2; i++)
        hash = mixed(mixed(hash, (uint32_t)numbers[i]), (uint32_t)(numbers[i] >> 32));
    hash = mixed_bytes(hash, board->record, GROMMETIDE_RECORD_BYTES);
    hash = mixed_bytes(hash, reply, sizeof reply);
    hash = mixed_bytes(hash, board->image, board->len);
    write_hash();
    seen[byte >> 5] |= 1u << (byte & 31);
    happened = "";
    if (number == asked)
        say_end(board, byte);
    return byte;
}

void call_record_size(void)
{
    begin("record_size", &here);
    told.first = grommetide_record_size();
    must(told.first == GROMMETIDE_RECORD_BYTES);
    end(&here, 0);
}

uint8_t call_mount(const struct board *b)
{
    begin("mount", b);
    return end(b, raw_mount(b->image, b->len, b->blocks, b->record, b->record_len));
}

uint8_t call_fault(const struct board *b)
{
    grommetide_size block, place;
    unsigned long answer;
    begin("fault", b);
    block = told.first;
    place = told.second;
    answer = raw_fault(b->image, b->len, b->blocks, &block, &told.byte, &place);
    told.first = block;
    told.second = place;
    return end(b, answer);
}

uint8_t call_format(const struct board *b)
{
    begin("format", b);
    return end(b, raw_format(b->image, b->len, b->blocks, b->record, b->record_len));
}

static void say_message(uint8_t host, const struct message *message)
{
    with("  host ", host);
    with(", message of ", message->len);
    if (number == asked) {
        say(" bytes:");
        say_hex(message->bytes, message->len < 16 ? message->len : 16);
        say(message->len > 16 ? " ..\n" : "\n");
    }
}

uint8_t call_request(const struct board *b, uint8_t host, const struct message *message, uint32_t reply_len)
{
    begin("request", b);
    say_message(host, message);
    with("  reply of ", reply_len);
    return end(b, raw_request(b->image, b->len, b->blocks, b->record, b->record_len, host, message->bytes, message->len,
                              reply, reply_len));
}

uint8_t call_read(const struct board *b, uint8_t host, const struct message *message)
{
    grommetide_size at, len;
    unsigned long answer;
    begin("read", b);
    say_message(host, message);
    at = told.first;
    len = told.second;
    answer = raw_read(b->image, b->len, b->blocks, b->record, b->record_len, host, message->bytes, message->len, &at, &len);
    told.first = at;
    told.second = len;
    return end(b, answer);
}

uint8_t call_next(const struct board *b)
{
    grommetide_size at, len;
    unsigned long answer;
    begin("next", b);
    at = told.first;
    len = told.second;
    answer = raw_next(b->len, b->blocks, b->record, b->record_len, &at, &len, &told.byte);
    told.first = at;
    told.second = len;
    return end(b, answer);
}

uint8_t call_made(const struct board *b)
{
    begin("made", b);
    return end(b, raw_made(b->image, b->len, b->blocks, b->record, b->record_len));
}

uint8_t call_step(const struct board *b)
{
    begin("step", b);
    return end(b, raw_step(b->image, b->len, b->blocks, b->record, b->record_len));
}

uint8_t call_run(const struct board *b, uint64_t most)
{
    grommetide_size steps;
    unsigned long answer;
    begin("run", b);
    with("  at most ", most);
    steps = told.first;
    answer = raw_run(b->image, b->len, b->blocks, b->record, b->record_len, most, &steps);
    told.first = steps;
    return end(b, answer);
}

void flush_calls(void)
{
    platform_write(stream, streamed);
    streamed = 0;
}

void end_calls(void)
{
    flush_calls();
    if (asked != 0) {
        say("there is no such call; the calls are ");
        say_number(number);
        say("\n");
        platform_exit(1);
    }
}
