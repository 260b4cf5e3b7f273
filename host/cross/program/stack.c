/* How much stack each call takes: the bytes below the stack pointer are painted, and looked at after the call. */
#include "program.h"

/* No call may take more. */
enum { AREA = 4096, PAINT = 0x5A5A5A5A };
enum { RECORD_SIZE, MOUNT, FAULT, FORMAT, REQUEST, READ_CALL, NEXT, MADE, STEP, RUN, CALLS };

static const char *const names[CALLS] = {"record_size", "mount", "fault", "format", "request", "read", "next", "made", "step", "run"};
static uint32_t most[CALLS];
static uint8_t answer, host, out_byte;
static grommetide_size first, second;
static struct message sent;
static const uint8_t text[] = {'p', 'e', 'n', 'd', 'i', 'n', 'g'};

static void record_size(void) { first = grommetide_record_size(); }
static void mount(void) { answer = grommetide_mount(here.image, here.len, here.blocks, here.record, GROMMETIDE_RECORD_BYTES); }
static void fault(void) { answer = grommetide_fault(here.image, here.len, here.blocks, &first, &out_byte, &second); }
static void format(void) { answer = grommetide_format(here.image, here.len, here.blocks, here.record, GROMMETIDE_RECORD_BYTES); }
static void made(void) { answer = grommetide_made(here.image, here.len, here.blocks, here.record, GROMMETIDE_RECORD_BYTES); }
static void step(void) { answer = grommetide_step(here.image, here.len, here.blocks, here.record, GROMMETIDE_RECORD_BYTES); }

static void request(void)
{
    answer = grommetide_request(here.image, here.len, here.blocks, here.record, GROMMETIDE_RECORD_BYTES, host, sent.bytes,
                                sent.len, reply, 14);
}

static void read(void)
{
    answer = grommetide_read(here.image, here.len, here.blocks, here.record, GROMMETIDE_RECORD_BYTES, host, sent.bytes, sent.len,
                             &first, &second);
}

static void next(void)
{
    answer = grommetide_next(here.len, here.blocks, here.record, GROMMETIDE_RECORD_BYTES, &first, &second, &out_byte);
}

static void run(void)
{
    answer = grommetide_run(here.image, here.len, here.blocks, here.record, GROMMETIDE_RECORD_BYTES, UINT64_MAX, &first);
}

static void (*const calls[CALLS])(void) = {record_size, mount, fault, format, request, read, next, made, step, run};

static inline uintptr_t stack_pointer(void)
{
    uintptr_t at;
#if defined(__x86_64__)
    __asm__ volatile("mov %%rsp, %0" : "=r"(at));
#elif defined(__riscv)
    __asm__ volatile("mv %0, sp" : "=r"(at));
#else
    __asm__ volatile("mov %0, sp" : "=r"(at));
#endif
    return at;
}

/* From the stack pointer before the call's arguments are put on the stack. */
__attribute__((noinline)) static uint8_t measure(int call)
{
    volatile uint32_t *const area = (volatile uint32_t *)(stack_pointer() - AREA);
    uint32_t unused = 0;
    for (uint32_t i = 0; i < AREA / 4; i++)
        area[i] = PAINT;
    calls[call]();
    while (unused < AREA / 4 && area[unused] == PAINT)
        unused++;
    must(unused > 0);
    if (most[call] < AREA - 4 * unused)
        most[call] = AREA - 4 * unused;
    return answer;
}

/* A step, told before, and made again under the record from before it. */
static uint8_t steps_told(void)
{
    static uint8_t before[GROMMETIDE_RECORD_BYTES], after[GROMMETIDE_RECORD_BYTES];
    uint8_t stepped;
    measure(NEXT);
    copy(before, here.record, sizeof before);
    stepped = measure(STEP);
    copy(after, here.record, sizeof after);
    copy(here.record, before, sizeof before);
    must(measure(MADE) == stepped && same(here.record, after, sizeof after));
    return stepped;
}

/* All steps of the job in hand: in one run, and again one by one. */
static uint8_t finished(uint8_t begun)
{
    uint8_t end;
    if (begun != GROMMETIDE_MORE)
        return begun;
    copy_board(&twin, &here);
    end = measure(RUN);
    {
        const struct board ran = here;
        here = twin;
        twin = ran;
    }
    while (begun == GROMMETIDE_MORE)
        begun = steps_told();
    must(begun == end && same(here.image, twin.image, here.len) && same(here.record, twin.record, GROMMETIDE_RECORD_BYTES));
    return begun;
}

/* Messages are put together in a frame that is gone before a call is painted for: the micro:bit has 16 KB for all. */
__attribute__((noinline)) static void tells(uint8_t from, uint8_t kind, uint32_t id, const uint8_t *value, uint32_t len)
{
    host = from;
    sent = message_of(kind, id, value, len);
}

static uint8_t asks(uint8_t from, uint8_t kind, uint32_t id, const uint8_t *value, uint32_t len)
{
    tells(from, kind, id, value, len);
    return finished(measure(REQUEST));
}

/* Commit, abort, convert, and log of page 1. */
static uint8_t asks_bare(uint8_t from, uint8_t kind)
{
    static const uint8_t page = 1;
    return asks(from, kind, 0, &page, kind == LOG);
}

static uint8_t reads(uint8_t kind, uint32_t id, const uint8_t *value, uint32_t len)
{
    tells(0, kind, id, value, len);
    return measure(READ_CALL);
}

/* Puts of two hosts until a transfer has moved the store on. */
static void use_up(uint32_t size)
{
    uint8_t value[GROMMETIDE_VALUE_MAX];
    const uint32_t len = size / 4 < GROMMETIDE_VALUE_MAX ? size / 4 : GROMMETIDE_VALUE_MAX;
    for (uint32_t i = 0; here.image[size] == 0xFF; i++) {
        uint8_t put;
        fill(value, (uint8_t)i, sizeof value);
        asks(1, PUT, 2, value, 9);
        asks_bare(1, i % 2 == 0 ? ABORT : COMMIT);
        put = asks(0, PUT, i % 64, value, len);
        must(put == GROMMETIDE_DONE || put == GROMMETIDE_NO_ROOM);
        must(asks_bare(0, COMMIT) == GROMMETIDE_DONE);
    }
}

static void requests(void)
{
    must(asks(2, DELETE, 0, NULL, 0) == GROMMETIDE_DONE);
    must(asks_bare(2, COMMIT) == GROMMETIDE_DONE);
    must(asks_bare(2, LOG) == GROMMETIDE_DONE);
    must(asks(2, READ, 2, NULL, 0) == GROMMETIDE_DONE);
    must(asks(2, READ, 255, NULL, 0) == GROMMETIDE_NO_OBJECT);
    must(asks_bare(4, LOG) == GROMMETIDE_HOST_RANGE);
    host = 0;
    sent.len = 0;
    must(measure(REQUEST) == GROMMETIDE_MALFORMED);
    must(reads(READ, 2, NULL, 0) == GROMMETIDE_DONE);
    must(reads(READ, 255, NULL, 0) == GROMMETIDE_NO_OBJECT);
    must(reads(PUT, 2, text, sizeof text) == GROMMETIDE_MALFORMED);
}

/* A sound image, one whose last frame is wrong, and one whose headers are. */
static void broken(uint32_t size)
{
    uint32_t last = here.len - 1;
    measure(FAULT);
    must(answer == GROMMETIDE_DONE);
    while (here.image[last] != 0xFE)
        last--;
    here.image[last] = 0;
    must(measure(FAULT) == GROMMETIDE_FOREIGN);
    here.image[0] = 0;
    must(measure(FAULT) == GROMMETIDE_FOREIGN);
    here.image[size] = 0;
    must(measure(FAULT) == GROMMETIDE_FOREIGN);
}

/* Mounts that drop a change, and that close the first byte of a commit behind one too. */
static void mended(uint32_t size)
{
    for (int torn = 0; torn < 2; torn++) {
        must(asks(3, PUT, 9, text, sizeof text) == GROMMETIDE_DONE);
        if (torn)
            here.image[size * here.record[3] + here.record[4] + 256u * here.record[5]] = here.record[EDITION] == 2 ? 10 : 6;
        must(finished(measure(MOUNT)) == GROMMETIDE_DONE);
    }
}

static void use_all(uint32_t len, uint8_t blocks)
{
    const uint32_t size = len / blocks;
    clear(&here, len, blocks);
    must(finished(measure(MOUNT)) == GROMMETIDE_NO_STORE);
    must(finished(measure(FORMAT)) == GROMMETIDE_DONE);
    use_up(size);
    requests();
    mended(size);
    must(finished(measure(MOUNT)) == GROMMETIDE_DONE);
    must(asks_bare(0, CONVERT) == GROMMETIDE_DONE);
    requests();
    mended(size);
    broken(size);
    must(finished(measure(FORMAT)) == GROMMETIDE_DONE);
    measure(RECORD_SIZE);
}

/* A line for each call: its name and the most bytes that it took. Images are of at most `limit` bytes. */
void program(uint32_t rounds, uint32_t limit, uint32_t asked)
{
    static const struct { uint32_t len; uint8_t blocks; } images[] = {{512, 2}, {1152, 3}, {2048, 8}, {4096, 16}, {65536, 2}, {65536, 16}};
    (void)rounds;
    (void)asked;
    must(limit <= IMAGE_BYTES);
    for (uint32_t i = 0; i < sizeof images / sizeof images[0] && images[i].len <= limit; i++)
        use_all(images[i].len, images[i].blocks);
    for (int call = 0; call < CALLS; call++) {
        say("grommetide_");
        say(names[call]);
        say(" ");
        say_number(most[call]);
        say("\n");
    }
    platform_exit(0);
}
