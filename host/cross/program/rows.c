/* Document 01's bench rows a to p: S = 256, each value as its table has it; rows f and g as document 02's K11 has them, rows i
   to m as its K7 has them. */
#include "program.h"

#define S 256
#define HEADER_1 0x10, 0x00, 0x01, 0x4A, 0xFE, 0xFF, 0xFF, 0xFF, 0xFC
#define HEADER_2 0x10, 0x00, 0x01, 0x4A, 0xFD, 0xFF, 0xFF, 0xFF, 0xFC
#define REST 0xFF, 0xFF, 0xFF, 0xFF, 0xFF, 0xFF, 0xFF
#define FRAME_B 0x0A, 0x00, 0x01, 0x00, 0x02, 0x05, 0x00, 0x41, 0x42, 0xFE
#define FRAME_C 0x06, 0x00, 0x03, 0x00, 0x02, 0xFE
#define RESET 0x05, 0x00, 0x07, 0x00, 0xFE

static const struct message put_b = {{0x08, 0x00, 0x01, 0x01, 0x05, 0x00, 0x41, 0x42}, 8};
static const struct message commit_c = {{0x04, 0x00, 0x03, 0x01}, 4};

/* 64 KB of blank flash, to be read only: row p's longest image on boards that have no such memory, too. */
#define FF16 0xFF, 0xFF, 0xFF, 0xFF, 0xFF, 0xFF, 0xFF, 0xFF, 0xFF, 0xFF, 0xFF, 0xFF, 0xFF, 0xFF, 0xFF, 0xFF
#define FF128 FF16, FF16, FF16, FF16, FF16, FF16, FF16, FF16
#define FF1K FF128, FF128, FF128, FF128, FF128, FF128, FF128, FF128
#define FF8K FF1K, FF1K, FF1K, FF1K, FF1K, FF1K, FF1K, FF1K
_Alignas(4) static const uint8_t blank[65536] = {FF8K, FF8K, FF8K, FF8K, FF8K, FF8K, FF8K, FF8K};

/* The block begins with these bytes and is 0xFF after them. */
static void block_is(uint32_t block, const uint8_t *start, uint32_t len)
{
    must(same(here.image + block * S, start, len));
    must(all(here.image + block * S + len, 0xFF, S - len));
}

static void after_a(void)
{
    clear(&here, 2 * S, 2);
    fill(here.image, 0x5A, 2 * S);
    formats(12);
}

static void after_b(void)
{
    after_a();
    serve(2, &put_b, 10);
}

static void after_c(void)
{
    after_b();
    serve(2, &commit_c, 6);
}

static void rows_a_b_c(void)
{
    static const uint8_t a[] = {HEADER_1}, b[] = {HEADER_1, REST, FRAME_B}, c[] = {HEADER_1, REST, FRAME_B, FRAME_C};
    after_a();
    block_is(0, a, sizeof a);
    block_is(1, a, 0);
    is_idle(0, 16);
    after_b();
    block_is(0, b, sizeof b);
    block_is(1, b, 0);
    is_idle(0, 26);
    is_pending(2, 10);
    after_c();
    block_is(0, c, sizeof c);
    block_is(1, c, 0);
    is_idle(0, 32);
    is_pending(2, 0);
}

static void rows_d_e(void)
{
    static const struct message read = {{0x06, 0x00, 0x05, 0x01, 0x05, 0x00}, 6}, log = {{0x05, 0x00, 0x06, 0x01, 0x01}, 5};
    static const uint8_t page[] = {0x0E, 0x00, 0x01, 0x02, 0x01, 0x00, 0x00, 0x00, 0x01, 0x00, 0x19, 0x00, 0x00, 0x01};
    after_c();
    must(call_read(&here, 0, &read) == 0);
    must(told.first == 23 && told.second == 2);
    fill(reply, 0xEE, REPLY_BYTES);
    must(call_request(&here, 0, &log, 16) == 0);
    must(same(reply, page, 14) && reply[14] == 0xEE && reply[15] == 0xEE);
}

static void rows_f_g_h(void)
{
    static const uint8_t f[] = {HEADER_1, REST, FRAME_B, RESET};
    static const uint8_t g[] = {HEADER_1, REST, FRAME_B, 0x06, 0x00, 0x00, 0x00, 0x02, 0xFE, RESET};
    after_b();
    mounts(5);
    block_is(0, f, sizeof f);
    block_is(1, f, 0);
    is_idle(0, 31);
    log_says(1, 0, 16);
    after_b();
    must(ask(2, &commit_c) == GROMMETIDE_MORE);
    goes_on(5);
    mounts(7);
    block_is(0, g, sizeof g);
    block_is(1, g, 0);
    is_idle(0, 37);
    log_says(1, 0, 16);
    holds_none(5);
    after_c();
    mounts(0);
    log_says(1, 1, 25);
    holds(5, "AB");
}

/* A put of so many bytes, each the id. */
static struct message long_put(uint8_t id, uint32_t len)
{
    uint8_t value[GROMMETIDE_VALUE_MAX + 1];
    fill(value, id, sizeof value);
    return message_of(PUT, id, value, len);
}

/* Row i, the value of id 3 with `last` bytes. */
static void after_puts(uint32_t last)
{
    after_a();
    for (uint8_t id = 1; id <= 3; id++) {
        const uint32_t len = id == 3 ? last : 64;
        const struct message put = long_put(id, len);
        serve(0, &put, 8 + len);
        if (id < 3)
            must(ask(0, &put) == 12);
        serve(0, &commit_c, 6);
    }
}

static void rows_i_j_k(void)
{
    const struct message empty = long_put(4, 0);
    after_puts(64);
    is_idle(0, 250);
    log_says(1, 3, 229);
    must(ask(0, &empty) == 7);
    serve(0, &commit_c, 0);
    must(ask(0, &empty) == 7);
    after_puts(63);
    serve(0, &commit_c, 0);
    must(ask(0, &empty) == GROMMETIDE_MORE);
}

/* The value that row i put: 64 bytes, each the id. */
static void holds_64(uint8_t id)
{
    char text[65];
    fill((uint8_t *)text, id, 64);
    text[64] = 0;
    holds(id, text);
}

static void before_l(void)
{
    after_puts(64);
    serve(0, &commit_c, 0);
    is_idle(0, 250);
}

static void rows_l_m(void)
{
    static const uint8_t header[] = {HEADER_2, REST};
    static const uint8_t after[] = {8, 0, 2, 0, 0, 1, 0, 0xFE, 6, 0, 3, 0, 0, 0xFE, 8, 0, 1, 0, 0, 4, 0, 0xFE};
    static const struct message delete = {{0x06, 0x00, 0x02, 0x01, 0x01, 0x00}, 6};
    static const struct message empty = {{0x06, 0x00, 0x01, 0x01, 0x04, 0x00}, 6};
    const uint8_t *b = here.image + S;
    before_l();
    serve(0, &delete, 232);
    is_idle(1, 237);
    is_pending(0, 8);
    serve(0, &commit_c, 6);
    serve(0, &empty, 8);
    is_idle(1, 251);
    must(all(here.image, 0xFF, S) && same(b, header, 16));
    for (uint8_t id = 1; id <= 3; id++) {
        const uint8_t settled[] = {0x47, 0, 5, 0, id, 0};
        const uint8_t *frame = b + 16 + 71 * (id - 1);
        must(same(frame, settled, 6) && all(frame + 6, id, 64) && frame[70] == 0xFE);
    }
    must(same(b + 229, after, sizeof after) && all(b + 251, 0xFF, S - 251));
    for (uint32_t cut = 222; cut <= 223; cut++) {
        before_l();
        must(ask(0, &delete) == GROMMETIDE_MORE);
        goes_on(cut);
        mounts(1);
        log_says(cut - 221, 3, 229);
        holds_64(1);
        holds_64(2);
        holds_64(3);
    }
}

/* One put on a fresh store. */
static uint8_t put_answer(uint8_t host, uint32_t id)
{
    static const uint8_t value[] = {7, 7};
    const struct message put = message_of(PUT, id, value, 2);
    after_a();
    return ask(host, &put);
}

/* The value cases are those of document 02's K2: 240 bytes, S = 512. */
static void rows_n_o(void)
{
    static const struct message short_commit = {{0x05, 0x00, 0x03, 0x01}, 4};
    const struct message longest = long_put(9, 240), longer = long_put(9, 241);
    after_a();
    must(ask(0, &short_commit) == 1);
    must(put_answer(0, 255) == GROMMETIDE_MORE);
    must(put_answer(0, 256) == 1);
    must(put_answer(3, 1) == GROMMETIDE_MORE);
    must(put_answer(4, 1) == 10);
    after_a();
    must(ask(0, &longest) == 12);
    must(ask(0, &longer) == 1);
    clear(&here, 1024, 2);
    formats(12);
    must(ask(0, &longer) == 1);
    serve(0, &longest, 248);
    is_idle(0, 264);
    must(here.image[16] == 248 && here.image[263] == 0xFE && all(here.image + 23, 9, 240));
}

static void row_p(void)
{
    static const uint32_t allowed[] = {512, 768, 65536}, refused[] = {256, 511};
    uint8_t *const own = here.image;
    clear(&here, 512, 2);
    here.image = (uint8_t *)(uintptr_t)blank; /* mount and format do not write to it */
    for (int i = 0; i < 3; i++) {
        here.len = allowed[i];
        must(call_mount(&here) == 2);
        must(call_format(&here) == GROMMETIDE_MORE);
    }
    for (int i = 0; i < 2; i++) {
        here.len = refused[i];
        must(call_mount(&here) == 4);
        must(call_format(&here) == 4);
    }
    here.image = own;
}

void rows(void)
{
    rows_a_b_c();
    rows_d_e();
    rows_f_g_h();
    rows_i_j_k();
    rows_l_m();
    rows_n_o();
    row_p();
}
