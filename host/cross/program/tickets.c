/* The customer's tickets: examples/tickets 1 to 3, told there line by line. */
#include "program.h"

static void put(uint8_t host, uint8_t id, const char *text, uint32_t steps)
{
    const struct message message = put_of(id, text);
    serve(host, &message, steps);
}

static void commit(uint8_t host, uint32_t steps)
{
    const struct message message = bare(COMMIT);
    serve(host, &message, steps);
}

static void begin_commit(uint8_t host, uint32_t made)
{
    const struct message message = bare(COMMIT);
    must(ask(host, &message) == GROMMETIDE_MORE);
    goes_on(made);
}

/* A refused request changes nothing: record, image and reply are as they were. */
static void refused(uint8_t host, const struct message *message, uint8_t answer)
{
    uint8_t before[REPLY_BYTES];
    copy(before, reply, REPLY_BYTES);
    copy_board(&twin, &here);
    must(ask(host, message) == answer);
    must(same(here.image, twin.image, here.len) && same(here.record, twin.record, GROMMETIDE_RECORD_BYTES));
    must(same(reply, before, REPLY_BYTES));
}

static void bad_log_length(void)
{
    static const struct message six = {{6, 0, 6, 1, 1}, 5}, four = {{4, 0, 6, 1, 1}, 5}, more = {{5, 1, 6, 1, 1}, 5};
    clear(&here, 512, 2);
    formats(12);
    put(0, 5, "AB", 10);
    refused(2, &six, 1);
    refused(2, &four, 1);
    refused(2, &more, 1);
    is_idle(0, 26);
    begin_commit(0, 3);
    refused(2, &six, 5);
    goes_on(2);
    must(call_step(&here) == GROMMETIDE_DONE);
    put(1, 6, "CD", 10);
    commit(1, 6);
    holds(5, "AB");
    holds(6, "CD");
    log_says(1, 2, 34);
}

static void two_limits(void)
{
    clear(&here, 512, 2);
    formats(12);
    put(0, 1, "low 5", 13);
    put(0, 2, "high 80", 15);
    commit(0, 6);
}

static void changes(void)
{
    put(1, 1, "low 35", 14);
    put(3, 3, "blink", 13);
    put(1, 2, "high 100", 16);
}

static void limits_are(const char *low, const char *high)
{
    holds(1, low);
    holds(2, high);
    holds_none(3);
}

static void power_cuts(void)
{
    two_limits();
    changes();
    mounts(5);
    limits_are("low 5", "high 80");
    changes();
    begin_commit(1, 5);
    mounts(7);
    limits_are("low 5", "high 80");
    changes();
    commit(1, 6);
    begin_commit(3, 3);
    lose_record(&here);
    must(call_mount(&here) == GROMMETIDE_MORE);
    goes_on(4);
    mounts(9);
    limits_are("low 35", "high 100");
    commit(3, 0);
    limits_are("low 35", "high 100");
    is_idle(0, 217);
}

/* Power is lost inside the erase that comes next: each byte of the block becomes old OR mask, repeated from its start. */
static void cut_erase(const uint8_t *mask, uint32_t len)
{
    must(call_next(&here) == GROMMETIDE_ERASE);
    must(told.first % 256 == 0 && told.second == 256 && told.first < here.len);
    for (uint32_t i = 0; i < 256; i++)
        here.image[told.first + i] |= mask[i % len];
    lose_record(&here);
}

/* Of 100 bytes. */
static const char curve[] = "curve: 20 at 30, 35 at 40, 50 at 50, 65 at 60, 100 at 70; fans 1 to 4 alike, pump at 80 of 100, held";

/* Host 2 tries the curve and aborts it. */
static void try_curve(void)
{
    const struct message abort = bare(ABORT);
    put(2, 9, curve, 108);
    serve(2, &abort, 6);
}

/* When it tries again the block is full: the put begins with a transfer. */
static void try_again(uint32_t made)
{
    const struct message message = put_of(9, curve);
    must(ask(2, &message) == GROMMETIDE_MORE);
    goes_on(made);
}

/* That transfer is cut inside its last step, the erase. */
static void cut_transfer(uint8_t at, uint8_t bits, uint32_t len)
{
    uint8_t mask[64];
    fill(mask, 0, sizeof mask);
    mask[at] = bits;
    try_curve();
    try_again(36);
    cut_erase(mask, len);
}

static void lost_in_erase(void)
{
    static const uint8_t high_bits = 0xF0, odd_bits = 0x55;
    two_limits();
    cut_transfer(8, 0x01, 9);
    must(call_mount(&here) == GROMMETIDE_MORE);
    cut_erase(&high_bits, 1);
    mounts(1);
    holds(1, "low 5");
    holds(2, "high 80");
    log_says(2, 2, 42);
    cut_transfer(26, 0x02, 27);
    mounts(1);
    holds(1, "low 5");
    log_says(3, 2, 42);
    cut_transfer(4, 0x02, 52);
    mounts(1);
    holds(1, "low 5");
    log_says(4, 2, 42);
    try_curve();
    put(1, 1, "low 35", 14);
    try_again(20);
    lose_record(&here);
    must(call_mount(&here) == GROMMETIDE_MORE);
    cut_erase(&odd_bits, 1);
    mounts(6);
    holds(1, "low 5");
    holds(2, "high 80");
}

/* A format erases the block that holds the store last: cut after its first erase, everything is still there. */
static void cut_format(void)
{
    put(1, 1, "low 35", 14);
    commit(1, 6);
    mounts(0);
    holds(1, "low 35");
    is_idle(1, 195);
    must(call_format(&here) == GROMMETIDE_MORE);
    goes_on(1);
    mounts(0);
    holds(1, "low 35");
    holds(2, "high 80");
}

void tickets(void)
{
    bad_log_length();
    power_cuts();
    lost_in_erase();
    cut_format();
}
