/*
 * One program for every processor: it makes the same calls everywhere and writes, after each, four bytes of a running hash
 * of all that came back. Where two builds of the library differ, their streams differ from that call on.
 */
#ifndef PROGRAM_H
#define PROGRAM_H

#include "grommetide.h"

/* The longest image that there is memory for. */
#ifndef IMAGE_BYTES
#define IMAGE_BYTES 65536
#endif

/* How much of the stream is written at once. */
#ifndef STREAM_BYTES
#define STREAM_BYTES 256
#endif

enum { REPLY_BYTES = 16, MESSAGE_MAX = 260 };

/* What a platform has: where the stream goes, where words for people go, and the end. */
void platform_write(const uint8_t *bytes, uint32_t len);
void platform_say(const char *text);
_Noreturn void platform_exit(int code);

/* What a platform calls, with three numbers. */
void program(uint32_t first, uint32_t second, uint32_t third);

/* text.c */
void say(const char *text);
void say_number(uint64_t number);
void say_hex(const uint8_t *bytes, uint32_t len);
uint32_t decimal(const char **text);
_Noreturn void failed(const char *file, int line, const char *what);
#define must(what) ((what) ? (void)0 : failed(__FILE__, __LINE__, #what))

/* bytes.c */
void fill(uint8_t *to, uint8_t byte, uint32_t len);
void copy(uint8_t *to, const uint8_t *from, uint32_t len);
int same(const uint8_t *one, const uint8_t *other, uint32_t len);
int all(const uint8_t *bytes, uint8_t byte, uint32_t len);

/* What calls are made on. */
struct board {
    uint8_t *image, *record;
    uint32_t len, record_len;
    uint8_t blocks;
};

extern struct board here, twin;
extern uint8_t reply[REPLY_BYTES];

/* A message that is put together. */
struct message {
    uint8_t bytes[MESSAGE_MAX];
    uint32_t len;
};

/* What a call set its out-parameters to. */
struct told {
    uint64_t first, second;
    uint8_t byte;
};

extern struct told told;

/* calls.c: each makes one call of the library, checks the register that the answer came in and mixes what came back. */
void begin_calls(uint32_t asked);
uint32_t calls_made(void);
int was_seen(uint8_t answer);
/* What happened to the board beside calls; said with the call that is asked for. */
void event(const char *what);
void call_record_size(void);
uint8_t call_mount(const struct board *board);
uint8_t call_fault(const struct board *board);
uint8_t call_format(const struct board *board);
uint8_t call_request(const struct board *board, uint8_t host, const struct message *message, uint32_t reply_len);
uint8_t call_read(const struct board *board, uint8_t host, const struct message *message);
uint8_t call_next(const struct board *board);
uint8_t call_made(const struct board *board);
uint8_t call_step(const struct board *board);
uint8_t call_run(const struct board *board, uint64_t most);
void flush_calls(void);
void end_calls(void);

/* board.c */
void place(uint32_t image, uint32_t record);
void clear(struct board *board, uint32_t len, uint8_t blocks);
void lose_record(struct board *board);
void copy_board(struct board *to, const struct board *from);
void flash_step(struct board *board, uint8_t answer);
uint8_t step_beside(void);
uint8_t finish(uint8_t answer, uint32_t *steps);
void goes_on(uint32_t steps);
struct message message_of(uint8_t kind, uint32_t id, const uint8_t *value, uint32_t len);
struct message put_of(uint8_t id, const char *text);
struct message bare(uint8_t kind);
enum { PUT = 1, DELETE, COMMIT, ABORT, READ, LOG, CONVERT = 8 };
/* Where a record says the edition, and how many bytes more a frame has in edition 2. */
enum { EDITION = 15, PLACES = 16, SEAL = 4 };
uint8_t ask(uint8_t host, const struct message *message);
/* Answers DONE after exactly so many steps. */
void serve(uint8_t host, const struct message *message, uint32_t steps);
void mounts(uint32_t steps);
void formats(uint32_t steps);
void is_idle(uint8_t block, uint32_t end);
/* Nothing is pending, but so many bytes of this host. */
void is_pending(uint8_t host, uint32_t bytes);
void holds(uint8_t id, const char *text);
void holds_none(uint8_t id);
void log_says(uint32_t time, uint32_t count, uint32_t used);

/* chance.c: any number, one from 0 to n - 1, and whether that is 0. */
uint32_t any(void);
uint32_t below(uint32_t n);
int one_in(uint32_t n);

/* journal.c: flash with a journal in block `full`, and in others perhaps, foreign by a little or not; where its frames end. */
uint32_t craft(const struct board *board, uint32_t full);
/* What each host has pending in a journal whose frames end there: eight bytes of a record. */
void count_pending(const uint8_t *block, uint32_t end, uint8_t *counts);
/* And its places: where each object's settled frame is. */
void place_objects(const uint8_t *block, uint32_t end, uint8_t *places);

/* The parts of the run. */
void rows(void);
void tickets(void);
void driven(void);
void at_random(uint32_t rounds, uint32_t limit);

#endif
