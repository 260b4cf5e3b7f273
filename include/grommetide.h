/*
 * Grommetide: a settings store in two to sixteen blocks of NOR flash, for firmware.
 *
 * The store keeps objects (an id from 0 to 255 and a value of 0 to 240 bytes) for four hosts. Power may be cut between any
 * two flash steps and inside an erase, except a format's ("What the flash must do"). docs/STORE.md has its rules,
 * docs/FORMAT.md the bytes in flash, docs/PORTING.md the way from a bare board to the first commit. Link with
 * libgrommetide.a, which is made for x86-64 by `make` and for other processors by `make TARGET=..`.
 *
 * How it is used
 *
 *   1. After power-up call grommetide_mount. If it answers GROMMETIDE_NO_STORE, call grommetide_format.
 *   2. Pass each host's message to grommetide_request.
 *   3. Whenever a call answers GROMMETIDE_MORE, a job is in the record. Make its flash steps ("How flash is connected") for
 *      as long as the answer is GROMMETIDE_MORE. Other work may be done between steps; until the last one every request
 *      gets GROMMETIDE_BUSY. Then the answer is GROMMETIDE_DONE; any other answer means that record or image are not those
 *      of the last call.
 *   4. If power is lost, all that counts is in the flash: go to 1.
 *
 *   A mount that answers GROMMETIDE_FOREIGN or GROMMETIDE_WORN changes nothing and will answer the same again. After
 *   GROMMETIDE_FOREIGN, grommetide_fault says where the image broke. Only a format helps, and it loses all objects; before
 *   that the image can be read out (docs/FORMAT.md). If a format did not end, because power was lost, format again.
 *
 * The image
 *
 *   The image is N blocks of S bytes each, block 0 first; N is 2 to GROMMETIDE_BLOCKS_MAX and is given as `blocks` with
 *   every call that takes an image. image_len is N * S, at most 65,536, and S is a multiple of 128 from 256 up; so with two
 *   blocks it is a multiple of 256 from 512 on. The flash does not say what N is: always give the same, since a mount that is
 *   told another may not see the store, or take it wrongly and lose it.
 *
 *   A flash step programs one byte (new = old AND given, so bits are only cleared) or erases one block (all its bytes become
 *   0xFF). Programming 0xFF is a step too, which changes nothing. What one host has pending may come to half a block: with
 *   S = 256 values may have up to 120 bytes, with S = 384 up to 184, from S = 512 on all may be put; in edition 2 it is 116,
 *   180 and again all (docs/STORE.md, Room).
 *
 *   At rest one block holds the store and the others are blank. When it is full, what counts moves to the next block in
 *   number, after the last one to block 0, and the old block is erased: the blocks wear in turn. With more of them each is
 *   erased less often.
 *
 * How flash is connected
 *
 *   There are three ways. What they do is the same, byte for byte: it is proved that grommetide_next, its flash step and
 *   grommetide_made together are grommetide_step, on any image and record.
 *
 *   1. Flash that is mapped into memory. The image is the mapped flash itself, and no copy is needed: no call here writes to
 *      it. grommetide_next says what the next step is; the driver has the chip do it, waits until the flash can be read
 *      again and drops what a cache holds of it; grommetide_made moves the record on. examples/c/spi_nor.c does this with
 *      an SPI chip.
 *
 *          do {
 *              told = grommetide_next(image_len, blocks, record, record_len, &at, &len, &byte);
 *              if (told == GROMMETIDE_PROGRAM)
 *                  program(at, byte);
 *              else if (told == GROMMETIDE_ERASE)
 *                  erase(at, len);
 *              answer = grommetide_made(image, image_len, blocks, record, record_len);
 *          } while (answer == GROMMETIDE_MORE);
 *
 *   2. Memory that plain writes can change: RAM in a simulator or a test, FRAM. grommetide_step makes the next step itself,
 *      grommetide_run many in one call. No other call writes to the image.
 *
 *   3. Flash that can't be mapped. The image is a copy in RAM, read from the chip after power-up. What grommetide_next says
 *      is done to the chip and to the copy, then grommetide_made is called with the copy. examples/c/restart.c does this.
 *
 *   A power cut after the flash step and before grommetide_made is a cut after that step. grommetide_next changes nothing,
 *   so it may be asked again. Call grommetide_made only for a step that was made; a driver need not send 0xFF to the chip.
 *
 * What the flash must do
 *
 *   - Erased bytes read 0xFF, and each block can be erased by itself: S is a whole number of sectors.
 *   - Bytes can be programmed one at a time, at any address. The store asks for no alignment.
 *   - A byte may be programmed again while bits are only cleared. There are two such bytes. Byte 8 of a block's header goes
 *     from 0xFF to 0xFE and later to 0xFC. And since 0.10 byte 2 of a frame that a power cut left unfinished, its kind, goes
 *     from 1, 2, 3, 4 or 7 to 0 in the next mount. So flash with ECC over words, and flash whose words can be written only
 *     once, will not do.
 *   - A power cut falls between steps or inside an erase. Inside an erase it leaves each bit of the block as it was or 1,
 *     freely; so a block of several sectors may be erased sector by sector, in any order. Programming a byte happens whole
 *     or not at all. The proofs assume this; a flash that a cut leaves with a weakly programmed byte, or with bits that
 *     read now so and now so, is not covered: such a byte may make its block foreign, and a mount then answers
 *     GROMMETIDE_FOREIGN and changes nothing, or it may go unnoticed. Nor is a cut inside one of a format's erases covered:
 *     format again.
 *   - Times run out in the end: a block made at time 4,294,967,295 is the last. A mount of it that finds something pending,
 *     after a power cut, and has no room for a reset (below), is refused with GROMMETIDE_WORN.
 *   - Flash reads back what was programmed. What damage is noticed goes by the block's edition, see below.
 *
 * After a power cut
 *
 *   A mount that finds a frame cut off (torn), or changes that no host has committed, mends the block in place. It closes
 *   the torn frame: at most 4 bytes are programmed, and the frame then means nothing. If anything is pending it writes a
 *   reset behind that, a frame of 5 bytes, in edition 2 of 9, by which all of it is dropped. So it programs at most 13 bytes,
 *   and it erases no block that was blank. Power may be lost in it too: mount again. Only where a reset is due and has no
 *   room left in the block do the settled objects move to the next block instead: U - 5 steps, the last of them an erase,
 *   where U is what they need.
 *
 *   Closed frames and resets stay in the block until the store moves on to the next one. They take room there, at most the
 *   torn frame's bytes and 9 more for each mount, so the store moves on a little earlier. No request is refused for them,
 *   except at the last creation time, where GROMMETIDE_WORN comes earlier.
 *
 *   Do not go back to a library before 0.10 once a mount of 0.10 may have mended the block. To it a block with a closed frame
 *   or a reset is foreign: a mount answers GROMMETIDE_FOREIGN. One of 0.4 to 0.9 that finds an older block beside it which
 *   still reads as valid, half erased, keeps that one and erases the good one. (A mount of 0.10 mends only when all other
 *   blocks are blank, so it does not leave two such blocks side by side.) So all firmware that may be started on a board, a
 *   fallback image too, must have 0.10 before the first mount by 0.10. Going back is safe only while the store is in a block
 *   that has no such frame: from the end of a job that moved the store to another block, or of a format, until the next mount
 *   that mends. The log page shows a move: its creation time is one more than before. No request asks for a move alone, so
 *   put and commit until it comes; then go back with nothing pending and no job under way.
 *
 * The two editions of the flash format
 *
 *   Edition 1 has no checksum: damage that leaves legal frames goes unnoticed. In edition 2 each frame has a CRC-32 over all
 *   that precedes it in the frame, so damage to a frame is noticed: always if its length stands and all that changed lies in
 *   four bytes one after the other, otherwise in all but about one of 4,294,967,296 cases (what is known of every CRC-32,
 *   and not proved here; that our bytes are a CRC-32's is); except if its kind becomes 0. A mount then answers
 *   GROMMETIDE_FOREIGN, and grommetide_fault names GROMMETIDE_FIELD_CRC or another field of that frame; a request on a
 *   mounted store gets GROMMETIDE_STALE. Not told in either edition: damage that leaves just what a power cut could have left
 *   (the last frame ends in 0xFF, or is gone; a block's byte 8 is 0xFE); a frame whose kind has become 0, since it reads as a
 *   closed one, whose body and CRC are ignored (a put, a delete or an abort must lose one bit for that, a commit two); and
 *   another time in a block's header, which has no checksum.
 *
 *   A block's edition is told by its header's kind (GROMMETIDE_BLOCK_KIND, GROMMETIDE_BLOCK_KIND_2), that of the mounted
 *   store by byte 15 of the record. A format writes edition 1. A store of edition 1 stays so until a host sends a convert,
 *   the message 04 00 08 01. The store then moves to the next block in edition 2: U - 5 steps, the last of them an erase,
 *   where U is what the objects need in edition 2, 16 bytes, and 11 and the value for each. A convert changes no object. A
 *   power cut in it, between steps or inside its erase, leaves the store in edition 1 or in edition 2, whole: mount, and
 *   convert again if byte 15 is 1.
 *
 *   A convert is refused with GROMMETIDE_PENDING if any host has something pending, then with GROMMETIDE_NO_ROOM exactly if
 *   U in edition 2 is more than S, then with GROMMETIDE_WORN at the last time. In edition 2 it is GROMMETIDE_DONE at once,
 *   unless something is pending. Only a format leads back to edition 1, and it loses all objects.
 *
 *   Tight stores. A convert asks only whether the objects fit. Where U in edition 2 is more than S - 22, no put or delete
 *   has room any more after it (GROMMETIDE_NO_ROOM; GROMMETIDE_HOST_FULL if a value alone is over half a block); read, log,
 *   commit, abort and mount work as ever. So with S = 256 and two values of 101 bytes: U is 232 before and 240 after. The
 *   way out is to read all objects, format, and put them again.
 *   Better look before: U in edition 2 is the log page's U and 4 more for each of its objects. If that is more than S - 22,
 *   delete something first, or stay in edition 1.
 *
 *   After a convert never go back to a library before 0.9. To it a block of edition 2 is foreign, at its kind: a mount
 *   answers GROMMETIDE_FOREIGN. And if the convert's erase was cut, so that the old block of edition 1 still reads as valid,
 *   a library of 0.4 to 0.8 keeps that one and erases the good block of edition 2.
 *
 * The record
 *
 *   GROMMETIDE_RECORD_BYTES bytes, in the caller's memory; it need not survive a power cut. mount and format write it,
 *   whatever was in it; the other calls take it as the last call left it. Numbers are little-endian.
 *
 *     0      phase: 0 unmounted, 1 idle, 2 to 8 in a job; any other value reads as unmounted
 *     1-2    image length less one
 *     3      current block, from 0 on
 *     4-5    where the current block's frames end, counted from its start
 *     6      number of blocks
 *     7-14   pending bytes of hosts 0 to 3, two bytes each
 *     15     edition of the current block, 1 or 2
 *     16-527 places of objects 0 to 255, two bytes each: the offset in the current block of the frame that the settled value
 *            stands in, 0 if there is none
 *     528-1083 the library's own: 528-579 the job, 580-831 and 832-1083 frames in hand
 *
 *   Bytes 1 to 527 mean this in an idle record. An unmounted or idle record that the library hands out has zeros in all
 *   bytes it does not use. A record that does not belong to the image is noticed (GROMMETIDE_STALE): by all requests but a
 *   read, which looks at one frame only (grommetide_read). Or, in a job, it does one flash step at a time and ends, or is
 *   noticed, within 65,536 steps.
 *
 * Rules for all calls
 *
 *   No pointer may be NULL, also where its length is 0. Buffers and numbers that a call writes to overlap no others. A
 *   refusal, which is any answer from 1 to 16 or 254, leaves image, record and reply as they are; only a mount or format
 *   refused with 2, 3, 4 or 6 makes the record an unmounted one, and a run may make steps before it is refused. Nothing is
 *   kept between calls, so calls on different buffers may run at the same time in different threads; calls that share a
 *   buffer which one of them writes to may not.
 *
 * What it needs
 *
 *   No heap, no input or output, no static data that is written to, no floating-point numbers. These symbols stay undefined,
 *   and no others (held by a test); a C library or the compiler's own runtime has them, examples/ast1030/runtime.c those of
 *   a Cortex-M:
 *
 *     x86-64, AArch64, RISC-V 64   memcpy, memset
 *     RISC-V 32                    memcpy, memset, __udivdi3
 *     Cortex-M3, Cortex-M4         __aeabi_memcpy, __aeabi_memcpy4, __aeabi_memcpy8, __aeabi_memset, __aeabi_memclr,
 *                                  __aeabi_memclr4, __aeabi_memclr8, __aeabi_uldivmod
 *     Cortex-M0                    these, __aeabi_lmul and __aeabi_uidiv
 *     WebAssembly                  none
 *
 *   For x86-64 it is compiled under the System V ABI. It moves data through the SSE registers (xmm, SSE2), so whoever
 *   switches tasks or takes interrupts must save them; it uses neither AVX nor x87 and leaves MXCSR alone. As the ABI says,
 *   the stack must be aligned to 16 bytes at a call, and whoever interrupts must leave the red zone alone, 128 bytes below
 *   the stack pointer. On AArch64 it moves data through the vector registers too, unless TARGET_FLAGS=-mgeneral-regs-only.
 *
 *   Bytes of stack that a call takes at most, its arguments and return address included (held by tests that paint the
 *   stack):
 *
 *                               x86-64   Cortex-M3
 *     grommetide_mount           2,304       2,176
 *     grommetide_fault           1,280       1,024
 *     grommetide_format          1,024       1,472
 *     grommetide_request         2,560       2,432
 *     grommetide_read              640         320
 *     grommetide_next              256         256
 *     grommetide_made            2,560       2,560
 *     grommetide_step            2,688       2,560
 *     grommetide_run             3,072       2,944
 */
#ifndef GROMMETIDE_H
#define GROMMETIDE_H

#include <stddef.h>
#include <stdint.h>

#ifdef __cplusplus
extern "C" {
#endif

/* A length or an offset: 64 bits wide in every build, on a processor of 32 bits too. */
#if SIZE_MAX > 0xFFFFFFFF
typedef size_t grommetide_size;
#else
typedef uint64_t grommetide_size;
#endif

/*
 * This header's version. A record is of use only to the version that wrote it; the flash may outlive versions.
 *
 *   0.11 an idle record says where each settled value stands, and a read looks there and nowhere else: its time no longer
 *        depends on the image's size, GROMMETIDE_MALFORMED goes before GROMMETIDE_STALE in it, and it does not notice what the
 *        other requests notice. Those also check the places. The record has 1,084 bytes as in 0.10; steps and flash are those
 *        of 0.10.
 *   0.10 a mount after a power cut mends the block in place and moves the store no longer, except where that has no room; only
 *        there it can be refused with GROMMETIDE_WORN. So two new kinds of frame, a byte of a torn frame that is programmed
 *        twice, and a record of 1,084 bytes. It takes the flash of 0.9 as it is. See "After a power cut" before you go back.
 *   0.9  a second edition of the flash format, with a CRC-32 in each frame, which a host's convert (0x0108) takes a store to;
 *        GROMMETIDE_PENDING, GROMMETIDE_FIELD_CRC; a record of 1,075 bytes, which says the edition. A store that is not
 *        converted has the flash of 0.8 and is served as by 0.8. See "The two editions" before you go back.
 *   0.8  a host's pending changes come to half a block at most: a put or delete beyond that, which 0.7 takes or answers
 *        GROMMETIDE_NO_ROOM, gets GROMMETIDE_HOST_FULL. So a record of 1,065 bytes, which says what each host has pending. The
 *        flash is that of 0.7.
 *   0.7  other processors than x86-64: lengths and offsets are grommetide_size, which on x86-64 is size_t as before. Record and
 *        flash are those of 0.6.
 *   0.6  two to sixteen blocks: each call that takes an image is told their number, and so a record of 1,057 bytes. With two
 *        blocks, steps and flash are those of 0.5. GROMMETIDE_HALF_KIND is called GROMMETIDE_BLOCK_KIND.
 *   0.5  grommetide_fault says where a mount that is refused with GROMMETIDE_FOREIGN broke. Record and flash are those of 0.4.
 *   0.4  power may be lost inside an erase. A mount erases a foreign half beside a valid one, where 0.3 answers
 *        GROMMETIDE_FOREIGN; a format erases last the half that holds the store. Record and flash are those of 0.3.
 *   0.3  grommetide_next and grommetide_made for flash that the caller drives, grommetide_run for many steps in one call; no
 *        call takes more than 4,096 bytes of stack. Record and flash are those of 0.2.
 *   0.2  values of up to 240 bytes, and so a record of 1,042 bytes. It takes the flash of 0.1 as it is.
 *   0.1  values of up to 64 bytes, a record of 690 bytes. It finds flash in which a longer value stands foreign.
 */
#define GROMMETIDE_VERSION_MAJOR 0
#define GROMMETIDE_VERSION_MINOR 11
#define GROMMETIDE_VERSION_PATCH 0

/*
 * What tells formats of the flash apart: bytes 2 and 3 of a block's header, in edition 1 and in edition 2. A block that says
 * it is valid (byte 8 is 0xFC) and has another kind is foreign: if no block is valid, mount answers GROMMETIDE_FOREIGN and
 * changes nothing; if one is, the foreign one is erased. In a block that is in progress (byte 8 is 0xFE) the kind is not
 * looked at.
 */
#define GROMMETIDE_BLOCK_KIND 0x4A01
#define GROMMETIDE_BLOCK_KIND_2 0x4A02

#define GROMMETIDE_RECORD_BYTES 1084

/* The most blocks of an image. The fewest are two. */
#define GROMMETIDE_BLOCKS_MAX 16

/* The most bytes of a value. The message that puts it has six more. */
#define GROMMETIDE_VALUE_MAX 240

/*
 * Answers. If more than one refusal applies, the first in this order is given: 4, 10, 5, 2, 3, 11, 1, 8, 9, 16, 12, 7, 6. For a
 * message of a read's kind, 0x0105, it is 4, 10, 5, 2, 1, 11, 8.
 */
enum {
    GROMMETIDE_DONE = 0,             /* finished, or nothing to do */
    GROMMETIDE_MALFORMED = 1,        /* the message's length, kind, id, value length or page */
    GROMMETIDE_NO_STORE = 2,         /* the record is unmounted; for mount, there is no store and nothing foreign */
    GROMMETIDE_FOREIGN = 3,          /* mount: no block is valid and one is foreign, or valid ones have equal times */
    GROMMETIDE_IMAGE_LENGTH = 4,     /* image_len or blocks is not allowed */
    GROMMETIDE_BUSY = 5,             /* a job has steps left */
    GROMMETIDE_WORN = 6,             /* the store has to move to the next block, and the creation time cannot rise any more */
    GROMMETIDE_NO_ROOM = 7,          /* put or delete: commits must always fit, and this would leave too little room;
                                        convert: the objects need more than a block in edition 2 */
    GROMMETIDE_NO_OBJECT = 8,        /* read: there is no settled object of this id */
    GROMMETIDE_SHORT_REPLY = 9,      /* log: the reply buffer has fewer than 14 bytes */
    GROMMETIDE_HOST_RANGE = 10,      /* the host is above 3 */
    GROMMETIDE_STALE = 11,           /* the record belongs to another image, number of blocks or edition; for a read, to another
                                        length or number of blocks, or the object's frame is not at its place */
    GROMMETIDE_HOST_FULL = 12,       /* put or delete: this host's pending changes would come to more than half a block */
    GROMMETIDE_PENDING = 16,         /* convert: something is pending */
    GROMMETIDE_PROGRAM = 252,        /* next: a byte is to be programmed */
    GROMMETIDE_ERASE = 253,          /* next: a block is to be erased */
    GROMMETIDE_WRONG_RECORD = 254,   /* record_len is not GROMMETIDE_RECORD_BYTES; nothing was done */
    GROMMETIDE_MORE = 255            /* accepted, or a step was made; steps are left */
};

/* Fields of a block's header and of a frame, as grommetide_fault names them. docs/FORMAT.md says where each stands. */
enum {
    GROMMETIDE_FIELD_LENGTH = 1,     /* of the header (place 0) or of a frame */
    GROMMETIDE_FIELD_KIND = 2,       /* of the header (place 2) or of a frame */
    GROMMETIDE_FIELD_HOST = 3,
    GROMMETIDE_FIELD_ID = 4,
    GROMMETIDE_FIELD_FINISH = 5,     /* a frame's last byte, which is 0xFE */
    GROMMETIDE_FIELD_TIME = 6,       /* of the header (place 4): never programmed, or another valid block has the same */
    GROMMETIDE_FIELD_STATE = 7,      /* of the header (place 8) */
    GROMMETIDE_FIELD_REST = 8,       /* of the header (place 9): bytes 9 to 15, which are 0xFF */
    GROMMETIDE_FIELD_CRC = 9         /* of a frame of edition 2: the four bytes before its last */
};

/* GROMMETIDE_RECORD_BYTES, as the library was built. */
grommetide_size grommetide_record_size(void);

/*
 * Finds the store in an image and begins to tidy up after a power cut. Every block beside the store's is erased if it is not
 * blank, one that no store wrote too: read the image out before, to look at it. Then a torn frame is closed and what is
 * pending is dropped, in place, by at most 13 programmed bytes, or by a move to the next block where there is no room for a
 * reset ("After a power cut").
 * DONE: the store is mounted. MORE: steps are left. Refused: IMAGE_LENGTH, NO_STORE, FOREIGN; WORN, at the last creation
 * time, if something is pending and a reset has no room.
 */
uint8_t grommetide_mount(const uint8_t *image, grommetide_size image_len, uint8_t blocks, uint8_t *record,
                         grommetide_size record_len);

/*
 * Why a mount of this image is refused, and where the image broke. It takes no record and can be asked of any image.
 * FOREIGN, exactly where grommetide_mount answers it: in block *block the field *field is bad, which starts at offset *place
 * of that block. If valid blocks have equal times, it is the time of the lowest such block; otherwise the first bad field of
 * the lowest foreign block. IMAGE_LENGTH, NO_STORE, WORN: so does a mount answer. DONE: a mount is accepted. With these
 * *block, *field and *place are set to 0.
 */
uint8_t grommetide_fault(const uint8_t *image, grommetide_size image_len, uint8_t blocks, grommetide_size *block,
                         uint8_t *field, grommetide_size *place);

/*
 * Begins to make an empty store in block 0, in N + 10 steps, whatever the image holds. All blocks are erased by number, but
 * the one that holds the store last. Always MORE, unless refused: IMAGE_LENGTH.
 */
uint8_t grommetide_format(const uint8_t *image, grommetide_size image_len, uint8_t blocks, uint8_t *record,
                          grommetide_size record_len);

/*
 * A host's message. The host number comes from the port, 0 to 3. A message is its length (2 bytes), its kind (2) and:
 *
 *   0x0101 put     id (2), value (0 to 240)  the change is pending until the host commits
 *   0x0102 delete  id (2)                    likewise
 *   0x0103 commit                            the host's pending changes become settled, all or none
 *   0x0104 abort                             the host's pending changes are dropped
 *   0x0105 read    id (2)                    only answers whether the object is there, as grommetide_read does
 *   0x0106 log     page (1), which is 1      writes 14 bytes to the reply: length 14 (2), kind 0x0201 (2), creation
 *                                            time (4), settled objects (2), bytes they need (2), bytes of a block (2)
 *   0x0108 convert                           takes the store to edition 2 ("The two editions of the flash format")
 *
 * Numbers are little-endian. Only log writes to the reply, and only if it answers DONE; bytes after the 14 stay.
 * DONE: finished, without a step. MORE: accepted, steps are left. Refused: any but FOREIGN. All but a read go through the whole
 * image first: STALE is given exactly if length or number of blocks is not the record's; the current block is not there or not
 * valid, in the recorded edition; its frames do not end at the recorded end, with only 0xFF after them; another block is not
 * blank; what is pending leaves no room to commit it; or pending bytes or places, of any object, are not those of its frames.
 */
uint8_t grommetide_request(const uint8_t *image, grommetide_size image_len, uint8_t blocks, uint8_t *record,
                           grommetide_size record_len, uint8_t host, const uint8_t *message, grommetide_size message_len,
                           uint8_t *reply, grommetide_size reply_len);

/*
 * Where a settled value stands: *len bytes from image[*at] on, counted from the image's start. The message is a read
 * (0x0105). It looks at the frame that the record has a place for, and at nothing else of the image, so it takes no longer in a
 * large one. DONE: found; *len is 0 for an empty value. Refused, in this order: IMAGE_LENGTH, HOST_RANGE, BUSY, NO_STORE;
 * MALFORMED; STALE exactly if image_len or blocks is not the record's, or the object has a place and no legal put or settled
 * frame of the object is there, by the recorded edition, in the recorded block; NO_OBJECT exactly if it has no place. *at and
 * *len are then set to 0. With WRONG_RECORD they stay. Under the record and image of the last call all that is as if the whole
 * image had been read. A damaged image is noticed only if the frame itself is; any other request goes through all of it.
 * A message of another kind is MALFORMED here.
 */
uint8_t grommetide_read(const uint8_t *image, grommetide_size image_len, uint8_t blocks, const uint8_t *record,
                        grommetide_size record_len, uint8_t host, const uint8_t *message, grommetide_size message_len,
                        grommetide_size *at, grommetide_size *len);

/*
 * What the next flash step of the job in the record is, by the record alone. PROGRAM: *byte is to be programmed at offset
 * *at of the image; *len is 1. ERASE: the *len bytes from offset *at on are to be erased; *byte is 0xFF. DONE: the record
 * has no job. Refused: STALE, as the step would be. With DONE and STALE *at, *len and *byte are set to 0; with WRONG_RECORD
 * they stay.
 */
uint8_t grommetide_next(grommetide_size image_len, uint8_t blocks, const uint8_t *record, grommetide_size record_len,
                        grommetide_size *at, grommetide_size *len, uint8_t *byte);

/*
 * That flash step was made: the record moves on. The image is read as it is after the step and is not written to.
 * DONE: it was the job's last step, or the record has no job and nothing was done. MORE: steps are left. Refused: STALE, as
 * the step would be.
 */
uint8_t grommetide_made(const uint8_t *image, grommetide_size image_len, uint8_t blocks, uint8_t *record,
                        grommetide_size record_len);

/*
 * Does the next step of the job in the record. DONE: it was the last, or the record has no job and nothing was done,
 * whatever image_len and blocks are. MORE: steps are left. Refused, in a job only: STALE, if image_len or blocks is not the
 * record's, blocks is not 2 to 16, or the job's next place lies in no block. The record then stays in its job.
 */
uint8_t grommetide_step(uint8_t *image, grommetide_size image_len, uint8_t blocks, uint8_t *record,
                        grommetide_size record_len);

/*
 * At most `most` steps in one call: what so many calls of grommetide_step do, up to the first that does not answer MORE.
 * *steps is how many flash steps were made. DONE: the job's last step was made, or the record has no job. MORE: steps are
 * left; so answers a `most` of 0 where there is a job. Refused: STALE; image and record are then as those *steps steps left
 * them. With WRONG_RECORD *steps stays.
 */
uint8_t grommetide_run(uint8_t *image, grommetide_size image_len, uint8_t blocks, uint8_t *record,
                       grommetide_size record_len, grommetide_size most, grommetide_size *steps);

#ifdef __cplusplus
}
#endif

#endif
