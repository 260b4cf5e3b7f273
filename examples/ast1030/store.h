/*
 * The store on the chip: four sectors are the store's blocks. The sector behind them is blank, except while a format is
 * under way: power lost inside a format's last erase can leave a block that reads as valid and holds other values, so a
 * format must be known to have begun, and no byte of the store can say so.
 */
#ifndef STORE_H
#define STORE_H

#include <stdint.h>

#include "grommetide.h"
#include "nor.h"

/* Where the store begins on the chip, the first byte of a sector. */
enum { STORE_AT = 0 };

enum { STORE_BLOCKS = 4, STORE_BYTES = STORE_BLOCKS * NOR_SECTOR, STORE_FLAG = STORE_AT + STORE_BYTES };

/* Answers are the library's. Each of these makes all flash steps of its job; store_steps is how many they were. */
uint8_t store_mount(void);
uint8_t store_format(void);
uint8_t store_request(uint8_t host, const uint8_t *message, uint32_t len);
uint32_t store_steps(void);

/* The store's bytes as they are mapped into memory. */
const uint8_t *store_image(void);

/* A settled value, where it stands in the image. */
uint8_t store_read(uint16_t id, const uint8_t **value, uint32_t *len);

struct store_log {
    uint32_t time, objects, used, block;
};
uint8_t store_log(struct store_log *log);

struct store_fault {
    uint32_t block, place;
    uint8_t field;
};

/* Why a mount is refused; *fault is set with GROMMETIDE_FOREIGN. */
uint8_t store_fault(struct store_fault *fault);

/* The blocks hold no byte but 0xFF. */
int store_is_blank(void);

/* Power was lost in a format. */
int store_format_was_cut(void);

/*
 * The creation time is the last one: no transfer can come. A change that is pending when power is lost asks for one, and the
 * mount is then refused. So nothing may be put or deleted any more, while what is pending may still be committed.
 */
int store_is_worn(void);

#endif
