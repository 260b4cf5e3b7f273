/*
 * The library's calls with the whole register that an answer comes in. The ABIs of ARM (32 bits), RISC-V and WebAssembly
 * have the callee extend a uint8_t; a caller compiled by them relies on it, so calls.c holds the library to it.
 */
#ifndef RAW_H
#define RAW_H

#include "program.h"

#define RAW(name) unsigned long raw_##name
#define OF(name) __asm__("grommetide_" #name)

RAW(mount)(const uint8_t *image, grommetide_size image_len, uint8_t blocks, uint8_t *record, grommetide_size record_len) OF(mount);
RAW(fault)(const uint8_t *image, grommetide_size image_len, uint8_t blocks, grommetide_size *block, uint8_t *field,
           grommetide_size *place) OF(fault);
RAW(format)(const uint8_t *image, grommetide_size image_len, uint8_t blocks, uint8_t *record, grommetide_size record_len) OF(format);
RAW(request)(const uint8_t *image, grommetide_size image_len, uint8_t blocks, uint8_t *record, grommetide_size record_len,
             uint8_t host, const uint8_t *message, grommetide_size message_len, uint8_t *reply, grommetide_size reply_len) OF(request);
RAW(read)(const uint8_t *image, grommetide_size image_len, uint8_t blocks, const uint8_t *record, grommetide_size record_len,
          uint8_t host, const uint8_t *message, grommetide_size message_len, grommetide_size *at, grommetide_size *len) OF(read);
RAW(next)(grommetide_size image_len, uint8_t blocks, const uint8_t *record, grommetide_size record_len, grommetide_size *at,
          grommetide_size *len, uint8_t *byte) OF(next);
RAW(made)(const uint8_t *image, grommetide_size image_len, uint8_t blocks, uint8_t *record, grommetide_size record_len) OF(made);
RAW(step)(uint8_t *image, grommetide_size image_len, uint8_t blocks, uint8_t *record, grommetide_size record_len) OF(step);
RAW(run)(uint8_t *image, grommetide_size image_len, uint8_t blocks, uint8_t *record, grommetide_size record_len,
         grommetide_size most, grommetide_size *steps) OF(run);

#undef RAW
#undef OF

#if defined(__arm__) || defined(__riscv) || defined(__wasm__)
#define ANSWER_IS_EXTENDED 1
#else
#define ANSWER_IS_EXTENDED 0
#endif

#endif
