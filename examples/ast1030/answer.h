/* Answers in words. */
#ifndef ANSWER_H
#define ANSWER_H

#include <stdint.h>

/* The number and its name: 7 no room. */
void say_answer(uint8_t answer);

/* A line: the answer and the steps it took, or, for a refusal, what a person can do. */
void say_result(uint8_t answer, uint32_t steps);

/* A line: what a mount answered. For a refusal it looks at the flash again and says why, then what is left to do. */
void say_mounted(uint8_t answer, uint32_t steps);

#endif
