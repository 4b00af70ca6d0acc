/* Huiabunk for C callers. Every function takes whatever bytes it is lent, of any length, and writes nothing outside them.
 * A slice is a pointer and a length; with length 0 the pointer is not read. Slices that are lent together must not overlap.
 * docs/MACHINE.md says what the machine does; docs/CALLERS.md shows callers, docs/STEPS.md the steps, docs/STATE.md the state. */
#ifndef HUIABUNK_H
#define HUIABUNK_H

#include <stdbool.h>
#include <stddef.h>
#include <stdint.h>

#ifdef __cplusplus
extern "C" {
#endif

/* What `step` answers: the number of a refusal (1 to 17, docs/STEPS.md), or one of these. */
enum huiabunk_answer {
    HUIABUNK_DONE = 32,
    HUIABUNK_ASLEEP = 33,
    HUIABUNK_YES = 34,
    HUIABUNK_NO = 35,
    HUIABUNK_IDLE = 36,
    HUIABUNK_END = 37,
    HUIABUNK_PID = 38,       /* first: the pid */
    HUIABUNK_RUN = 39,       /* first: the pid that runs */
    HUIABUNK_RUN_CHILD = 40, /* first: the pid that runs, second: the child's, length: of its exit message */
    HUIABUNK_FIRED = 41,     /* first: timers fired, second: the "probably stuck" lines */
    HUIABUNK_EXIT = 42,      /* first: the pid that exits */
    HUIABUNK_CHILD = 43      /* first: the child's pid, length: of its exit message */
};

/* The shortest message buffer that `step` takes. */
#define HUIABUNK_MESSAGE 127

/* An answer of `run`: the four words, then that step's message buffer. */
#define HUIABUNK_RECORD 160
#define HUIABUNK_RECORD_MESSAGE 32

/* How many bytes a state of p processes, r Rendez, q locks, k kernel timers and c message cells takes; 2 where one is out of range. */
uint64_t size(uint64_t p, uint64_t r, uint64_t q, uint64_t k, uint64_t c);

/* Makes a fresh state at the front of s: 0 where it is made, 2 where a size or hz is out of range, 1 where s is too short. */
uint64_t make(uint8_t *s, size_t s_length, uint64_t p, uint64_t r, uint64_t q, uint64_t k, uint64_t c, uint64_t hz);

/* Whether s is a well-formed state. Nothing is written. */
bool check(const uint8_t *s, size_t s_length);

/* Takes one step on the state s: b are the step's bytes. Returns the number of the refusal, and then nothing lent has changed (but
 * for the next pid at 11 on an rfork with M = 3), or the number of the answer, and then *first, *second and *length are its words (three
 * different ones, none of them NULL). An exit message is put at the front of message; no other byte of message is ever written. */
uint64_t step(uint8_t *s, size_t s_length, const uint8_t *b, size_t b_length, uint8_t *message, size_t message_length, uint64_t *first,
              uint64_t *second, uint64_t *length);

/* Takes many steps on the state s, which is checked once. Each step in steps is a 32-bit little-endian length and that many bytes. Its
 * answer is a record of 160 bytes in answers: number, first, second and length (64-bit little-endian each; of a refusal only the
 * number is written), then 128 bytes, the step's message buffer. Ends before a step that is not whole or has no record left; returns
 * how many were taken. The same as `step` for each. */
uint64_t run(uint8_t *s, size_t s_length, const uint8_t *steps, size_t steps_length, uint8_t *answers, size_t answers_length);

/* Writes the exit message of a process at the front of cell, of 127 bytes or more: its length, or 258 where the cell is shorter or the
 * name is over 28 bytes, and then nothing is written. */
uint64_t exit_message(uint8_t *cell, size_t cell_length, const uint8_t *name, size_t name_length, uint64_t pid, const uint8_t *status,
                      size_t status_length);

#ifdef __cplusplus
}
#endif

#endif
