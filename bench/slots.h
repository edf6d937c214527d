/* Programs in BPF bytecode, and those that are measured. */
#ifndef SLOTS_H
#define SLOTS_H

#include <stddef.h>
#include <stdint.h>

enum { SLOT_LIMIT = 4096 };

typedef struct {
    uint8_t bytes[8 * SLOT_LIMIT];
    size_t slots;
} Program;

/* Each makes a program of `slots` slots. A run takes all of them, but for those of `make_fan`. A number that isn't known beforehand is
   read at an offset of the context. */

/* Arithmetic on registers and immediates, 64 and 32 bits wide. */
void make_straight(Program *program, size_t slots);
/* Moves from register to register. */
void make_moves(Program *program, size_t slots);
/* A comparison and an addition in turn; each comparison leads to the next slot whether it holds or not. */
void make_branches(Program *program, size_t slots, int offset);
/* A store to the stack and a load from it in turn. */
void make_stack(Program *program, size_t slots);
/* Loads of 1, 2, 4 and 8 bytes from the first 64 bytes of the text, behind a comparison with its end. */
void make_text_loads(Program *program, size_t slots);
/* Loads of 4 bytes from the context. */
void make_context_loads(Program *program, size_t slots);
/* As many comparisons as can be, each of which leads to a slot of its own in the second half. */
void make_fan(Program *program, size_t slots, int offset);
/* `mov r0, 1` and `exit`. */
void make_two(Program *program);
/* `ldxw r0, [r1+24]`, `and r0, 1` and `exit`: whether the span is strong. */
void make_three(Program *program);
/* The same without a load, for a machine with another context. */
void make_three_plain(Program *program);

#endif
