/* Calls on a stack of their own, on x86-64, so that it's seen what they leave there and in registers. */
#ifndef PAINTED_H
#define PAINTED_H

#include <stddef.h>
#include <stdint.h>

/* What a call leaves: the octets of its stack, and the registers that it needn't restore. */
struct left {
    uint8_t stack[1 << 15] __attribute__((aligned(16)));
    uint64_t general[9];
    uint8_t vectors[16][16];
};

/* Paints the stack, clears the registers, and makes the call with these arguments, each a number or a pointer. */
uint32_t on_painted_stack(struct left *left, void (*call)(void), const uint64_t arguments[6]);

/* How many octets of its stack the call took. */
size_t stack_taken(const struct left *left);

#endif
