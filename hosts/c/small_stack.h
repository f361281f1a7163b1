/*
 * A call on a stack of a size of one's own, with a page below it that nobody may touch, and how deep the call got.
 */
#ifndef HOST_SMALL_STACK_H
#define HOST_SMALL_STACK_H

#include <stddef.h>

/* First of all. Whoever overruns the stack ends the program, with a line that names the call. */
void small_stack_open(void);

/* Makes the call on a stack of that many bytes, at most RC_STACK, and gives how many of them it used. The frame that hands the call its
 * arguments is among them. */
size_t small_stack_make(const char *name, size_t length, void (*make)(void));

#endif
