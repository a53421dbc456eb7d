/* The calls to the library by which a guest calls and returns, and resizes its heap. A refusal of one is a fault of the run. */
#ifndef CALLS_H
#define CALLS_H

#include "machine.h"

/* Calls the guest's own program: the library keeps the registers, and the callee gets a stack page, to whose end sp goes. */
void route_call(struct machine *m);

/* Returns: the registers are those of the call again, but for a0. */
void route_return(struct machine *m);

void route_heap(struct machine *m, uint64_t pages);

#endif
