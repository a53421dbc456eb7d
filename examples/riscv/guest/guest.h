/* What start.S, calls.S, events.S and probe.S give to the guests in C. */
#ifndef GUEST_H
#define GUEST_H

#include "layout.h"

/* The guest's own entry; what it returns is the status it ends with. */
int64_t main(void);

/* Asks the host to copy `length` bytes as one span. */
void service_store_span(uint64_t to, uint64_t from, uint64_t length);

/* Runs a function one invocation deeper; what it returns. */
uint64_t service_call(uint64_t (*function)(void));

/* Gives the heap so many pages. */
void service_heap(uint64_t pages);

/* Passes an event to the host, which answers with a returned value and stores its bytes to the room; the number that the answer has. */
uint64_t service_emit(uint64_t event, uint64_t returned, uint64_t room);

/* One load or store of 8 bytes, a jump, and a recursion without end. */
uint64_t probe_load(uint64_t address);
void probe_store(uint64_t address, uint64_t value);
void probe_jump(uint64_t address);
void probe_descend(void);

#endif
