/* The calls to the library that the accesses of the guest become. */
#ifndef ROUTING_H
#define ROUTING_H

#include "machine.h"

void machine_stop(struct machine *m);

/* Stops a run that says nothing about the guest. */
void machine_fault(struct machine *m, const char *why);

/* Before a call to the library and after it: a line of trace, and a fault if a refused call has changed a byte lent to it. The number. */
void remember(const struct machine *m);
uint8_t told(struct machine *m, struct access access, hekthumar_outcome outcome);

/* One access of the guest, one call; true if it is accepted. A refusal stops the machine. */
bool route_load(struct machine *m, uint64_t address, size_t size);
bool route_fetch(struct machine *m, uint64_t address, size_t size);
bool route_store(struct machine *m, uint64_t address, size_t size, uint64_t value);
void route_store_span(struct machine *m, uint64_t to, uint64_t from, uint64_t length);

/* In the program's pages Unicorn reads its own memory: a fault unless it holds what the library gave. */
void compare_held(struct machine *m);

/* The bytes of a piece of the access under way; a fault unless that is of this kind and holds the whole piece. */
uint64_t access_piece(struct machine *m, uint8_t kind, uint64_t address, unsigned size);

#endif
