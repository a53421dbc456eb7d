/* The three buffers lent to the library, and how a transaction begins in them. */
#ifndef SNAPSHOT_H
#define SNAPSHOT_H

#include "hekthumar.h"

#include <stdbool.h>

enum { FRAMES = 8, SNAPSHOT_MAX = 65536 };

struct buffers {
    uint8_t snapshot[SNAPSHOT_MAX];
    size_t snapshot_len;
    uint8_t control[HEKTHUMAR_CONTROL_LENGTH(FRAMES)];
    uint8_t pool[HEKTHUMAR_POOL_LENGTH(FRAMES)];
};

/* The buffers as the first six arguments of a call. */
#define LENT(b) (b)->snapshot, (b)->snapshot_len, (b)->control, sizeof (b)->control, (b)->pool, sizeof (b)->pool

struct bytes {
    const uint8_t *at;
    size_t length;
};

struct account {
    uint16_t flags; /* HEKTHUMAR_EXISTS, HEKTHUMAR_WRITABLE */
    uint16_t owner; /* account number of the owning program */
    struct bytes data;
};

/* Little-endian numbers of 1 to 8 bytes. */
void put_number(uint8_t *at, size_t size, uint64_t value);
uint64_t get_number(const uint8_t *at, size_t size);

/* Lays out accounts and transaction as a snapshot without block contexts; false if it is too long for the buffer. */
bool snapshot_build(struct buffers *b, const struct account *accounts, size_t count, struct bytes transaction);

/* Begins a program of an edition, with the stack page that begin gives, and gives it its heap; the library's number. */
uint8_t begin_program(struct buffers *b, uint16_t program, uint32_t edition);

/* The current invocation, from its shadow record. */
struct invocation {
    unsigned depth, stack_pages, heap_pages;
};
struct invocation current_invocation(const struct buffers *b);

unsigned frames_in_use(const struct buffers *b);

#endif
