/* A RV64 processor (Unicorn) whose memory is the library.
 *
 * How each access is routed:
 *
 *   loads, stores   The hook on_memory sees each load and store of an instruction, with the instruction's own address and size, and makes
 *                   one hekthumar_load or hekthumar_store of it. All 48 bits of addresses but the program's segment are memory-mapped I/O:
 *                   Unicorn holds no byte of them. The I/O callbacks hand over what the hook's call gave. They call nothing themselves,
 *                   since Unicorn cuts an I/O access of 8 bytes into two of 4, and a misaligned one into aligned pieces, which the
 *                   library would accept one by one.
 *   program         Its segment is that of its first instruction: by the edition type 0, index 3, or the data of its account. Unicorn
 *                   executes plain memory only. So the program's pages are read-and-execute memory, filled by hekthumar_fetch up to the
 *                   first byte that it refuses; where the edition has no program in that segment, there is no such page. Before each
 *                   instruction on_code makes a hekthumar_fetch of each of its 16-bit parcels, and a load of a constant goes through
 *                   on_memory as any load; both compare what the library gave with what Unicorn holds, and end the run on a difference.
 *   the rest        What Unicorn itself would stop at (upper 16 bits set, a jump out of the program's pages) comes to on_invalid, which
 *                   asks the library for the number.
 *   spans           A service: one hekthumar_load_span and one hekthumar_store_span for each call of the guest.
 *   calls           Services: hekthumar_call, hekthumar_return, and hekthumar_resize for the heap. The callee is a function of the same
 *                   program; calls.h says what becomes of its registers and its stack.
 *   events          A service: hekthumar_read_event and a span load for each of its two buffers; for the answer hekthumar_read_buffer, a
 *                   span store and hekthumar_write_returned. A refusal of one of these is told to the guest, which goes on.
 *
 * The first refusal of another call stops the guest; nothing reaches the library after it.
 */
#ifndef MACHINE_H
#define MACHINE_H

#include "snapshot.h"

#include <stdio.h>
#include <unicorn/unicorn.h>

/* By the library's kind of access. */
extern const char *const kind_names[5];

struct access {
    uint8_t kind; /* HEKTHUMAR_LOAD and so on */
    uint64_t address;
    uint64_t size;
    uint64_t value; /* stored, loaded or fetched; 0 for a span */
};

struct machine {
    struct buffers *buffers;
    FILE *trace; /* gets a line for each access, unless NULL */
    uc_engine *engine;
    uint64_t start; /* of the program's segment */
    uint64_t steps;
    unsigned events;      /* that the host has taken from the guest */
    uint64_t pc;          /* of the instruction under way */
    struct access access; /* the one under way, or the one refused */
    bool stopped;
    uint8_t number;    /* of the refusal that stopped the guest, or 0 */
    uint16_t distance; /* with 13: from the access's first byte to the first absent one */
    uint64_t status;   /* that the guest ended with, if it was not refused */
    const char *fault; /* why the run says nothing about the guest, or NULL */
};

/* Runs the program begun in `buffers` from its first instruction, at `start`, until it ends or is refused. */
struct machine machine_run(struct buffers *buffers, uint64_t start, FILE *trace);

#endif
