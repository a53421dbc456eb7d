/* The accounts of the example, the guests and the runs over them. */
#ifndef ACCOUNTS_H
#define ACCOUNTS_H

#include "report.h"

/* The data of the slot account: 6,000 bytes with one booking made before. */
const uint8_t *slot_data(void);

struct guest {
    struct bytes binary;
    uint64_t start;   /* the address that it is linked for, and of its first instruction */
    uint32_t edition; /* that it is begun under */
};

/* Begins a guest with a transaction over these accounts; false, with a line on stderr, if that is refused. */
bool begin_guest(struct buffers *b, struct guest guest, struct bytes transaction);

/* Three bookings that the transaction asks for. */
struct bytes booking_transaction(void);

/* Each runs its guest and prints what came of it; true if it is as it must be. */
bool run_bookings(struct guest guest, uint8_t *slots, FILE *trace); /* the slot account's data afterwards goes to `slots` */
bool run_weighing(struct guest guest, FILE *trace);
bool run_announcing(struct guest guest, FILE *trace);
bool run_misbehaviours(struct guest guest, FILE *trace);

/* The booking guest as it is built for each edition: under its own both book the same, under the other each is refused. */
bool run_editions(struct bytes newer, struct bytes older, FILE *trace);

#endif
