/* The booking program: takes the transaction's requests, writes each to its slot, reads all of them back. */
#include "guest.h"

/* Volatile: each access below is one that the machine makes. */
typedef volatile struct slot slot_record;
typedef volatile const struct request request_record;

/* The most that each of the eight bays bears, in kg; a constant, so it is loaded from the program. */
static const uint32_t bay_limit[8] = {40000, 40000, 40000, 26000, 26000, 40000, 18000, 18000};

static slot_record *slot_of(const struct request *request) {
    return (slot_record *)ACCOUNT_DATA(SLOT_ACCOUNT) + request->slot;
}

static int acceptable(const struct request *request) {
    return request->slot < SLOTS && request->weight <= bay_limit[request->slot % 8] && !slot_of(request)->taken;
}

static void book(const struct request *request) {
    slot_record *slot = slot_of(request);
    slot->taken = 1;
    slot->weight = request->weight;
    for (int i = 0; i < 16; i++) slot->driver[i] = request->driver[i];
}

static int booked(const struct request *request) {
    slot_record *slot = slot_of(request);
    int same = slot->taken == 1 && slot->weight == request->weight;
    for (int i = 0; i < 16; i++) same &= slot->driver[i] == request->driver[i];
    return same;
}

/* Copies the requests to the stack; gives their number. */
static uint64_t read_requests(struct request *requests) {
    uint64_t count = *(volatile const uint64_t *)TRANSACTION;
    if (count > REQUESTS_MAX) return 0;
    for (uint64_t i = 0; i < count; i++) {
        request_record *from = (request_record *)(TRANSACTION + 8) + i;
        requests[i].slot = from->slot;
        requests[i].weight = from->weight;
        for (int k = 0; k < 16; k++) requests[i].driver[k] = from->driver[k];
    }
    return count;
}

/* The number of bookings that are in their slots at the end; their weight is left in the heap. */
int64_t main(void) {
    struct request requests[REQUESTS_MAX];
    int accepted[REQUESTS_MAX];
    volatile uint64_t *tally = (volatile uint64_t *)HEAP;
    uint64_t count = read_requests(requests);
    int64_t done = 0;
    for (uint64_t i = 0; i < count; i++) {
        accepted[i] = acceptable(&requests[i]);
        if (accepted[i]) book(&requests[i]);
    }
    for (uint64_t i = 0; i < count; i++) {
        if (!accepted[i] || !booked(&requests[i])) continue;
        *tally += requests[i].weight;
        done++;
    }
    return done;
}
