/* The weighing guest: a list that a helper leaves on the heap, walked by its caller, then by the host. */
#include "accounts.h"

#include "guest/layout.h"

#include <inttypes.h>

static const uint64_t weights[] = {22000, 40000, 19000};

enum { WEIGHTS = 3, SUM = 22000 + 40000 + 19000 };

static struct bytes transaction(void) {
    static uint8_t bytes[8 + 8 * WEIGHTS];
    put_number(bytes, 8, WEIGHTS);
    for (size_t i = 0; i < WEIGHTS; i++) put_number(bytes + 8 + 8 * i, 8, weights[i]);
    return (struct bytes){bytes, sizeof bytes};
}

/* The helper's stack page is free again. Its heap page is the caller's: one more than at begin. */
static bool print_pages(const struct buffers *b) {
    struct invocation now = current_invocation(b);
    unsigned frames = frames_in_use(b);
    printf("  at depth %u: stack pages %u, heap pages %u, frames in use %u\n", now.depth, now.stack_pages, now.heap_pages, frames);
    return now.depth == 0 && now.stack_pages == 1 && now.heap_pages == HEAP_PAGES + 1 && frames == HEAP_PAGES + 2;
}

/* 0 where the load is refused. */
static uint64_t load(const struct buffers *b, uint64_t address) {
    return hekthumar_load(LENT(b), address, 8).value;
}

/* The helper puts each cell before those that it has: the last weight comes first. */
static bool print_list(const struct buffers *b) {
    uint64_t sum = 0;
    size_t cells = 0;
    bool same = true;
    for (uint64_t at = load(b, HEAP); at != 0 && cells < WEIGHTS; at = load(b, at + offsetof(struct cell, next)), cells++) {
        uint64_t weight = load(b, at + offsetof(struct cell, weight)), sum_there = load(b, at + offsetof(struct cell, sum));
        sum += weight;
        same &= weight == weights[WEIGHTS - 1 - cells] && sum_there == sum;
        printf("    0x%012" PRIx64 ": %" PRIu64 " kg, so far %" PRIu64 " kg\n", at, weight, sum_there);
    }
    return same && cells == WEIGHTS && sum == SUM;
}

/* At the depth of the caller, which did not grow it. */
static bool free_list(struct buffers *b) {
    uint8_t number = hekthumar_resize(LENT(b), HEKTHUMAR_HEAP, HEAP_PAGES);
    unsigned frames = frames_in_use(b);
    printf("  the list is freed with number %u, frames in use %u\n", (unsigned)number, frames);
    return number == 0 && frames == HEAP_PAGES + 1;
}

bool run_weighing(struct guest guest, FILE *trace) {
    static struct buffers b;
    static uint8_t list[CHANGES_MAX];
    printf("weighing: %d weights in the transaction\n", WEIGHTS);
    if (!begin_guest(&b, guest, transaction())) return false;
    struct machine m = machine_run(&b, guest.start, trace);
    if (m.fault != NULL) return fprintf(stderr, "fault: %s\n", m.fault), false;
    if (m.number != 0) return print_refusal(&m), false;
    bool good = print_pages(&b);
    printf("  the guest has added up %" PRIu64 " kg; the list that its helper has left:\n", m.status);
    good &= m.status == SUM;
    good &= print_list(&b);
    good &= free_list(&b);
    return print_changes(&b, list) == 0 && good;
}
