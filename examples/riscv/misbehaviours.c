/* The misbehaving guest: each way of going wrong, and the refusal that stops it. */
#include "accounts.h"

#include "guest/layout.h"

static const struct {
    const char *what;
    uint8_t number;
} trials[MISBEHAVIOURS + 1] = {
    [STORE_FOREIGN] = {"stores to another mill's account", 7},
    [RUN_OFF_STACK] = {"recurses until the stack has no page left", 13},
    [LOAD_MISALIGNED] = {"loads 8 bytes at offset 4093", 5},
    [SPAN_ACROSS_PAGES] = {"asks for a span of 8 bytes to be stored at offset 4093", 6},
    [STORE_PROGRAM] = {"stores to its own program", 7},
    [LOAD_PAST_END] = {"loads past the end of its account", 13},
    [LOAD_NULL] = {"loads through a null pointer", 4},
    [LOAD_UPPER_BITS] = {"loads from an address of 49 bits", 3},
    [RUN_HEAP] = {"jumps into its heap", 7},
    [RUN_PAST_PROGRAM] = {"jumps past the end of its program", 13},
};

static bool run_one(struct guest guest, uint8_t trial, FILE *trace) {
    static struct buffers b;
    static uint8_t list[CHANGES_MAX];
    const uint8_t transaction[8] = {trial};
    printf("misbehaviour %u: %s\n", (unsigned)trial, trials[trial].what);
    if (!begin_guest(&b, guest, (struct bytes){transaction, sizeof transaction})) return false;
    struct machine m = machine_run(&b, guest.start, trace);
    if (m.fault != NULL) return fprintf(stderr, "fault: %s\n", m.fault), false;
    if (m.number == 0) return printf("  NOT refused\n"), false;
    print_refusal(&m);
    return print_changes(&b, list) == 0 && m.number == trials[trial].number;
}

bool run_misbehaviours(struct guest guest, FILE *trace) {
    bool all = true;
    for (uint8_t trial = 1; trial <= MISBEHAVIOURS; trial++) all &= run_one(guest, trial, trace);
    return all;
}
