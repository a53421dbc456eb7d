/* The announcing guest: events passed to the host as records, and the answers that it reads. */
#include "accounts.h"

#include "guest/layout.h"

#include <inttypes.h>

/* Of seven events. One that is taken asks for its answer where nothing can be stored. */
enum { TAKEN = 3, OK = 2, ERR = 4, WITHOUT = 1 };

static bool print_answers(const struct buffers *b, uint64_t without) {
    uint64_t ok = hekthumar_load(LENT(b), ANSWERS_OK, 8).value, err = hekthumar_load(LENT(b), ANSWERS_ERR, 8).value;
    printf("  answers that the guest has read: Ok %" PRIu64 ", Err %" PRIu64 "; events without one: %" PRIu64 "\n", ok, err, without);
    return ok == OK && err == ERR && without == WITHOUT;
}

bool run_announcing(struct guest guest, FILE *trace) {
    static struct buffers b;
    static uint8_t list[CHANGES_MAX];
    puts("announcing: the guest passes events to its host");
    if (!begin_guest(&b, guest, (struct bytes){NULL, 0})) return false;
    struct machine m = machine_run(&b, guest.start, trace);
    if (m.fault != NULL) return fprintf(stderr, "fault: %s\n", m.fault), false;
    if (m.number != 0) return print_refusal(&m), false;
    bool good = print_answers(&b, m.status) && m.events == TAKEN;
    return print_changes(&b, list) == 0 && good;
}
