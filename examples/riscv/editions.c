/* The booking guest in both editions: built for each it leaves the same slot account, and begun under the other it is refused. */
#include "accounts.h"

#include "guest/layout.h"

#include <string.h>

/* Of a guest that is begun under the edition that it is not built for. */
struct mismatch {
    const char *what;
    struct guest guest;
    uint8_t number;
};

static bool run_mismatch(struct mismatch mismatch, FILE *trace) {
    static struct buffers b;
    static uint8_t list[CHANGES_MAX];
    printf("wrong edition: %s\n", mismatch.what);
    if (!begin_guest(&b, mismatch.guest, booking_transaction())) return false;
    struct machine m = machine_run(&b, mismatch.guest.start, trace);
    if (m.fault != NULL) return fprintf(stderr, "fault: %s\n", m.fault), false;
    if (m.number == 0) return printf("  NOT refused\n"), false;
    print_refusal(&m);
    return print_changes(&b, list) == 0 && m.number == mismatch.number;
}

/* Each under its own edition; what they leave is compared byte for byte. */
static bool run_both(struct guest newer, struct guest older, FILE *trace) {
    static uint8_t slots[2][SLOT_ACCOUNT_BYTES];
    bool good = run_bookings(newer, slots[0], trace);
    good &= run_bookings(older, slots[1], trace);
    bool same = memcmp(slots[0], slots[1], sizeof slots[0]) == 0;
    printf("the %d bytes of the slot account are the same after both editions: %s\n", SLOT_ACCOUNT_BYTES, same ? "yes" : "NO");
    return good && same;
}

bool run_editions(struct bytes newer, struct bytes older, FILE *trace) {
    const struct mismatch mismatches[2] = {
        {"built for the older, begun under the newer", {older, OLDER_PROGRAM, HEKTHUMAR_NEWER}, 7},
        {"built for the newer, begun under the older", {newer, PROGRAM, HEKTHUMAR_OLDER}, 4},
    };
    bool good = run_both((struct guest){newer, PROGRAM, HEKTHUMAR_NEWER}, (struct guest){older, OLDER_PROGRAM, HEKTHUMAR_OLDER}, trace);
    for (int i = 0; i < 2; i++) good &= run_mismatch(mismatches[i], trace);
    return good;
}
