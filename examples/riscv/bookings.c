/* The booking guest: two bookings on one page, one turned down, and the change list that holds both. */
#include "accounts.h"

#include "guest/layout.h"

#include <inttypes.h>
#include <string.h>

/* The third asks for the slot of the first: the guest sees it taken only if a load after a store gives what was stored. */
static const struct request requests[] = {{129, 22000, "Minh"}, {133, 40000, "Lan"}, {129, 19000, "Dara"}};

enum { REQUESTS = 3, ACCEPTED = 2, WEIGHT = 22000 + 40000, REQUEST_BYTES = 24 };

struct bytes booking_transaction(void) {
    static uint8_t bytes[8 + REQUEST_BYTES * REQUESTS];
    put_number(bytes, 8, REQUESTS);
    for (size_t i = 0; i < REQUESTS; i++) {
        uint8_t *at = bytes + 8 + REQUEST_BYTES * i;
        put_number(at, 4, requests[i].slot);
        put_number(at + 4, 4, requests[i].weight);
        memcpy(at + 8, requests[i].driver, 16);
    }
    return (struct bytes){bytes, sizeof bytes};
}

static void print_slots(const uint8_t *data) {
    for (unsigned i = 0; i < SLOTS; i++) {
        const uint8_t *slot = data + sizeof(struct slot) * i;
        if (get_number(slot, 4) == 0) continue;
        printf("    slot %u: %.16s, %u kg\n", i, (const char *)slot + 8, (unsigned)get_number(slot + 4, 4));
    }
}

/* The original data with both bookings written plainly: what the applied data must be, byte for byte. */
static bool holds_both(const uint8_t *applied) {
    uint8_t plain[SLOT_ACCOUNT_BYTES];
    memcpy(plain, slot_data(), sizeof plain);
    for (size_t i = 0; i < ACCEPTED; i++) {
        uint8_t *slot = plain + sizeof(struct slot) * requests[i].slot;
        put_number(slot, 4, 1);
        put_number(slot + 4, 4, requests[i].weight);
        memcpy(slot + 8, requests[i].driver, 16);
    }
    return memcmp(plain, applied, sizeof plain) == 0;
}

static bool apply_changes(const uint8_t *list, uint8_t *applied) {
    memcpy(applied, slot_data(), SLOT_ACCOUNT_BYTES);
    uint8_t number = hekthumar_apply(list, CHANGES_MAX, SLOT_ACCOUNT, applied, SLOT_ACCOUNT_BYTES);
    printf("  applied to a copy of the slot account with number %u:\n", (unsigned)number);
    print_slots(applied);
    bool both = number == 0 && holds_both(applied);
    printf("  both bookings are there and no other byte has changed: %s\n", both ? "yes" : "NO");
    return both;
}

bool run_bookings(struct guest guest, uint8_t *slots, FILE *trace) {
    static struct buffers b;
    static uint8_t list[CHANGES_MAX];
    const char *edition = guest.edition == HEKTHUMAR_OLDER ? "older" : "newer";
    printf("booking in the %s edition, from 0x%012" PRIx64 ": %d requests in the transaction\n", edition, guest.start, REQUESTS);
    if (!begin_guest(&b, guest, booking_transaction())) return false;
    struct machine m = machine_run(&b, guest.start, trace);
    if (m.fault != NULL) return fprintf(stderr, "fault: %s\n", m.fault), false;
    if (m.number != 0) return print_refusal(&m), false;
    hekthumar_value tally = hekthumar_load(LENT(&b), HEAP, 8);
    printf("  the guest has booked %" PRIu64 "; the tally in its heap is %" PRIu64 " kg\n", m.status, tally.value);
    int pages = print_changes(&b, list);
    return pages == 1 && apply_changes(list, slots) && m.status == ACCEPTED && tally.value == WEIGHT;
}
