#include "accounts.h"

#include "guest/layout.h"

#include <string.h>

/* Slot 131 was booked in an earlier transaction; it shares its page with the slots booked in this one. */
const uint8_t *slot_data(void) {
    static uint8_t data[SLOT_ACCOUNT_BYTES];
    uint8_t *slot = data + 131 * sizeof(struct slot);
    put_number(slot, 4, 1);
    put_number(slot + 4, 4, 17500);
    memcpy(slot + 8, "Somchai", 8);
    return data;
}

bool begin_guest(struct buffers *b, struct guest guest, struct bytes transaction) {
    static const uint8_t foreign_data[PAGE_BYTES];
    const uint16_t writable = HEKTHUMAR_EXISTS | HEKTHUMAR_WRITABLE;
    const struct account accounts[ACCOUNTS] = {
        [SLOT_ACCOUNT] = {writable, PROGRAM_ACCOUNT, {slot_data(), SLOT_ACCOUNT_BYTES}},
        [FOREIGN_ACCOUNT] = {writable, FOREIGN_PROGRAM, {foreign_data, sizeof foreign_data}},
        [FOREIGN_PROGRAM] = {HEKTHUMAR_EXISTS, FOREIGN_PROGRAM, {NULL, 0}},
        [PROGRAM_ACCOUNT] = {HEKTHUMAR_EXISTS, PROGRAM_ACCOUNT, guest.binary},
    };
    if (!snapshot_build(b, accounts, ACCOUNTS, transaction)) {
        fprintf(stderr, "the guest is too long for the snapshot\n");
        return false;
    }
    uint8_t number = begin_program(b, PROGRAM_ACCOUNT, guest.edition);
    if (number != 0) fprintf(stderr, "begin refused with %u\n", (unsigned)number);
    return number == 0;
}
