/* A host in C: two bookings on one page, the change list that holds both, and a span past the account's end. */
#include "hekthumar.h"

#include <stdio.h>
#include <string.h>

enum { DATA = HEKTHUMAR_DATA_AT(2, 0, 0), SLOTS = 6000, FRAMES = 2 };

static uint8_t snapshot[DATA + SLOTS], control[HEKTHUMAR_CONTROL_LENGTH(FRAMES)], pool[HEKTHUMAR_POOL_LENGTH(FRAMES)];
static uint8_t list[HEKTHUMAR_LIST_LENGTH(FRAMES)], slots[SLOTS];

static void put(size_t at, uint32_t word) { memcpy(snapshot + at, &word, 4); }

/* An account that account 0 owns, with this many bytes of data. */
static void put_account(size_t account, uint32_t flags, uint32_t length) {
    size_t entry = HEKTHUMAR_SNAPSHOT_HEADER + account * HEKTHUMAR_ACCOUNT_ENTRY;
    put(entry, flags), put(entry + 4, length), put(entry + 8, DATA);
}

int main(void) {
    /* two accounts, no block context, an empty transaction; where the four parts start; the total */
    const uint32_t header[8] = {2, 0, 0, HEKTHUMAR_SNAPSHOT_HEADER, DATA, DATA, DATA, DATA + SLOTS};
    for (size_t i = 0; i < 8; i++) put(4 * i, header[i]);
    put_account(0, HEKTHUMAR_EXISTS, 0), put_account(1, HEKTHUMAR_EXISTS | HEKTHUMAR_WRITABLE, SLOTS); /* the program; its slots */

#define LENT snapshot, sizeof snapshot, control, sizeof control, pool, sizeof pool
    const uint64_t page = HEKTHUMAR_ADDRESS(HEKTHUMAR_TYPE_DATA, 1, 0x1000);
    int refused = hekthumar_begin(LENT, 0, HEKTHUMAR_NEWER); /* takes a frame for a stack page */
    refused += hekthumar_store(LENT, page + 4, 1, 0x11).number;
    refused += hekthumar_store(LENT, page + 8, 1, 0x22).number;
    refused += hekthumar_change_list(LENT, list, sizeof list);
    refused += hekthumar_apply(list, sizeof list, 1, slots, sizeof slots);
    printf("refused %d, pages changed %d, bookings %02x %02x\n", refused, list[0], slots[0x1004], slots[0x1008]);
    hekthumar_outcome past = hekthumar_load_span(LENT, page + 1900, slots, 8); /* from slot 5,996 of 6,000 on */
    printf("a span past the end: refused with %d at byte %d of 8\n", past.number, past.distance);
    return refused != 0 || list[0] != 1 || slots[0x1004] != 0x11 || slots[0x1008] != 0x22 || past.number != 13 || past.distance != 4;
}
