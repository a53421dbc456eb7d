#include "snapshot.h"

#include "guest/layout.h"

#include <string.h>

enum { HEADER = HEKTHUMAR_SNAPSHOT_HEADER, ENTRY = HEKTHUMAR_ACCOUNT_ENTRY };

void put_number(uint8_t *at, size_t size, uint64_t value) {
    for (size_t i = 0; i < size; i++) at[i] = (uint8_t)(value >> (8 * i));
}

uint64_t get_number(const uint8_t *at, size_t size) {
    uint64_t value = 0;
    for (size_t i = size; i > 0; i--) value = value << 8 | at[i - 1];
    return value;
}

static void put_entry(uint8_t *entry, const struct account *account, size_t data_offset) {
    put_number(entry, 2, account->flags);
    put_number(entry + 2, 2, account->owner);
    put_number(entry + 4, 4, account->data.length);
    put_number(entry + 8, 4, data_offset);
}

/* Nothing is copied for a length of 0, where the pointer may be null. */
static void put_bytes(uint8_t *to, struct bytes from) {
    if (from.length > 0) memcpy(to, from.at, from.length);
}

bool snapshot_build(struct buffers *b, const struct account *accounts, size_t count, struct bytes transaction) {
    size_t transaction_offset = HEADER + ENTRY * count, data = transaction_offset + transaction.length, total = data;
    for (size_t i = 0; i < count; i++) total += accounts[i].data.length;
    if (total > sizeof b->snapshot) return false;

    memset(b, 0, sizeof *b);
    b->snapshot_len = total;
    const uint64_t header[8] = {count, 0, transaction.length, HEADER, transaction_offset, transaction_offset, data, total};
    for (size_t i = 0; i < 8; i++) put_number(b->snapshot + 4 * i, 4, header[i]);
    put_bytes(b->snapshot + transaction_offset, transaction);
    for (size_t i = 0, at = data; i < count; at += accounts[i].data.length, i++) {
        put_entry(b->snapshot + HEADER + ENTRY * i, &accounts[i], at);
        put_bytes(b->snapshot + at, accounts[i].data);
    }
    return true;
}

uint8_t begin_program(struct buffers *b, uint16_t program, uint32_t edition) {
    uint8_t number = hekthumar_begin(LENT(b), program, edition);
    if (number == 0) number = hekthumar_resize(LENT(b), HEKTHUMAR_HEAP, HEAP_PAGES);
    return number;
}

struct invocation current_invocation(const struct buffers *b) {
    unsigned live = (unsigned)get_number(b->control + 4, 4);
    const uint8_t *record = b->control + HEKTHUMAR_SHADOW_AT + HEKTHUMAR_SHADOW * live;
    return (struct invocation){live - 1, (unsigned)get_number(record + 2, 2), (unsigned)get_number(record + 4, 2)};
}

unsigned frames_in_use(const struct buffers *b) {
    unsigned used = 0;
    for (size_t i = 0; i < FRAMES; i++) used += b->control[HEKTHUMAR_TABLE_AT + HEKTHUMAR_FRAME_ENTRY * i] != HEKTHUMAR_FREE;
    return used;
}
