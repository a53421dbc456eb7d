/* The misbehaving program: tries what the transaction's first byte says. It ends only if nothing stops it. */
#include "guest.h"

int64_t main(void) {
    uint64_t slots = ACCOUNT_DATA(SLOT_ACCOUNT);
    switch (*(volatile const uint8_t *)TRANSACTION) {
    case STORE_FOREIGN: probe_store(ACCOUNT_DATA(FOREIGN_ACCOUNT), 1); break;
    case RUN_OFF_STACK: probe_descend(); break;
    case LOAD_MISALIGNED: probe_load(slots + 4093); break;
    case SPAN_ACROSS_PAGES: service_store_span(slots + 4093, TRANSACTION, 8); break;
    case STORE_PROGRAM: probe_store(PROGRAM, 0); break;
    case LOAD_PAST_END: probe_load(slots + SLOT_ACCOUNT_BYTES); break;
    case LOAD_NULL: probe_load(0); break;
    case LOAD_UPPER_BITS: probe_load(slots | 1ull << 48); break;
    case RUN_HEAP: probe_jump(HEAP); break;
    case RUN_PAST_PROGRAM: probe_jump(PROGRAM + PAGE_BYTES - 4); break;
    }
    return 0;
}
