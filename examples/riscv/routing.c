#include "routing.h"

#include "guest/layout.h"

#include <inttypes.h>
#include <string.h>

const char *const kind_names[5] = {"load", "store", "fetch", "span load", "span store"};

void machine_stop(struct machine *m) {
    m->stopped = true;
    uc_emu_stop(m->engine);
}

void machine_fault(struct machine *m, const char *why) {
    if (m->fault == NULL) m->fault = why;
    machine_stop(m);
}

/* The buffers before the call under way. */
static struct buffers before;

void remember(const struct machine *m) {
    memcpy(&before, m->buffers, sizeof before);
}

uint8_t told(struct machine *m, struct access access, hekthumar_outcome outcome) {
    if (m->trace != NULL)
        fprintf(m->trace, "pc %08" PRIx64 "  %-10s %013" PRIx64 "  %" PRIu64 "  value %" PRIx64 "  number %u\n", m->pc,
                kind_names[access.kind], access.address, access.size, access.value, (unsigned)outcome.number);
    if (outcome.number != 0 && memcmp(&before, m->buffers, sizeof before) != 0)
        machine_fault(m, "a refused call has changed a byte lent to it");
    return outcome.number;
}

static hekthumar_outcome outcome_of(hekthumar_value got) {
    return (hekthumar_outcome){got.distance, got.number};
}

/* Every answer to an access of the guest passes here. */
static bool answered(struct machine *m, struct access access, hekthumar_outcome outcome) {
    m->access = access;
    m->number = outcome.number;
    m->distance = outcome.distance;
    if (told(m, access, outcome) != 0) machine_stop(m);
    return outcome.number == 0;
}

bool route_load(struct machine *m, uint64_t address, size_t size) {
    remember(m);
    hekthumar_value got = hekthumar_load(LENT(m->buffers), address, size);
    return answered(m, (struct access){HEKTHUMAR_LOAD, address, size, got.value}, outcome_of(got));
}

bool route_fetch(struct machine *m, uint64_t address, size_t size) {
    remember(m);
    hekthumar_value got = hekthumar_fetch(LENT(m->buffers), address, size);
    return answered(m, (struct access){HEKTHUMAR_FETCH, address, size, got.value}, outcome_of(got));
}

bool route_store(struct machine *m, uint64_t address, size_t size, uint64_t value) {
    remember(m);
    hekthumar_outcome outcome = hekthumar_store(LENT(m->buffers), address, size, value);
    return answered(m, (struct access){HEKTHUMAR_STORE, address, size, value}, outcome);
}

/* Translation judges any length, so that no buffer is needed for one that is refused. Told 13, it has the distance in `at`. */
void route_store_span(struct machine *m, uint64_t to, uint64_t from, uint64_t length) {
    uint8_t bytes[PAGE_BYTES];
    remember(m);
    hekthumar_place place = hekthumar_translate(LENT(m->buffers), HEKTHUMAR_LOAD_SPAN, from, length);
    hekthumar_outcome outcome = {(uint16_t)place.at, place.number};
    if (outcome.number == 0) outcome = hekthumar_load_span(LENT(m->buffers), from, bytes, length);
    if (!answered(m, (struct access){HEKTHUMAR_LOAD_SPAN, from, length, 0}, outcome)) return;
    outcome = hekthumar_store_span(LENT(m->buffers), to, bytes, length);
    answered(m, (struct access){HEKTHUMAR_STORE_SPAN, to, length, 0}, outcome);
}

void compare_held(struct machine *m) {
    uint8_t held[8] = {0};
    if (uc_mem_read(m->engine, m->access.address, held, m->access.size) != UC_ERR_OK || get_number(held, 8) != m->access.value)
        machine_fault(m, "the processor holds other bytes of the program than the library");
}

uint64_t access_piece(struct machine *m, uint8_t kind, uint64_t address, unsigned size) {
    uint64_t from = address - m->access.address;
    if (m->stopped) return 0;
    if (m->access.kind != kind || from >= m->access.size || size > m->access.size - from) {
        machine_fault(m, "the processor makes an access that the hook has not seen");
        return 0;
    }
    uint64_t rest = m->access.value >> (8 * from);
    return size < 8 ? rest & ((UINT64_C(1) << (8 * size)) - 1) : rest;
}
