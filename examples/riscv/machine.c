#include "machine.h"

#include "calls.h"
#include "events.h"
#include "guest/layout.h"
#include "routing.h"

#include <string.h>

enum { STEP_LIMIT = 100000, CAUSE_ECALL = 8, COMPRESSED_NOP = 0x0001 };

/* A range of memory-mapped I/O; Unicorn tells its callbacks the offset from the start. */
struct window {
    struct machine *machine;
    uint64_t start, length;
};

static bool in_program(const struct machine *m, uint64_t address) {
    return address - m->start < SEGMENT_BYTES;
}

static void on_code(uc_engine *engine, uint64_t pc, uint32_t size, void *user) {
    struct machine *m = user;
    (void)engine;
    if (m->stopped) return;
    m->pc = pc;
    if (++m->steps > STEP_LIMIT) machine_fault(m, "the guest does not end");
    for (uint32_t i = 0; i < size && !m->stopped; i += 2)
        if (route_fetch(m, pc + i, 2)) compare_held(m);
}

static void on_memory(uc_engine *engine, uc_mem_type type, uint64_t address, int size, int64_t value, void *user) {
    struct machine *m = user;
    (void)engine;
    if (m->stopped) return;
    if (type == UC_MEM_WRITE)
        route_store(m, address, (size_t)size, (uint64_t)value);
    else if (route_load(m, address, (size_t)size) && in_program(m, address))
        compare_held(m);
}

static bool on_invalid(uc_engine *engine, uc_mem_type type, uint64_t address, int size, int64_t value, void *user) {
    struct machine *m = user;
    bool accepted;
    (void)engine;
    if (m->stopped) return false;
    if (type == UC_MEM_FETCH_UNMAPPED || type == UC_MEM_FETCH_PROT) {
        m->pc = address; /* the instruction that is missing */
        accepted = route_fetch(m, address, 2);
    } else if (type == UC_MEM_WRITE_UNMAPPED || type == UC_MEM_WRITE_PROT) {
        accepted = route_store(m, address, (size_t)size, (uint64_t)value);
    } else {
        accepted = route_load(m, address, (size_t)size);
    }
    if (accepted) machine_fault(m, "the processor stops at an access that the library accepts");
    return false;
}

static void serve(struct machine *m, uint64_t service, const uint64_t *a) {
    uint64_t result;
    switch (service) {
    case SERVICE_END:
        m->status = a[0];
        machine_stop(m);
        break;
    case SERVICE_STORE_SPAN: route_store_span(m, a[0], a[1], a[2]); break;
    case SERVICE_CALL: route_call(m); break;
    case SERVICE_RETURN: route_return(m); break;
    case SERVICE_HEAP: route_heap(m, a[0]); break;
    case SERVICE_EMIT:
        result = route_emit(m, a[0], a[1], a[2]);
        uc_reg_write(m->engine, UC_RISCV_REG_A0, &result);
        break;
    default: machine_fault(m, "the guest asks for an unknown service");
    }
}

static void on_interrupt(uc_engine *engine, uint32_t cause, void *user) {
    struct machine *m = user;
    uint64_t service = 0, a[3] = {0};
    if (m->stopped) return;
    if (cause != CAUSE_ECALL) {
        machine_fault(m, "the processor traps");
        return;
    }
    uc_reg_read(engine, UC_RISCV_REG_A7, &service);
    for (int i = 0; i < 3; i++) uc_reg_read(engine, UC_RISCV_REG_A0 + i, &a[i]);
    serve(m, service, a);
}

static uint64_t on_io_read(uc_engine *engine, uint64_t offset, unsigned size, void *user) {
    struct window *w = user;
    (void)engine;
    return access_piece(w->machine, HEKTHUMAR_LOAD, w->start + offset, size);
}

static void on_io_write(uc_engine *engine, uint64_t offset, unsigned size, uint64_t value, void *user) {
    struct window *w = user;
    (void)engine;
    uint64_t stored = access_piece(w->machine, HEKTHUMAR_STORE, w->start + offset, size);
    if (!w->machine->stopped && stored != value) machine_fault(w->machine, "the processor stores another value than the hook has seen");
}

/* One byte at a time, since a program may have any length. The rest of the page is no-ops: an instruction that cannot be decoded would
 * trap before on_code asks the library, which refuses the fetch past the program's end. */
static size_t fetch_page(struct machine *m, uint64_t address, uint8_t *page) {
    size_t n = 0;
    for (size_t i = 0; i < PAGE_BYTES; i += 2) put_number(page + i, 2, COMPRESSED_NOP);
    for (; n < PAGE_BYTES; n++) {
        hekthumar_value got = hekthumar_fetch(LENT(m->buffers), address + n, 1);
        if (got.number != 0) break;
        page[n] = (uint8_t)got.value;
    }
    return n;
}

static uc_err map_program(struct machine *m) {
    uint8_t page[PAGE_BYTES];
    for (uint64_t at = m->start; in_program(m, at) && fetch_page(m, at, page) > 0; at += PAGE_BYTES) {
        uc_err e = uc_mem_map(m->engine, at, PAGE_BYTES, UC_PROT_READ | UC_PROT_EXEC);
        if (e == UC_ERR_OK) e = uc_mem_write(m->engine, at, page, PAGE_BYTES);
        if (e != UC_ERR_OK) return e;
    }
    return UC_ERR_OK;
}

/* Unicorn takes a callback as an object pointer; ISO C has no conversion to one, but the bytes are the same. */
static uc_err add_hook(struct machine *m, int type, void (*callback)(void)) {
    uc_hook hook;
    void *pointer;
    memcpy(&pointer, &callback, sizeof pointer);
    return uc_hook_add(m->engine, &hook, type, pointer, m, 1, 0);
}

static uc_err add_hooks(struct machine *m) {
    uc_err e = add_hook(m, UC_HOOK_CODE, (void (*)(void))on_code);
    if (e == UC_ERR_OK) e = add_hook(m, UC_HOOK_MEM_READ | UC_HOOK_MEM_WRITE, (void (*)(void))on_memory);
    if (e == UC_ERR_OK) e = add_hook(m, UC_HOOK_MEM_INVALID, (void (*)(void))on_invalid);
    if (e == UC_ERR_OK) e = add_hook(m, UC_HOOK_INTR, (void (*)(void))on_interrupt);
    return e;
}

static uc_err run(struct machine *m) {
    const uint64_t after = m->start + SEGMENT_BYTES;
    struct window windows[2] = {{m, 0, m->start}, {m, after, (UINT64_C(1) << 48) - after}};
    uc_err e = map_program(m);
    for (int i = 0; i < 2 && e == UC_ERR_OK; i++)
        e = uc_mmio_map(m->engine, windows[i].start, windows[i].length, on_io_read, &windows[i], on_io_write, &windows[i]);
    if (e == UC_ERR_OK) e = add_hooks(m);
    return e == UC_ERR_OK ? uc_emu_start(m->engine, m->start, UINT64_MAX, 0, 0) : e;
}

struct machine machine_run(struct buffers *buffers, uint64_t start, FILE *trace) {
    struct machine m = {.buffers = buffers, .trace = trace, .start = start};
    uc_err e = uc_open(UC_ARCH_RISCV, UC_MODE_RISCV64, &m.engine);
    if (e == UC_ERR_OK) {
        e = run(&m);
        uc_close(m.engine);
    }
    m.engine = NULL;
    if (!m.stopped && m.fault == NULL) m.fault = e == UC_ERR_OK ? "the processor stops by itself" : uc_strerror(e);
    return m;
}
