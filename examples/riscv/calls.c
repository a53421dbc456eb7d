#include "calls.h"

#include "guest/layout.h"
#include "routing.h"

#include <inttypes.h>

static bool accepted(struct machine *m, const char *call, uint8_t number) {
    if (m->trace != NULL) fprintf(m->trace, "pc %08" PRIx64 "  %-10s number %u\n", m->pc, call, (unsigned)number);
    if (number != 0) machine_fault(m, "the library refuses a call, a return or a resize");
    return number == 0;
}

/* The library keeps x0 to x31, 8 bytes each. */
static void read_registers(uc_engine *engine, uint8_t *registers) {
    for (int i = 0; i < HEKTHUMAR_REGISTERS / 8; i++) {
        uint64_t value = 0;
        uc_reg_read(engine, UC_RISCV_REG_X0 + i, &value);
        put_number(registers + 8 * i, 8, value);
    }
}

/* All but x0, which is 0, and a0, which has the callee's result. */
static void restore_registers(uc_engine *engine, const uint8_t *registers) {
    for (int i = 1; i < HEKTHUMAR_REGISTERS / 8; i++) {
        uint64_t value = get_number(registers + 8 * i, 8);
        if (UC_RISCV_REG_X0 + i != UC_RISCV_REG_A0) uc_reg_write(engine, UC_RISCV_REG_X0 + i, &value);
    }
}

void route_call(struct machine *m) {
    uint8_t registers[HEKTHUMAR_REGISTERS];
    uint64_t pages = current_invocation(m->buffers).stack_pages, sp = STACK_END - PAGE_BYTES * pages;
    read_registers(m->engine, registers);
    if (!accepted(m, "call", hekthumar_call(LENT(m->buffers), PROGRAM_ACCOUNT, registers, sizeof registers))) return;
    if (!accepted(m, "stack", hekthumar_resize(LENT(m->buffers), HEKTHUMAR_STACK, pages + 1))) return;
    uc_reg_write(m->engine, UC_RISCV_REG_SP, &sp);
}

void route_return(struct machine *m) {
    uint8_t registers[HEKTHUMAR_REGISTERS];
    if (accepted(m, "return", hekthumar_return(LENT(m->buffers), registers, sizeof registers))) restore_registers(m->engine, registers);
}

void route_heap(struct machine *m, uint64_t pages) {
    accepted(m, "heap", hekthumar_resize(LENT(m->buffers), HEKTHUMAR_HEAP, pages));
}
