# The accesses of the misbehaving guest, each a single instruction at an address that does not depend on the compiler.
    .option norelax
    .option norvc
    .section .text.probe, "ax"

    .globl probe_load
probe_load:
    ld a0, 0(a0)
    ret

    .globl probe_store
probe_store:
    sd a1, 0(a0)
    ret

    .globl probe_jump
probe_jump:
    jr a0

    .globl probe_descend
probe_descend:
    addi sp, sp, -16
    sd ra, 8(sp)
    call probe_descend
