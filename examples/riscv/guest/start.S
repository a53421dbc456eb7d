# Entry and services. Neither relaxed nor compressed: their addresses do not depend on the compiler or the linker.
    .option norelax
    .option norvc
    .section .text.start, "ax"

    .globl _start
_start:
    li sp, 0x050001000000           # one past the stack segment 0x0500_00xx_xxxx
    call main
    li a7, 0                        # SERVICE_END, status in a0
    ecall

    .globl service_store_span
service_store_span:
    li a7, 1                        # SERVICE_STORE_SPAN
    ecall
    ret
