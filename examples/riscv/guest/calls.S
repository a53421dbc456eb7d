# Services that change the invocations and the heap. After the probes, so that these stay where they are.
    .option norelax
    .option norvc
    .section .text.calls, "ax"

# Runs the function in a0 one invocation deeper, and gives what it returns. The host has the registers kept by the library, moves sp to a
# stack page of the callee's own, and at the return puts all of them back but a0.
    .globl service_call
service_call:
    li a7, 2                        # SERVICE_CALL
    ecall
    jalr a0
    li a7, 3                        # SERVICE_RETURN, result in a0
    ecall
    ret

    .globl service_heap
service_heap:
    li a7, 4                        # SERVICE_HEAP
    ecall
    ret
