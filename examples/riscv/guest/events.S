# The service that passes an event. After the probes, so that these stay where they are.
    .option norelax
    .option norvc
    .section .text.events, "ax"

    .globl service_emit
service_emit:
    li a7, 5                        # SERVICE_EMIT
    ecall
    ret
