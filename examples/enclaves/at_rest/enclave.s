# The content of the region: two instructions and a secret.
        .section .text.start, "ax"
        .globl  enclave_entry
enclave_entry:
        lw      a0, 8(a0)
        ecall

        .type   secret, @object
secret: .ascii  "the enclave's secret"
        .size   secret, 20
