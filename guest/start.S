# Where a program begins, and the loop of seuss_serve. The stack pointer is set by the machine,
# and memory behind an image's file bytes is zeros, so there is nothing to set up but tp, by which
# a C library finds its errno.

    .file "start.S"

    .section .text.seuss_start, "ax"
    .globl _start
    .type _start, @function
_start:
    la tp, seuss_thread_data
    call main
    li a7, 8                    # halt with what main returned
    ecall
    .size _start, . - _start

    .section .text.seuss_serve, "ax"
    .globl seuss_serve, seuss_trigger
    .type seuss_serve, @function
seuss_serve:
    mv s0, a0                   # the handler
    la s1, packet
    la s2, reply
    li s3, 32768                # SEUSS_PACKET_BYTES

# A run that stops here has set up all and read nothing: a layer's trigger.
seuss_trigger:
    li a7, 3                    # wait
    ecall
    mv a0, s1
    mv a1, s3
    li a7, 7                    # net read; the packet's length comes in a1
    ecall
    bnez a0, broken
    mv a0, s1
    mv a2, s2
    jalr s0
    bltu s3, a0, broken
    mv a1, a0
    mv a0, s2
    li a7, 6                    # net write
    ecall
    beqz a0, seuss_trigger
broken:
    ebreak
    .size seuss_serve, . - seuss_serve

    .section .bss.seuss_serve, "aw", @nobits
    .balign 8
packet:
    .zero 32768
reply:
    .zero 32768
