# Sends the packet that it was called with back, and halts. Its one segment may be read, written
# and executed; it has 4096 bytes from 0x10000 on. They begin with these twelve words, and the
# run begins at the first of them. The packet is kept in the same segment, from 0x10100 on.

.segment 0x10000 rwx 4096
    addi s0, x0, 1          # s0 = 1
    slli s0, s0, 16         # s0 = 0x10000, the segment's first address

    # Receive: call 7 writes the packet to a0, at most a1 bytes, and answers in a0 and a1.
    addi a0, s0, 256
    addi a1, x0, 1024
    addi a7, x0, 7
    ecall

    # Send: call 6 sends the a1 bytes at a0.
    addi a0, s0, 256
    addi a7, x0, 6
    ecall

    # Halt: call 8 ends the run with a0 as its status.
    addi a0, x0, 0
    addi a7, x0, 8
    ecall
