# Adds the first byte of each packet to a sum, and answers the sum's low byte. It is a server
# loop: it rests until there is a packet, and keeps its sum from packet to packet.

.segment 0x10000 rx 4096
    lui s0, 0x20            # s0 = 0x20000, where the data are
    sd x0, 0(s0)            # the sum is 0

# Here, at 0x10008, the function is ready for its first packet: the place for a layer's trigger.
loop:
    # Wait: call 3 rests until a packet is there.
    addi a7, x0, 3
    ecall

    # Receive: call 7 writes the packet to a0, at most a1 bytes.
    addi a0, s0, 16
    addi a1, x0, 64
    addi a7, x0, 7
    ecall

    ld t0, 0(s0)
    lbu t1, 16(s0)
    add t0, t0, t1
    sd t0, 0(s0)

    # Send: call 6 sends the a1 bytes at a0.
    addi a0, s0, 0
    addi a1, x0, 1
    addi a7, x0, 6
    ecall
    jal x0, loop

# The sum, and the packet 16 bytes behind it.
.segment 0x20000 rw 4096
