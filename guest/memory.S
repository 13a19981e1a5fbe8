# The four functions that a compiler calls on its own, as for a struct that is copied. They go by
# words at any address, since the machine carries out misaligned loads and stores. A
# program's own functions of these names take their places.

    .file "memory.S"

# void *memmove(void *to, const void *from, size_t length)
    .section .text.memmove, "ax"
    .weak memmove
    .type memmove, @function
memmove:
    sub a3, a0, a1
    bltu a3, a2, 1f
    tail memcpy                 # no byte of `from` is written before it is read
1:  add a1, a1, a2
    add a3, a0, a2
    li a4, 8
    bltu a2, a4, 3f
2:  ld a5, -8(a1)
    sd a5, -8(a3)
    addi a1, a1, -8
    addi a3, a3, -8
    addi a2, a2, -8
    bgeu a2, a4, 2b
3:  beq a3, a0, 5f
4:  lbu a5, -1(a1)
    sb a5, -1(a3)
    addi a1, a1, -1
    addi a3, a3, -1
    bne a3, a0, 4b
5:  ret
    .size memmove, . - memmove

# void *memcpy(void *to, const void *from, size_t length)
    .section .text.memcpy, "ax"
    .weak memcpy
    .type memcpy, @function
memcpy:
    mv a3, a0
    add a6, a0, a2
    li a4, 8
    bltu a2, a4, 2f
1:  ld a5, 0(a1)
    sd a5, 0(a3)
    addi a1, a1, 8
    addi a3, a3, 8
    addi a2, a2, -8
    bgeu a2, a4, 1b
2:  beq a3, a6, 4f
3:  lbu a5, 0(a1)
    sb a5, 0(a3)
    addi a1, a1, 1
    addi a3, a3, 1
    bne a3, a6, 3b
4:  ret
    .size memcpy, . - memcpy

# void *memset(void *to, int byte, size_t length)
    .section .text.memset, "ax"
    .weak memset
    .type memset, @function
memset:
    mv a3, a0
    add a6, a0, a2
    li a4, 8
    bltu a2, a4, 2f
    andi a1, a1, 255
    slli a5, a1, 8              # the byte in each of the word's eight
    or a1, a1, a5
    slli a5, a1, 16
    or a1, a1, a5
    slli a5, a1, 32
    or a1, a1, a5
1:  sd a1, 0(a3)
    addi a3, a3, 8
    addi a2, a2, -8
    bgeu a2, a4, 1b
2:  beq a3, a6, 4f
3:  sb a1, 0(a3)
    addi a3, a3, 1
    bne a3, a6, 3b
4:  ret
    .size memset, . - memset

# int memcmp(const void *left, const void *right, size_t length)
    .section .text.memcmp, "ax"
    .weak memcmp
    .type memcmp, @function
memcmp:
    li a4, 8
1:  bltu a2, a4, 2f
    ld a5, 0(a0)
    ld a6, 0(a1)
    bne a5, a6, 2f              # the bytes say which is less
    addi a0, a0, 8
    addi a1, a1, 8
    addi a2, a2, -8
    j 1b
2:  beqz a2, 3f
    lbu a5, 0(a0)
    lbu a6, 0(a1)
    addi a0, a0, 1
    addi a1, a1, 1
    addi a2, a2, -1
    beq a5, a6, 2b
    sub a0, a5, a6
    ret
3:  li a0, 0
    ret
    .size memcmp, . - memcmp
