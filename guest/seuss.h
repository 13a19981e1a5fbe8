/*
 * What a program of seuss reaches the outside by: the six hypercalls, and a loop that serves
 * packets with a function of yours. docs/FORMATS.md, "Hypercalls", has each of them.
 *
 * A packet comes in, packets go out, and the console is for a person to read. A run begins where
 * the program does, or goes on with a packet that it waited for, and ends where it waits and none
 * is queued.
 */
#ifndef SEUSS_H
#define SEUSS_H

#include <stddef.h>
#include <stdint.h>

enum {
    SEUSS_PACKET_BYTES = 32768,  /* the most bytes of a packet, in or out */
    SEUSS_WRITTEN_PACKETS = 64,  /* the most packets that are written in one run */
    SEUSS_WRITTEN_BYTES = 65536, /* the most bytes of these packets together */
    SEUSS_CONSOLE_BYTES = 4096,  /* the most console bytes that are written in one run */
    SEUSS_STACK_BYTES = 65536    /* the bytes of the stack by `seuss call` */
};

/* What a hypercall answers. */
enum seuss_result {
    SEUSS_OK = 0,     /* it was done */
    SEUSS_AGAIN = 1,  /* nothing was done, and the same call may be done later */
    SEUSS_INVALID = 2 /* nothing was done: the arguments are against a limit or a permission */
};

/* The clock of the run, a number that `seuss call` shows as 0. */
static inline uint64_t seuss_clock(void) {
    register uint64_t a7 __asm__("a7") = 1;
    register uint64_t a0 __asm__("a0");
    __asm__ volatile("ecall" : "=r"(a0) : "r"(a7));
    return a0;
}

/*
 * Adds these bytes to the console. SEUSS_INVALID exactly where the console would have more than
 * SEUSS_CONSOLE_BYTES in this run, or one of the bytes may not be read; then none is added.
 */
static inline enum seuss_result seuss_console(const void *bytes, size_t length) {
    register uint64_t a7 __asm__("a7") = 2;
    register uint64_t a0 __asm__("a0") = (uint64_t)bytes;
    register uint64_t a1 __asm__("a1") = length;
    __asm__ volatile("ecall" : "+r"(a0) : "r"(a1), "r"(a7) : "memory");
    return (enum seuss_result)a0;
}

/*
 * Returns once a packet is there to be read: at once where one is queued already, and else the
 * run ends here, and a later run that is given a packet goes on from here.
 */
static inline void seuss_wait(void) {
    register uint64_t a7 __asm__("a7") = 3;
    register uint64_t a0 __asm__("a0");
    __asm__ volatile("ecall" : "=r"(a0) : "r"(a7) : "memory");
}

/*
 * Writes these bytes as one packet. SEUSS_INVALID exactly where they are more than
 * SEUSS_PACKET_BYTES, SEUSS_WRITTEN_PACKETS were written in this run already, the packets
 * together would have more than SEUSS_WRITTEN_BYTES, or one of the bytes may not be read; then
 * nothing is written.
 */
static inline enum seuss_result seuss_write(const void *packet, size_t length) {
    register uint64_t a7 __asm__("a7") = 6;
    register uint64_t a0 __asm__("a0") = (uint64_t)packet;
    register uint64_t a1 __asm__("a1") = length;
    __asm__ volatile("ecall" : "+r"(a0) : "r"(a1), "r"(a7) : "memory");
    return (enum seuss_result)a0;
}

/*
 * Takes the next packet: writes it to `packet` and its length to `*length`. SEUSS_AGAIN where no
 * packet is queued; SEUSS_INVALID where it is longer than `room`, or one of its bytes' places may
 * not be written. Then the packet stays queued, and memory and `*length` as they were.
 */
static inline enum seuss_result seuss_read(void *packet, size_t room, size_t *length) {
    register uint64_t a7 __asm__("a7") = 7;
    register uint64_t a0 __asm__("a0") = (uint64_t)packet;
    register uint64_t a1 __asm__("a1") = room;
    __asm__ volatile("ecall" : "+r"(a0), "+r"(a1) : "r"(a7) : "memory");
    enum seuss_result result = (enum seuss_result)a0;
    if (result == SEUSS_OK)
        *length = a1;
    return result;
}

/* Ends the program for good, with this code: `halt:CODE`. What `main` returns ends it so too. */
static inline _Noreturn void seuss_halt(uint64_t code) {
    register uint64_t a7 __asm__("a7") = 8;
    register uint64_t a0 __asm__("a0") = code;
    __asm__ volatile("ecall" : : "r"(a0), "r"(a7) : "memory");
    __builtin_unreachable();
}

/*
 * A function that answers one packet: it writes at most SEUSS_PACKET_BYTES bytes to `reply`, and
 * returns how many. Before that it may write packets of its own by seuss_write. `packet` is there
 * until it returns.
 */
typedef size_t seuss_handler(const uint8_t *packet, size_t length, uint8_t *reply);

/*
 * Serves: waits for a packet, reads it, has it handled, writes the reply as a packet, over and
 * over. What was set up before the call, and all static data, is there for each packet. A run
 * ends with `fault:3` (an EBREAK behind the loop, in start.S) where the handler returns more than
 * SEUSS_PACKET_BYTES, or its reply is above what one run may write.
 */
_Noreturn void seuss_serve(seuss_handler *handle);

/*
 * The trigger of a program of layers, which calls it once it has read all that is queued. A run
 * of a layer stops where it is called. What goes on from there, a layer above or a request, comes
 * back from the call with its packets queued. A call is a wait: without a packet the run rests.
 */
__attribute__((weak, noinline, noclone)) void seuss_ready(void) {
    seuss_wait();
}

/*
 * Serves as seuss_serve does, and reads all that is queued before it comes to its trigger, which
 * is seuss_ready: so each layer has read all of its packets. What a handler replies in the run of
 * a layer goes nowhere. A run ends with `fault:3` where seuss_serve's does.
 */
static inline _Noreturn void seuss_serve_layers(seuss_handler *handle) {
    static uint8_t packet[SEUSS_PACKET_BYTES], reply[SEUSS_PACKET_BYTES];
    for (;; seuss_ready()) {
        size_t length;
        while (seuss_read(packet, sizeof packet, &length) == SEUSS_OK) {
            size_t written = handle(packet, length, reply);
            if (seuss_write(reply, written) != SEUSS_OK)
                __builtin_trap();
        }
    }
}

#endif
