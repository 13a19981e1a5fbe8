/*
 * Tests the kit: halts with 0, or with the line of the first thing that isn't so. It is to be
 * called with the packet `abc`.
 */
#include <stdbool.h>

#include "seuss.h"

void *memcpy(void *to, const void *from, size_t length);
void *memmove(void *to, const void *from, size_t length);
void *memset(void *to, int byte, size_t length);
int memcmp(const void *left, const void *right, size_t length);

#define EXPECT(fact)                                                                               \
    if (!(fact))                                                                                   \
    seuss_halt(__LINE__)

enum { SIZE = 64 };

/* An address that nothing is at. */
#define NOWHERE ((void *)16)

static uint8_t bytes[SIZE], wanted[SIZE];

static void fill(void) {
    for (int at = 0; at < SIZE; at++)
        bytes[at] = wanted[at] = (uint8_t)(at * 37 + 11);
}

static bool is_wanted(void) {
    for (int at = 0; at < SIZE; at++)
        if (bytes[at] != wanted[at])
            return false;
    return true;
}

/* Each function on each range of a few lengths and places, beside a loop over its bytes. */
static void test_memory(int to, int from, int length) {
    fill();
    for (int at = 0; at < length; at++)
        wanted[to + at] = bytes[from + at];
    EXPECT(memmove(bytes + to, bytes + from, (size_t)length) == bytes + to && is_wanted());
    fill();
    for (int at = 0; at < length; at++)
        bytes[to + at] = 0xa5;
    EXPECT(memset(wanted + to, 0x7a5, (size_t)length) == wanted + to && is_wanted());
    fill();
    if (to + length <= from || from + length <= to) {
        for (int at = 0; at < length; at++)
            wanted[to + at] = bytes[from + at];
        EXPECT(memcpy(bytes + to, bytes + from, (size_t)length) == bytes + to && is_wanted());
    }
}

static void test_order(int length, int other) {
    fill();
    EXPECT(memcmp(bytes, wanted, (size_t)length) == 0);
    bytes[other] = 1, wanted[other] = 0x80;
    EXPECT((memcmp(bytes, wanted, (size_t)length) < 0) == (other < length));
    EXPECT((memcmp(wanted, bytes, (size_t)length) > 0) == (other < length));
    bytes[SIZE - 1] = 255;
    EXPECT(memcmp(bytes, wanted, (size_t)length) <= 0);
}

static void test_functions(void) {
    for (int to = 0; to < 12; to++)
        for (int from = 0; from < 12; from++)
            for (int length = 0; length < 40; length += length < 20 ? 1 : 7)
                test_memory(to, from, length);
    for (int length = 0; length < 20; length++)
        for (int other = 0; other < 20; other++)
            test_order(length, other);
}

static uint8_t large[SEUSS_PACKET_BYTES + 1];

/* Each result of the hypercalls, and that what is named as unchanged stays. */
static void test_packets(void) {
    size_t length = 77;
    EXPECT(seuss_clock() == 0);
    seuss_wait();
    EXPECT(seuss_read(large, 2, &length) == SEUSS_INVALID && length == 77 && large[0] == 0);
    EXPECT(seuss_read(NOWHERE, 3, &length) == SEUSS_INVALID);
    EXPECT(seuss_read(large, sizeof large, &length) == SEUSS_OK && length == 3);
    EXPECT(large[0] == 'a' && large[1] == 'b' && large[2] == 'c' && large[3] == 0);
    EXPECT(seuss_read(large, sizeof large, &length) == SEUSS_AGAIN && length == 3);
    EXPECT(seuss_write(large, SEUSS_PACKET_BYTES + 1) == SEUSS_INVALID);
    EXPECT(seuss_write(large, SEUSS_PACKET_BYTES) == SEUSS_OK);
    EXPECT(seuss_write(large, SEUSS_WRITTEN_BYTES - SEUSS_PACKET_BYTES) == SEUSS_OK);
    EXPECT(seuss_write(large, 1) == SEUSS_INVALID);
    for (int count = 2; count < SEUSS_WRITTEN_PACKETS; count++)
        EXPECT(seuss_write(large, 0) == SEUSS_OK);
    EXPECT(seuss_write(large, 0) == SEUSS_INVALID);
}

static void test_console(void) {
    EXPECT(seuss_console(large, SEUSS_CONSOLE_BYTES + 1) == SEUSS_INVALID);
    EXPECT(seuss_console(NOWHERE, 1) == SEUSS_INVALID);
    EXPECT(seuss_console(large, SEUSS_CONSOLE_BYTES) == SEUSS_OK);
    EXPECT(seuss_console(large, 1) == SEUSS_INVALID);
    EXPECT(seuss_console(large, 0) == SEUSS_OK);
}

/* The lowest byte of the stack is there, and the data that has a value has it. */
static volatile int with_value = 42, without;

int main(void) {
    volatile uint8_t *place = (uint8_t *)(((uint64_t)1 << 38) - SEUSS_STACK_BYTES);
    *place = 5;
    EXPECT(*place == 5 && with_value == 42 && without == 0);
    test_functions();
    test_packets();
    test_console();
    return 0;
}
