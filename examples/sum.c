/*
 * Adds the first byte of each packet to a sum, and answers the sum's lowest byte. An empty packet
 * adds nothing.
 */
#include "seuss.h"

static uint64_t sum;

static size_t handle(const uint8_t *packet, size_t length, uint8_t *reply) {
    if (length > 0)
        sum += packet[0];
    reply[0] = (uint8_t)sum;
    return 1;
}

int main(void) {
    seuss_serve(handle);
}
