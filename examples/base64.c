/*
 * Answers the packet in base64 (RFC 4648, section 4): padded, in one line without a line feed.
 * That of a packet of more than 24,576 bytes is longer than a packet, and comes in two: 32,768
 * characters, and then the rest. Every packet has an answer.
 */
#include "seuss.h"

static const char digits[] = "ABCDEFGHIJKLMNOPQRSTUVWXYZabcdefghijklmnopqrstuvwxyz0123456789+/";

/* The most bytes whose base64 is one packet. */
enum { PART = SEUSS_PACKET_BYTES / 4 * 3 };

static size_t encode(const uint8_t *bytes, size_t length, uint8_t *out) {
    uint8_t *end = out;
    size_t at = 0;
    for (; at + 3 <= length; at += 3, end += 4) {
        uint32_t group = (uint32_t)bytes[at] << 16 | (uint32_t)bytes[at + 1] << 8 | bytes[at + 2];
        end[0] = (uint8_t)digits[group >> 18];
        end[1] = (uint8_t)digits[group >> 12 & 63];
        end[2] = (uint8_t)digits[group >> 6 & 63];
        end[3] = (uint8_t)digits[group & 63];
    }
    if (at < length) {
        uint32_t group = (uint32_t)bytes[at] << 16;
        if (at + 1 < length)
            group |= (uint32_t)bytes[at + 1] << 8;
        end[0] = (uint8_t)digits[group >> 18];
        end[1] = (uint8_t)digits[group >> 12 & 63];
        end[2] = at + 1 < length ? (uint8_t)digits[group >> 6 & 63] : '=';
        end[3] = '=';
        end += 4;
    }
    return (size_t)(end - out);
}

static size_t handle(const uint8_t *packet, size_t length, uint8_t *reply) {
    for (; length > PART; packet += PART, length -= PART)
        seuss_write(reply, encode(packet, PART, reply));
    return encode(packet, length, reply);
}

int main(void) {
    seuss_serve(handle);
}
