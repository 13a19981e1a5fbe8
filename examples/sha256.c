/*
 * Answers the SHA-256 (FIPS 180-4) of the packet, as its 32 bytes. Every packet has an answer.
 */
#include "seuss.h"

enum { BLOCK = 64 };

/* FIPS 180-4, section 4.2.2. */
static const uint32_t constants[64] = {
    0x428a2f98, 0x71374491, 0xb5c0fbcf, 0xe9b5dba5, 0x3956c25b, 0x59f111f1, 0x923f82a4, 0xab1c5ed5,
    0xd807aa98, 0x12835b01, 0x243185be, 0x550c7dc3, 0x72be5d74, 0x80deb1fe, 0x9bdc06a7, 0xc19bf174,
    0xe49b69c1, 0xefbe4786, 0x0fc19dc6, 0x240ca1cc, 0x2de92c6f, 0x4a7484aa, 0x5cb0a9dc, 0x76f988da,
    0x983e5152, 0xa831c66d, 0xb00327c8, 0xbf597fc7, 0xc6e00bf3, 0xd5a79147, 0x06ca6351, 0x14292967,
    0x27b70a85, 0x2e1b2138, 0x4d2c6dfc, 0x53380d13, 0x650a7354, 0x766a0abb, 0x81c2c92e, 0x92722c85,
    0xa2bfe8a1, 0xa81a664b, 0xc24b8b70, 0xc76c51a3, 0xd192e819, 0xd6990624, 0xf40e3585, 0x106aa070,
    0x19a4c116, 0x1e376c08, 0x2748774c, 0x34b0bcb5, 0x391c0cb3, 0x4ed8aa4a, 0x5b9cca4f, 0x682e6ff3,
    0x748f82ee, 0x78a5636f, 0x84c87814, 0x8cc70208, 0x90befffa, 0xa4506ceb, 0xbef9a3f7, 0xc67178f2,
};

/* FIPS 180-4, section 5.3.3. */
static const uint32_t first_state[8] = {0x6a09e667, 0xbb67ae85, 0x3c6ef372, 0xa54ff53a,
                                        0x510e527f, 0x9b05688c, 0x1f83d9ab, 0x5be0cd19};

static uint32_t rotated(uint32_t word, int by) {
    return word >> by | word << (32 - by);
}

static uint32_t word_at(const uint8_t *bytes) {
    return (uint32_t)bytes[0] << 24 | (uint32_t)bytes[1] << 16 | (uint32_t)bytes[2] << 8 | bytes[3];
}

static void put_word(uint8_t *bytes, uint32_t word) {
    for (int at = 0; at < 4; at++)
        bytes[at] = (uint8_t)(word >> (24 - 8 * at));
}

/* The words of a block and those that follow from them (section 6.2.2, step 1). */
static void schedule(uint32_t words[64], const uint8_t *block) {
    for (int t = 0; t < 16; t++)
        words[t] = word_at(block + 4 * t);
    for (int t = 16; t < 64; t++) {
        uint32_t x = words[t - 15], y = words[t - 2];
        words[t] = words[t - 16] + (rotated(x, 7) ^ rotated(x, 18) ^ x >> 3) + words[t - 7] +
                   (rotated(y, 17) ^ rotated(y, 19) ^ y >> 10);
    }
}

/* Section 6.2.2, steps 2 to 4, with the names that stand there. */
static void add_block(uint32_t state[8], const uint8_t *block) {
    uint32_t words[64];
    schedule(words, block);
    uint32_t a = state[0], b = state[1], c = state[2], d = state[3];
    uint32_t e = state[4], f = state[5], g = state[6], h = state[7];
    for (int t = 0; t < 64; t++) {
        uint32_t t1 = h + (rotated(e, 6) ^ rotated(e, 11) ^ rotated(e, 25)) + ((e & f) ^ (~e & g)) +
                      constants[t] + words[t];
        uint32_t t2 =
            (rotated(a, 2) ^ rotated(a, 13) ^ rotated(a, 22)) + ((a & b) ^ (a & c) ^ (b & c));
        h = g, g = f, f = e, e = d + t1;
        d = c, c = b, b = a, a = t1 + t2;
    }
    state[0] += a, state[1] += b, state[2] += c, state[3] += d;
    state[4] += e, state[5] += f, state[6] += g, state[7] += h;
}

/* What is behind the last whole block, with its padding (section 5.1.1): one block or two. */
static void add_end(uint32_t state[8], const uint8_t *rest, size_t count, uint64_t bits) {
    uint8_t end[2 * BLOCK] = {0};
    size_t size = count < BLOCK - 8 ? BLOCK : 2 * BLOCK;
    for (size_t at = 0; at < count; at++)
        end[at] = rest[at];
    end[count] = 0x80;
    put_word(end + size - 8, (uint32_t)(bits >> 32));
    put_word(end + size - 4, (uint32_t)bits);
    for (size_t at = 0; at < size; at += BLOCK)
        add_block(state, end + at);
}

static size_t handle(const uint8_t *packet, size_t length, uint8_t *reply) {
    uint32_t state[8];
    size_t at = 0;
    for (int i = 0; i < 8; i++)
        state[i] = first_state[i];
    for (; length - at >= BLOCK; at += BLOCK)
        add_block(state, packet + at);
    add_end(state, packet + at, length - at, (uint64_t)length * 8);
    for (int i = 0; i < 8; i++)
        put_word(reply + 4 * i, state[i]);
    return 32;
}

int main(void) {
    seuss_serve(handle);
}
