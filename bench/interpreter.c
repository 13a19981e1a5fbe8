/*
 * A plain interpreter of RV64IM over one flat array, without permissions, written pages or
 * checks of any kind: what `seuss call` is measured beside. It decodes by `switch`.
 *
 *   interpreter IMAGE    runs the image, and prints its halt code and its instructions
 */
#include <stdint.h>
#include <stdio.h>
#include <stdlib.h>
#include <string.h>

enum { MEMORY = 1 << 24, STACK_TOP = MEMORY - 16 };

static uint8_t memory[MEMORY];

static uint64_t sign(uint64_t value, int bits) {
    return (uint64_t)((int64_t)(value << (64 - bits)) >> (64 - bits));
}

static uint64_t field(uint32_t w, int high, int low) {
    return w >> low & ((2ull << (high - low)) - 1);
}

static uint64_t load(uint64_t at, int size) {
    uint64_t value = 0;
    memcpy(&value, memory + at % MEMORY, size);
    return value;
}

static void store(uint64_t at, uint64_t value, int size) { memcpy(memory + at % MEMORY, &value, size); }

static uint64_t divide(uint64_t a, uint64_t b) {
    if (b == 0) return ~0ull;
    if (a == 1ull << 63 && b == ~0ull) return a;
    return (uint64_t)((int64_t)a / (int64_t)b);
}

static uint64_t remainder_of(uint64_t a, uint64_t b) {
    if (b == 0) return a;
    if (a == 1ull << 63 && b == ~0ull) return 0;
    return (uint64_t)((int64_t)a % (int64_t)b);
}

static uint64_t operation(uint32_t w, uint64_t a, uint64_t b) {
    switch (field(w, 31, 25) << 3 | field(w, 14, 12)) {
    case 0x000: return a + b;
    case 0x001: return a << (b & 63);
    case 0x002: return (int64_t)a < (int64_t)b;
    case 0x003: return a < b;
    case 0x004: return a ^ b;
    case 0x005: return a >> (b & 63);
    case 0x006: return a | b;
    case 0x007: return a & b;
    case 0x100: return a - b;
    case 0x105: return (uint64_t)((int64_t)a >> (b & 63));
    case 0x008: return a * b;
    case 0x009: return (uint64_t)((__int128)(int64_t)a * (int64_t)b >> 64);
    case 0x00a: return (uint64_t)((__int128)(int64_t)a * (__int128)b >> 64);
    case 0x00b: return (uint64_t)((unsigned __int128)a * b >> 64);
    case 0x00c: return divide(a, b);
    case 0x00d: return b == 0 ? ~0ull : a / b;
    case 0x00e: return remainder_of(a, b);
    case 0x00f: return b == 0 ? a : a % b;
    }
    exit(2);
}

static uint64_t operation_w(uint32_t w, uint32_t a, uint32_t b) {
    switch (field(w, 31, 25) << 3 | field(w, 14, 12)) {
    case 0x000: return sign(a + b, 32);
    case 0x001: return sign(a << (b & 31), 32);
    case 0x005: return sign(a >> (b & 31), 32);
    case 0x100: return sign(a - b, 32);
    case 0x105: return (uint64_t)(int64_t)((int32_t)a >> (b & 31));
    case 0x008: return sign(a * b, 32);
    case 0x00c: return b == 0 ? ~0ull : sign((uint32_t)((int64_t)(int32_t)a / (int32_t)b), 32);
    case 0x00d: return b == 0 ? ~0ull : sign(a / b, 32);
    case 0x00e: return b == 0 ? sign(a, 32) : sign((uint32_t)((int64_t)(int32_t)a % (int32_t)b), 32);
    case 0x00f: return sign(b == 0 ? a : a % b, 32);
    }
    exit(2);
}

static uint64_t immediate(uint32_t w, uint64_t a, uint64_t i) {
    switch (field(w, 14, 12)) {
    case 0: return a + i;
    case 1: return a << field(w, 25, 20);
    case 2: return (int64_t)a < (int64_t)i;
    case 3: return a < i;
    case 4: return a ^ i;
    case 5: return field(w, 30, 30) ? (uint64_t)((int64_t)a >> field(w, 25, 20)) : a >> field(w, 25, 20);
    case 6: return a | i;
    default: return a & i;
    }
}

static uint64_t immediate_w(uint32_t w, uint32_t a, uint64_t i) {
    switch (field(w, 14, 12)) {
    case 0: return sign(a + (uint32_t)i, 32);
    case 1: return sign(a << field(w, 24, 20), 32);
    case 5: return field(w, 30, 30) ? (uint64_t)(int64_t)((int32_t)a >> field(w, 24, 20))
                                    : sign(a >> field(w, 24, 20), 32);
    }
    exit(2);
}

static uint64_t loaded(uint32_t w, uint64_t at) {
    switch (field(w, 14, 12)) {
    case 0: return sign(load(at, 1), 8);
    case 1: return sign(load(at, 2), 16);
    case 2: return sign(load(at, 4), 32);
    case 3: return load(at, 8);
    case 4: return load(at, 1);
    case 5: return load(at, 2);
    case 6: return load(at, 4);
    }
    exit(2);
}

static int is_taken(uint32_t w, uint64_t a, uint64_t b) {
    switch (field(w, 14, 12)) {
    case 0: return a == b;
    case 1: return a != b;
    case 4: return (int64_t)a < (int64_t)b;
    case 5: return (int64_t)a >= (int64_t)b;
    case 6: return a < b;
    case 7: return a >= b;
    }
    exit(2);
}

static uint64_t run(uint64_t pc, uint64_t *counted) {
    uint64_t x[32] = {0}, count = 0;
    x[2] = STACK_TOP;
    for (;;) {
        uint32_t w = (uint32_t)load(pc, 4);
        uint64_t a = x[field(w, 19, 15)], b = x[field(w, 24, 20)], rd = field(w, 11, 7);
        uint64_t i = sign(field(w, 31, 20), 12), next = pc + 4, value = x[rd];
        count++;
        switch (w & 127) {
        case 0x37: value = sign(w & 0xfffff000u, 32); break;
        case 0x17: value = pc + sign(w & 0xfffff000u, 32); break;
        case 0x6f:
            value = next;
            next = pc + sign(field(w, 31, 31) << 20 | field(w, 19, 12) << 12 | field(w, 20, 20) << 11 |
                                 field(w, 30, 21) << 1, 21);
            break;
        case 0x67: value = next; next = (a + i) & ~1ull; break;
        case 0x63:
            if (is_taken(w, a, b))
                next = pc + sign(field(w, 31, 31) << 12 | field(w, 7, 7) << 11 | field(w, 30, 25) << 5 |
                                     field(w, 11, 8) << 1, 13);
            break;
        case 0x03: value = loaded(w, a + i); break;
        case 0x23:
            store(a + sign(field(w, 31, 25) << 5 | field(w, 11, 7), 12), b, 1 << field(w, 13, 12));
            break;
        case 0x13: value = immediate(w, a, i); break;
        case 0x1b: value = immediate_w(w, (uint32_t)a, i); break;
        case 0x33: value = operation(w, a, b); break;
        case 0x3b: value = operation_w(w, (uint32_t)a, (uint32_t)b); break;
        case 0x0f: break;
        case 0x73:
            if (x[17] != 8) exit(2);
            *counted = count;
            return x[10];
        default: exit(2);
        }
        if ((w & 127) != 0x63 && (w & 127) != 0x23) x[rd] = value;
        x[0] = 0;
        pc = next;
    }
}

int main(int argc, char **argv) {
    static uint8_t file[MEMORY];
    FILE *in = argc == 2 ? fopen(argv[1], "rb") : NULL;
    if (!in) return 1;
    if (fread(file, 1, sizeof file, in) < 64) return 1;
    fclose(in);
    uint64_t entry, table, counted = 0;
    uint16_t headers;
    memcpy(&entry, file + 24, 8);
    memcpy(&table, file + 32, 8);
    memcpy(&headers, file + 56, 2);
    for (int n = 0; n < headers; n++) {
        const uint8_t *header = file + table + 56 * n;
        uint32_t type;
        uint64_t offset, address, size;
        memcpy(&type, header, 4);
        memcpy(&offset, header + 8, 8);
        memcpy(&address, header + 16, 8);
        memcpy(&size, header + 32, 8);
        if (type == 1) memcpy(memory + address, file + offset, size);
    }
    uint64_t code = run(entry, &counted);
    printf("halt:%llu %llu\n", (unsigned long long)code, (unsigned long long)counted);
    return 0;
}
