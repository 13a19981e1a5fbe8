/* Prints what the operations of RV64IM give at all pairs of a few words, as the text of
   a Rattle source file. The values are those of C's integers, with the cases that C
   leaves open written out: a division by 0, and the least number divided by -1. */
#include <inttypes.h>
#include <stdint.h>
#include <stdio.h>

static const uint64_t words[] = {
    0x0, 0x1, 0x7, 0x21, 0x3f, 0x7fffffff, 0x80000000, 0xffffffff,
    0x123456789abcdef0, 0x7fffffffffffffff, 0x8000000000000000, 0xabcdef0000000000,
    0xfedcba9876543211, 0xffffffff80000000, 0xfffffffffffffff9, 0xffffffffffffffff,
};
enum { count = sizeof words / sizeof words[0] };

typedef uint64_t operation(uint64_t, uint64_t);

/* The 32-bit result as a word, extended by its sign. */
static uint64_t extended(uint32_t a) { return (uint64_t)(int64_t)(int32_t)a; }

static uint64_t add(uint64_t a, uint64_t b) { return a + b; }
static uint64_t sub(uint64_t a, uint64_t b) { return a - b; }
static uint64_t sll(uint64_t a, uint64_t b) { return a << (b & 63); }
static uint64_t srl(uint64_t a, uint64_t b) { return a >> (b & 63); }
static uint64_t sra(uint64_t a, uint64_t b) { return (uint64_t)((int64_t)a >> (b & 63)); }
static uint64_t slt(uint64_t a, uint64_t b) { return (int64_t)a < (int64_t)b; }
static uint64_t sltu(uint64_t a, uint64_t b) { return a < b; }
static uint64_t and(uint64_t a, uint64_t b) { return a & b; }
static uint64_t or(uint64_t a, uint64_t b) { return a | b; }
static uint64_t xor(uint64_t a, uint64_t b) { return a ^ b; }

static uint64_t mul(uint64_t a, uint64_t b) { return a * b; }
static uint64_t mulh(uint64_t a, uint64_t b) {
    return (uint64_t)(((__int128)(int64_t)a * (__int128)(int64_t)b) >> 64);
}
static uint64_t mulhsu(uint64_t a, uint64_t b) {
    return (uint64_t)(((__int128)(int64_t)a * (__int128)b) >> 64);
}
static uint64_t mulhu(uint64_t a, uint64_t b) {
    return (uint64_t)(((unsigned __int128)a * (unsigned __int128)b) >> 64);
}

static uint64_t div(uint64_t a, uint64_t b) {
    if (b == 0) return UINT64_MAX;
    if ((int64_t)a == INT64_MIN && (int64_t)b == -1) return a;
    return (uint64_t)((int64_t)a / (int64_t)b);
}
static uint64_t divu(uint64_t a, uint64_t b) { return b == 0 ? UINT64_MAX : a / b; }
static uint64_t rem(uint64_t a, uint64_t b) {
    if (b == 0) return a;
    if ((int64_t)a == INT64_MIN && (int64_t)b == -1) return 0;
    return (uint64_t)((int64_t)a % (int64_t)b);
}
static uint64_t remu(uint64_t a, uint64_t b) { return b == 0 ? a : a % b; }

static uint64_t addw(uint64_t a, uint64_t b) { return extended((uint32_t)a + (uint32_t)b); }
static uint64_t subw(uint64_t a, uint64_t b) { return extended((uint32_t)a - (uint32_t)b); }
static uint64_t sllw(uint64_t a, uint64_t b) { return extended((uint32_t)a << (b & 31)); }
static uint64_t srlw(uint64_t a, uint64_t b) { return extended((uint32_t)a >> (b & 31)); }
static uint64_t sraw(uint64_t a, uint64_t b) {
    return extended((uint32_t)((int32_t)a >> (b & 31)));
}
static uint64_t mulw(uint64_t a, uint64_t b) { return extended((uint32_t)a * (uint32_t)b); }
static uint64_t divw(uint64_t a, uint64_t b) {
    int32_t x = (int32_t)a, y = (int32_t)b;
    if (y == 0) return UINT64_MAX;
    if (x == INT32_MIN && y == -1) return extended((uint32_t)x);
    return extended((uint32_t)(x / y));
}
static uint64_t divuw(uint64_t a, uint64_t b) {
    uint32_t x = (uint32_t)a, y = (uint32_t)b;
    return y == 0 ? UINT64_MAX : extended(x / y);
}
static uint64_t remw(uint64_t a, uint64_t b) {
    int32_t x = (int32_t)a, y = (int32_t)b;
    if (y == 0) return extended((uint32_t)x);
    if (x == INT32_MIN && y == -1) return 0;
    return extended((uint32_t)(x % y));
}
static uint64_t remuw(uint64_t a, uint64_t b) {
    uint32_t x = (uint32_t)a, y = (uint32_t)b;
    return extended(y == 0 ? x : x % y);
}

#define WITH_NAME(F, f) { #F, f }
static const struct { const char *name; operation *of; } operations[] = {
    WITH_NAME(ADD, add), WITH_NAME(SUB, sub), WITH_NAME(SLL, sll), WITH_NAME(SRL, srl),
    WITH_NAME(SRA, sra), WITH_NAME(SLT, slt), WITH_NAME(SLTU, sltu), WITH_NAME(AND, and),
    WITH_NAME(OR, or), WITH_NAME(XOR, xor), WITH_NAME(MUL, mul), WITH_NAME(MULH, mulh),
    WITH_NAME(MULHSU, mulhsu), WITH_NAME(MULHU, mulhu), WITH_NAME(DIV, div), WITH_NAME(DIVU, divu),
    WITH_NAME(REM, rem), WITH_NAME(REMU, remu), WITH_NAME(ADDW, addw), WITH_NAME(SUBW, subw),
    WITH_NAME(SLLW, sllw), WITH_NAME(SRLW, srlw), WITH_NAME(SRAW, sraw), WITH_NAME(MULW, mulw),
    WITH_NAME(DIVW, divw), WITH_NAME(DIVUW, divuw), WITH_NAME(REMW, remw), WITH_NAME(REMUW, remuw),
};

int main(void) {
    puts("//! What a C compiler's integers give for each operation at all pairs of a few words.");
    puts("//! Printed by `scripts/rv_base_vectors.sh`; not edited by hand.\n");
    printf("/// The words of the pairs.\npub const WORDS: [u64; %d] = [\n", count);
    for (int i = 0; i < count; i++) printf("    0x%" PRIx64 ",\n", words[i]);
    puts("];\n");
    puts("/// What an operation gives, in hexadecimal: a line for each first word, and in it a value");
    puts("/// for each second word, both in the order of `WORDS`.");
    printf("pub type Values = [&'static str; %d];\n", count);
    for (size_t k = 0; k < sizeof operations / sizeof operations[0]; k++) {
        printf("\npub const %s: Values = [\n", operations[k].name);
        for (int i = 0; i < count; i++) {
            printf("    \"");
            for (int j = 0; j < count; j++)
                printf("%s%" PRIx64, j ? " " : "", operations[k].of(words[i], words[j]));
            puts("\",");
        }
        puts("];");
    }
    return 0;
}
