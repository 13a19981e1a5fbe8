/*
 * Operations on edge values, as C has them. Here the results go out in packets, and elsewhere
 * as text: what `call` says and what this machine says are one.
 */
typedef unsigned long long u64;
typedef long long s64;
typedef unsigned u32;
typedef int s32;

static const u64 edges[] = {0, 1, 2, 3, 7, 0x7f, 0x80, 0xff, 0x7fff, 0x8000, 0xffff, 0x7fffffff, 0x80000000,
                            0xffffffff, 0x100000000, 0x7fffffffffffffff, 0x8000000000000000,
                            0xfedcba9876543210, 0xfffffffffffffffe, 0xffffffffffffffff};
enum { COUNT = sizeof edges / sizeof *edges };

static u64 row[16];

#ifdef __riscv
static void reply(const void *bytes, u64 size) {
    register u64 a0 asm("a0") = (u64)bytes;
    register u64 a1 asm("a1") = size;
    register u64 a7 asm("a7") = 6;
    asm volatile("ecall" : "+r"(a0) : "r"(a1), "r"(a7) : "memory");
}
#else
#include <stdio.h>
static void reply(const void *bytes, u64 size) {
    static int packets;
    if (packets++) putchar('/');
    for (u64 i = 0; i < size; i++) printf("%02x", ((const unsigned char *)bytes)[i]);
}
#endif

static u64 divided(s64 a, s64 b) { return b == 0 ? ~0ull : a == (s64)1 << 63 && b == -1 ? (u64)a : (u64)(a / b); }
static u64 rest(s64 a, s64 b) { return b == 0 ? (u64)a : a == (s64)1 << 63 && b == -1 ? 0 : (u64)(a % b); }

static void mix(u64 value) {
    for (int i = 15; i > 0; i--) row[i] ^= row[i - 1] * 31 + value;
    row[0] = (row[0] << 7 | row[0] >> 57) ^ value;
}

static void operate(u64 a, u64 b) {
    mix(a + b), mix(a - b), mix(a * b), mix(a & b), mix(a | b), mix(a ^ b);
    mix((u64)((__int128)(s64)a * (s64)b >> 64)), mix((u64)((unsigned __int128)a * b >> 64));
    mix((u64)((__int128)(s64)a * (__int128)b >> 64));
    mix(divided((s64)a, (s64)b)), mix(rest((s64)a, (s64)b)), mix(b ? a / b : ~0ull), mix(b ? a % b : a);
    mix(a << (b & 63)), mix(a >> (b & 63)), mix((u64)((s64)a >> (b & 63)));
    mix((s64)a < (s64)b), mix(a < b), mix((s64)a >= (s64)b), mix(a >= b), mix(a == b);
    u32 c = (u32)a, d = (u32)b;
    mix((u64)(s64)(s32)(c + d)), mix((u64)(s64)(s32)(c - d)), mix((u64)(s64)(s32)(c * d));
    mix((u64)(s64)(s32)(c << (d & 31))), mix((u64)(s64)(s32)(c >> (d & 31))), mix((u64)(s64)((s32)c >> (d & 31)));
    mix(d ? (u64)(s64)(s32)(c / d) : 5), mix(d ? (u64)(s64)(s32)(c % d) : 6);
    mix(d && !(c == 0x80000000 && d == 0xffffffff) ? (u64)(s64)((s32)c / (s32)d) : 7);
    mix(d && !(c == 0x80000000 && d == 0xffffffff) ? (u64)(s64)((s32)c % (s32)d) : 8);
}

/* Loads and stores of each width, also at odd addresses and over a page's end. */
static unsigned char bytes[9000];

static void copy(u64 at) {
    struct __attribute__((packed)) { unsigned char a; unsigned short b; u32 c; u64 d; signed char e; short f; s32 g; } *p;
    p = (void *)(bytes + at);
    p->a = (unsigned char)at, p->b = (unsigned short)(at * 77), p->c = (u32)(at * 77777), p->d = at * 0x9e3779b97f4a7c15ull;
    p->e = (signed char)-at, p->f = (short)(-at * 3), p->g = (s32)(-at * 5);
    mix(p->a), mix(p->b), mix(p->c), mix(p->d), mix((u64)(s64)p->e), mix((u64)(s64)p->f), mix((u64)(s64)p->g);
}

int main(void) {
    for (int i = 0; i < COUNT; i++) {
        for (int j = 0; j < COUNT; j++) operate(edges[i], edges[j]);
        reply(row, sizeof row);
    }
    for (u64 at = 0; at < 8900; at += 37) copy(at);
    for (u64 at = 4070; at < 4100; at++) copy(at);
    reply(row, sizeof row);
    return 0;
}
