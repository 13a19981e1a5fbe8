/*
 * atomic ROUNDS: adds 256 to one word so many times, each time in one sequentially consistent
 * step, and prints the word.
 */
#include <stdatomic.h>
#include <stdio.h>
#include <stdlib.h>

static _Atomic unsigned long word;

int main(int argc, char **argv) {
    unsigned long rounds = argc > 1 ? strtoul(argv[1], NULL, 10) : 0;
    for (unsigned long round = 0; round < rounds; round++) atomic_fetch_add(&word, 256);
    printf("%lu\n", word);
    return 0;
}
