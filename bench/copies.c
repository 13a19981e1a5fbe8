/*
 * copies PAGES ROUNDS: copies so many pages of 4,096 bytes, each with a word in it, by one memcpy
 * so many times, back and forth between two blocks, and prints a word.
 */
#include <stdio.h>
#include <stdlib.h>
#include <string.h>

enum { page_size = 4096 };

int main(int argc, char **argv) {
    size_t pages = argc > 2 ? strtoul(argv[1], NULL, 10) : 0;
    unsigned long rounds = argc > 2 ? strtoul(argv[2], NULL, 10) : 0;
    size_t bytes = pages * page_size;
    unsigned char *from = calloc(1, bytes), *to = malloc(bytes);
    if (!from || !to) return 1;
    for (size_t page = 0; page < pages; page++)
        memset(from + page * page_size + page * 8 % page_size, 255, 8);
    memcpy(to, from, bytes);
    for (unsigned long round = 0; round < rounds; round++) {
        memcpy(to, from, bytes);
        unsigned char *last = to;
        to = from;
        from = last;
    }
    printf("%d\n", from[0]);
    return 0;
}
