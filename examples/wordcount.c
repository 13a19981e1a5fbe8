/*
 * Counts as wc does in a text: answers `LINES WORDS BYTES` and a line feed, in decimal. LINES are
 * the line feeds of the packet, and a word is a longest piece of it without space, tab, line feed,
 * vertical tab, form feed and carriage return. Every packet has an answer.
 */
#include <stdbool.h>

#include "seuss.h"

static bool is_space(uint8_t byte) {
    return byte == ' ' || (byte >= '\t' && byte <= '\r');
}

/* Writes the number in decimal to `out`, with `after` behind it, and returns where that ends. */
static uint8_t *put_number(uint8_t *out, size_t number, char after) {
    uint8_t digits[20];
    size_t count = 0;
    do {
        digits[count++] = (uint8_t)('0' + number % 10);
        number /= 10;
    } while (number > 0);
    while (count > 0)
        *out++ = digits[--count];
    *out++ = (uint8_t)after;
    return out;
}

static size_t handle(const uint8_t *packet, size_t length, uint8_t *reply) {
    size_t lines = 0, words = 0;
    bool in_word = false;
    for (size_t at = 0; at < length; at++) {
        bool space = is_space(packet[at]);
        lines += packet[at] == '\n';
        words += !space && !in_word;
        in_word = !space;
    }
    uint8_t *end = put_number(reply, lines, ' ');
    end = put_number(end, words, ' ');
    end = put_number(end, length, '\n');
    return (size_t)(end - reply);
}

int main(void) {
    seuss_serve(handle);
}
