/*
 * Keeps values by their keys, from packet to packet. A packet is one of
 *
 *   set KEY VALUE   the answer is `ok`, or `!full` where there is no room for a key more
 *   get KEY         the value, or `!none`
 *   del KEY         `ok`, or `!none`
 *   count           how many keys there are, in decimal digits
 *
 * A key has 1 to 32 bytes and no space, a value is all behind the space, of 0 to 256 bytes. Every
 * other packet is answered `!command`. There is room for 1,000 keys.
 */
#include <stdbool.h>

#include "seuss.h"

enum { MOST_KEYS = 1000, SLOTS = 2048, KEY_BYTES = 32, VALUE_BYTES = 256 };

/* A slot was never used, has a key, or had one. */
enum state { FREE, USED, GONE };

struct entry {
    enum state state;
    uint16_t key_length, value_length;
    uint8_t key[KEY_BYTES], value[VALUE_BYTES];
};

static struct entry entries[SLOTS];
static size_t key_count;

struct piece {
    const uint8_t *at;
    size_t length;
};

static void copy(uint8_t *to, struct piece piece) {
    for (size_t at = 0; at < piece.length; at++)
        to[at] = piece.at[at];
}

static bool same(struct piece piece, const uint8_t *bytes, size_t length) {
    if (piece.length != length)
        return false;
    for (size_t at = 0; at < length; at++)
        if (piece.at[at] != bytes[at])
            return false;
    return true;
}

/* FNV-1a, of 64 bits. */
static uint64_t hash(struct piece piece) {
    uint64_t value = 0xcbf29ce484222325;
    for (size_t at = 0; at < piece.length; at++)
        value = (value ^ piece.at[at]) * 0x100000001b3;
    return value;
}

/* The key's entry; else the first that may take it, or none where no slot may. */
static struct entry *find(struct piece key) {
    struct entry *room = NULL;
    size_t first = hash(key) % SLOTS;
    for (size_t count = 0; count < SLOTS; count++) {
        struct entry *entry = &entries[(first + count) % SLOTS];
        if (entry->state == USED && same(key, entry->key, entry->key_length))
            return entry;
        if (entry->state != USED && room == NULL)
            room = entry;
        if (entry->state == FREE)
            break;
    }
    return room;
}

static size_t say(uint8_t *reply, const char *word) {
    size_t length = 0;
    for (; word[length] != 0; length++)
        reply[length] = (uint8_t)word[length];
    return length;
}

static size_t set(struct piece key, struct piece value, uint8_t *reply) {
    struct entry *entry = find(key);
    if (entry->state != USED) {
        if (key_count == MOST_KEYS)
            return say(reply, "!full");
        key_count++;
        entry->state = USED;
        entry->key_length = (uint16_t)key.length;
        copy(entry->key, key);
    }
    entry->value_length = (uint16_t)value.length;
    copy(entry->value, value);
    return say(reply, "ok");
}

static size_t get(struct piece key, uint8_t *reply) {
    struct entry *entry = find(key);
    if (entry->state != USED)
        return say(reply, "!none");
    copy(reply, (struct piece){entry->value, entry->value_length});
    return entry->value_length;
}

static size_t del(struct piece key, uint8_t *reply) {
    struct entry *entry = find(key);
    if (entry->state != USED)
        return say(reply, "!none");
    entry->state = GONE;
    key_count--;
    return say(reply, "ok");
}

static size_t count(uint8_t *reply) {
    char digits[8];
    size_t at = sizeof digits - 1, rest = key_count;
    digits[at] = 0;
    do
        digits[--at] = (char)('0' + rest % 10);
    while (rest /= 10);
    return say(reply, digits + at);
}

static size_t handle(const uint8_t *packet, size_t length, uint8_t *reply) {
    struct piece bytes = {packet, length};
    if (same(bytes, (const uint8_t *)"count", 5))
        return count(reply);
    if (length < 5 || packet[3] != ' ')
        return say(reply, "!command");
    struct piece word = {packet, 3}, key = {packet + 4, 0};
    while (4 + key.length < length && key.at[key.length] != ' ')
        key.length++;
    size_t end = 4 + key.length;
    if (key.length == 0 || key.length > KEY_BYTES)
        return say(reply, "!command");
    if (end == length && same(word, (const uint8_t *)"get", 3))
        return get(key, reply);
    if (end == length && same(word, (const uint8_t *)"del", 3))
        return del(key, reply);
    if (end < length && length - end - 1 <= VALUE_BYTES && same(word, (const uint8_t *)"set", 3))
        return set(key, (struct piece){packet + end + 1, length - end - 1}, reply);
    return say(reply, "!command");
}

int main(void) {
    seuss_serve_layers(handle);
}
