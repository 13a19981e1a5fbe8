/*
 * Fills in a text. The packet has lines `NAME=VALUE`, an empty line, and a text, in which each
 * `{{NAME}}` is replaced by the value. Of several lines with one name the last counts. Names and
 * values are any bytes without a line feed, a name without `=`; a value is taken as it is, and not
 * looked at for names again, so that a value `{{` is the way to have one in the text.
 *
 * The filled text is answered in packets of 32,768 bytes and a last one with the rest. Instead the
 * answer is one packet: `!line N` where line N, from 1 on, has no `=` or the empty line is missing;
 * `!byte N` where the `{{` at the packet's byte N, from 0 on, has no `}}` behind it or names
 * nothing; `!long` where the filled text is above 65,536 bytes.
 *
 * It is compiled with --picolibc, for the functions of string.h.
 */
#include <stdbool.h>
#include <string.h>

#include "seuss.h"

/* Bytes of the packet. */
struct piece {
    const uint8_t *at, *end;
};

struct field {
    struct piece name, value;
};

/* A line of a field is at least `=` and a line feed. */
enum { MOST_FIELDS = SEUSS_PACKET_BYTES / 2 };

static struct field fields[MOST_FIELDS], merged[MOST_FIELDS];
static uint8_t filled[SEUSS_WRITTEN_BYTES];

static size_t length_of(struct piece piece) {
    return (size_t)(piece.end - piece.at);
}

/* Below 0, 0 or above 0, as the left one comes before the right one, is it, or comes behind. */
static int compare(struct piece left, struct piece right) {
    size_t one = length_of(left), other = length_of(right);
    int order = memcmp(left.at, right.at, one < other ? one : other);
    return order != 0 ? order : (one > other) - (one < other);
}

/* Sorts the fields by their names, those of one name as they stood. */
static void sort(size_t count) {
    for (size_t width = 1; width < count; width *= 2) {
        for (size_t first = 0; first < count; first += 2 * width) {
            size_t middle = first + width < count ? first + width : count;
            size_t end = middle + width < count ? middle + width : count;
            for (size_t at = first, left = first, right = middle; at < end; at++) {
                bool is_left = right == end || (left < middle && compare(fields[left].name,
                                                                         fields[right].name) <= 0);
                merged[at] = fields[is_left ? left++ : right++];
            }
        }
        memcpy(fields, merged, count * sizeof *fields);
    }
}

/* The last field of this name, or null. */
static const struct field *find(size_t count, struct piece name) {
    /* Fields below low have names up to this one, those from high on have names above it. */
    size_t low = 0, high = count;
    while (low < high) {
        size_t middle = low + (high - low) / 2;
        if (compare(fields[middle].name, name) <= 0)
            low = middle + 1;
        else
            high = middle;
    }
    return low > 0 && compare(fields[low - 1].name, name) == 0 ? &fields[low - 1] : NULL;
}

/* The place of the two bytes, or null. */
static const uint8_t *find_two(struct piece text, uint8_t byte) {
    while (length_of(text) >= 2) {
        const uint8_t *at = memchr(text.at, byte, length_of(text) - 1);
        if (at == NULL || at[1] == byte)
            return at;
        text.at = at + 1;
    }
    return NULL;
}

/* Answers what is wrong and where. */
static size_t refuse(uint8_t *reply, const char *what, size_t number) {
    char digits[20];
    size_t count = 0, length = strlen(what);
    memcpy(reply, what, length);
    do
        digits[count++] = (char)('0' + number % 10);
    while (number /= 10);
    while (count > 0)
        reply[length++] = (uint8_t)digits[--count];
    return length;
}

static size_t refuse_long(uint8_t *reply) {
    memcpy(reply, "!long", 5);
    return 5;
}

/*
 * Reads the lines of the fields and the empty line behind them off the text, and sets `count` to
 * how many there are. The answer is 0, or the number of the line that is none.
 */
static size_t read_fields(struct piece *text, size_t *count) {
    for (*count = 0;; ++*count) {
        struct piece line = {text->at, memchr(text->at, '\n', length_of(*text))};
        if (line.end == NULL)
            return *count + 1;
        text->at = line.end + 1;
        if (length_of(line) == 0)
            return 0;
        const uint8_t *equals = memchr(line.at, '=', length_of(line));
        if (equals == NULL)
            return *count + 1;
        fields[*count] = (struct field){{line.at, equals}, {equals + 1, line.end}};
    }
}

/* Adds the piece to the filled text, if it isn't too long with it. */
static bool add(size_t *length, struct piece piece) {
    size_t more = length_of(piece);
    if (more > sizeof filled - *length)
        return false;
    memcpy(filled + *length, piece.at, more);
    *length += more;
    return true;
}

/* Writes all but the last packet of the filled text, and makes the last one the reply. */
static size_t answer(size_t length, uint8_t *reply) {
    size_t at = 0;
    for (; length - at > SEUSS_PACKET_BYTES; at += SEUSS_PACKET_BYTES)
        seuss_write(filled + at, SEUSS_PACKET_BYTES);
    memcpy(reply, filled + at, length - at);
    return length - at;
}

static size_t handle(const uint8_t *packet, size_t length, uint8_t *reply) {
    struct piece text = {packet, packet + length};
    size_t count, size = 0;
    size_t line = read_fields(&text, &count);
    if (line > 0)
        return refuse(reply, "!line ", line);
    sort(count);
    for (const uint8_t *open; (open = find_two(text, '{')) != NULL;) {
        struct piece name = {open + 2, find_two((struct piece){open + 2, text.end}, '}')};
        const struct field *field = name.end == NULL ? NULL : find(count, name);
        if (field == NULL)
            return refuse(reply, "!byte ", (size_t)(open - packet));
        if (!add(&size, (struct piece){text.at, open}) || !add(&size, field->value))
            return refuse_long(reply);
        text.at = name.end + 2;
    }
    if (!add(&size, text))
        return refuse_long(reply);
    return answer(size, reply);
}

int main(void) {
    seuss_serve(handle);
}
