/*
 * Answers a field of a JSON object. The packet is the field's name, a line feed, and the object
 * (RFC 8259, in UTF-8); the answer is the field's value as it is written there, which is JSON too.
 *
 * The name is looked for in UTF-8, and escapes in the object's names count as what they stand for.
 * Of several fields of the name the last counts. The answer is empty where there is none. All of
 * the packet is looked at: where it isn't a name, a line feed and one object, the answer is
 * `!byte N` with the number, from 0 on, of the byte that doesn't fit, or of the character that
 * isn't UTF-8; it is the packet's length where more should follow.
 */
#include <stdbool.h>

#include "seuss.h"

/* What is still to be read of the packet. A call that answers false stays where it stopped. */
struct text {
    const uint8_t *at, *end;
};

/* A name or a value, as it stands in the packet. */
struct piece {
    const uint8_t *at, *end;
};

static bool is_next(const struct text *text, uint8_t byte) {
    return text->at < text->end && *text->at == byte;
}

static bool is_digit_next(const struct text *text) {
    return text->at < text->end && *text->at >= '0' && *text->at <= '9';
}

static bool take(struct text *text, uint8_t byte) {
    bool taken = is_next(text, byte);
    text->at += taken;
    return taken;
}

static bool take_word(struct text *text, const char *word) {
    for (; *word; word++)
        if (!take(text, (uint8_t)*word))
            return false;
    return true;
}

static void skip_space(struct text *text) {
    while (take(text, ' ') || take(text, '\t') || take(text, '\n') || take(text, '\r'))
        ;
}

static bool take_digits(struct text *text) {
    if (!is_digit_next(text))
        return false;
    while (is_digit_next(text))
        text->at++;
    return true;
}

static bool take_number(struct text *text) {
    take(text, '-');
    if (!take(text, '0') && !take_digits(text))
        return false;
    if (take(text, '.') && !take_digits(text))
        return false;
    if (take(text, 'e') || take(text, 'E')) {
        if (!take(text, '+'))
            take(text, '-');
        return take_digits(text);
    }
    return true;
}

/* The value of a hexadecimal digit, or -1. */
static int digit_value(uint8_t byte) {
    if (byte >= '0' && byte <= '9')
        return byte - '0';
    byte |= 0x20;
    return byte >= 'a' && byte <= 'f' ? byte - 'a' + 10 : -1;
}

/* Takes the four digits of \uXXXX. */
static bool take_unit(struct text *text, uint32_t *unit) {
    *unit = 0;
    for (int count = 0; count < 4; count++, text->at++) {
        int digit = text->at < text->end ? digit_value(*text->at) : -1;
        if (digit < 0)
            return false;
        *unit = *unit << 4 | (uint32_t)digit;
    }
    return true;
}

static bool is_between(uint32_t value, uint32_t least, uint32_t most) {
    return value >= least && value <= most;
}

/* Takes what follows a backslash, and says which character it stands for. */
static bool take_escape(struct text *text, uint32_t *character) {
    static const char letters[] = "\"\\/bfnrt", meanings[] = "\"\\/\b\f\n\r\t";
    for (int at = 0; letters[at]; at++)
        if (take(text, (uint8_t)letters[at])) {
            *character = (uint8_t)meanings[at];
            return true;
        }
    if (!take(text, 'u') || !take_unit(text, character))
        return false;
    if (!is_between(*character, 0xd800, 0xdbff))
        return true;
    /* A high surrogate and a low one are one character; alone, each is allowed and no character. */
    struct text ahead = *text;
    uint32_t low;
    if (take_word(&ahead, "\\u") && take_unit(&ahead, &low) && is_between(low, 0xdc00, 0xdfff)) {
        *character = 0x10000 + ((*character - 0xd800) << 10) + (low - 0xdc00);
        *text = ahead;
    }
    return true;
}

/* Takes a character in UTF-8 (RFC 3629), which isn't a control character. */
static bool take_plain(struct text *text, uint32_t *character) {
    static const uint32_t least[] = {0x20, 0x80, 0x800, 0x10000};
    if (text->at == text->end)
        return false;
    uint8_t lead = *text->at;
    int more = lead < 0x80 ? 0 : lead < 0xe0 ? 1 : lead < 0xf0 ? 2 : 3;
    if (is_between(lead, 0x80, 0xc1) || lead > 0xf4 || text->end - text->at <= more)
        return false;
    uint32_t value = more == 0 ? lead : lead & (0x3fu >> more);
    for (int at = 1; at <= more; at++) {
        if ((text->at[at] & 0xc0) != 0x80)
            return false;
        value = value << 6 | (text->at[at] & 0x3fu);
    }
    if (value < least[more] || value > 0x10ffff || is_between(value, 0xd800, 0xdfff))
        return false;
    text->at += more + 1;
    *character = value;
    return true;
}

/* Takes a character of a string, which isn't its last quotation mark. */
static bool take_character(struct text *text, uint32_t *character) {
    return take(text, '\\') ? take_escape(text, character) : take_plain(text, character);
}

/* Takes a string, and sets `inside` to what is between its quotation marks. */
static bool take_string(struct text *text, struct piece *inside) {
    uint32_t character;
    if (!take(text, '"'))
        return false;
    inside->at = text->at;
    while (!is_next(text, '"'))
        if (!take_character(text, &character))
            return false;
    inside->end = text->at++;
    return true;
}

/* Takes a field's name with the colon and the space around it. */
static bool take_name(struct text *text, struct piece *name) {
    skip_space(text);
    if (!take_string(text, name))
        return false;
    skip_space(text);
    if (!take(text, ':'))
        return false;
    skip_space(text);
    return true;
}

static bool take_scalar(struct text *text) {
    struct piece inside;
    if (is_next(text, '"'))
        return take_string(text, &inside);
    if (is_next(text, 't'))
        return take_word(text, "true");
    if (is_next(text, 'f'))
        return take_word(text, "false");
    if (is_next(text, 'n'))
        return take_word(text, "null");
    return take_number(text);
}

/* What closes each object and array that is open. A call for each would need too much stack. */
static uint8_t closings[SEUSS_PACKET_BYTES];

/* Takes the closings behind a value, up to the place where the next value begins, or to the end. */
static bool take_closings(struct text *text, size_t *depth) {
    struct piece name;
    for (; *depth > 0; --*depth) {
        skip_space(text);
        if (take(text, ',')) {
            skip_space(text);
            return closings[*depth - 1] == ']' || take_name(text, &name);
        }
        if (!take(text, closings[*depth - 1]))
            return false;
    }
    return true;
}

/* Takes a value that begins here. */
static bool take_value(struct text *text) {
    struct piece name;
    size_t depth = 0;
    do {
        uint8_t closing = take(text, '{') ? '}' : take(text, '[') ? ']' : 0;
        if (closing)
            skip_space(text);
        if (closing && !take(text, closing)) {
            closings[depth++] = closing;
            if (closing == '}' && !take_name(text, &name))
                return false;
            continue;
        }
        if (!closing && !take_scalar(text))
            return false;
        if (!take_closings(text, &depth))
            return false;
    } while (depth > 0);
    return true;
}

/* Whether the name, as it is written in a string that was taken, stands for `wanted`. */
static bool is_name(struct piece name, struct piece wanted) {
    struct text left = {name.at, name.end}, right = {wanted.at, wanted.end};
    while (left.at < left.end && right.at < right.end) {
        uint32_t character, other = *right.at;
        if (!take_character(&left, &character))
            return false;
        if (other < 0x20)
            right.at++; /* a control character, which only an escape stands for */
        else if (!take_plain(&right, &other))
            return false;
        if (character != other)
            return false;
    }
    return left.at == left.end && right.at == right.end;
}

/* Takes the object that the text is, and sets `value` to the field's where it is there. */
static bool take_object(struct text *text, struct piece wanted, struct piece *value) {
    skip_space(text);
    if (!take(text, '{'))
        return false;
    skip_space(text);
    if (!take(text, '}')) {
        do {
            struct piece name;
            if (!take_name(text, &name))
                return false;
            struct piece found = {text->at, text->at};
            if (!take_value(text))
                return false;
            found.end = text->at;
            if (is_name(name, wanted))
                *value = found;
            skip_space(text);
        } while (take(text, ','));
        if (!take(text, '}'))
            return false;
    }
    skip_space(text);
    return text->at == text->end;
}

static size_t refuse(uint8_t *reply, size_t at) {
    uint8_t digits[20];
    size_t count = 0, length = 0;
    for (const char *word = "!byte "; *word; word++)
        reply[length++] = (uint8_t)*word;
    do {
        digits[count++] = (uint8_t)('0' + at % 10);
        at /= 10;
    } while (at > 0);
    while (count > 0)
        reply[length++] = digits[--count];
    return length;
}

static size_t handle(const uint8_t *packet, size_t length, uint8_t *reply) {
    struct text text = {packet, packet + length};
    struct piece wanted = {packet, packet}, value = {packet, packet};
    while (text.at < text.end && *text.at != '\n')
        text.at++;
    wanted.end = text.at;
    if (!take(&text, '\n') || !take_object(&text, wanted, &value))
        return refuse(reply, (size_t)(text.at - packet));
    size_t count = (size_t)(value.end - value.at);
    for (size_t at = 0; at < count; at++)
        reply[at] = value.at[at];
    return count;
}

int main(void) {
    seuss_serve(handle);
}
