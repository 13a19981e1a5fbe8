/*
 * Finds where a path goes. Its first packets are lines `PATTERN TARGET`, up to an empty packet:
 * they belong into the packets of a layer, which then has them parsed. Each packet behind that is
 * a path, as `/users/7/posts`, and the answer is the target with a line `NAME=VALUE` for each
 * parameter, in the order of the pattern, or `!none`.
 *
 * Patterns and paths are parts with a `/` in front of each; a part may be empty. A part `:NAME` of
 * a pattern takes any part, and is looked at where no part that is spelled out leads to a target;
 * `*` at the end of a pattern takes one part or more that are left, and is looked at last. Of two
 * lines with the same pattern, whatever its names, the last counts. A line that is none, and one
 * for which there is no room, end the run with the line's number as code, counted over all packets.
 */
#include <stdbool.h>

#include "seuss.h"

enum { MOST_NODES = 1024, MOST_PARAMETERS = 8, TEXT_BYTES = 65536 };

/* A place in a text. */
struct piece {
    const uint8_t *at;
    size_t length;
};

/* A part of a pattern: below it its children, by the kind of their part. 0 is no node. */
struct node {
    struct piece part;          /* what is spelled out */
    uint16_t literal, next;     /* the first child that is spelled out; the next one beside it */
    uint16_t parameter, rest;   /* the children `:NAME` and `*` */
    bool has_target;
    struct piece target, names; /* the names of the parameters, a `/` in front of each */
};

static struct node nodes[MOST_NODES];
static uint16_t node_count = 1;
static uint8_t text[TEXT_BYTES];
static size_t text_length, line_count;
static bool is_open = true;

static bool same(struct piece left, struct piece right) {
    if (left.length != right.length)
        return false;
    for (size_t at = 0; at < left.length; at++)
        if (left.at[at] != right.at[at])
            return false;
    return true;
}

/* The bytes of the piece up to this one, which are taken off it with the byte, if it is there. */
static struct piece cut(struct piece *from, uint8_t byte) {
    struct piece first = {from->at, 0};
    while (first.length < from->length && first.at[first.length] != byte)
        first.length++;
    size_t taken = first.length < from->length ? first.length + 1 : first.length;
    from->at += taken;
    from->length -= taken;
    return first;
}

static uint16_t new_node(struct piece part) {
    if (node_count == MOST_NODES)
        seuss_halt(line_count);
    nodes[node_count].part = part;
    return node_count++;
}

/* The child that is spelled out so, which is made where there is none. */
static uint16_t literal_child(uint16_t parent, struct piece part) {
    for (uint16_t child = nodes[parent].literal; child != 0; child = nodes[child].next)
        if (same(nodes[child].part, part))
            return child;
    uint16_t child = new_node(part);
    nodes[child].next = nodes[parent].literal;
    nodes[parent].literal = child;
    return child;
}

static uint16_t only_child(uint16_t *child) {
    if (*child == 0)
        *child = new_node((struct piece){0});
    return *child;
}

/* Keeps the bytes. */
static struct piece kept(struct piece piece) {
    if (piece.length > sizeof text - text_length)
        seuss_halt(line_count);
    struct piece copy = {text + text_length, piece.length};
    for (size_t at = 0; at < piece.length; at++)
        text[text_length++] = piece.at[at];
    return copy;
}

static void add_rule(struct piece line) {
    struct piece pattern = cut(&line, ' ');
    if (pattern.length == 0 || pattern.at[0] != '/' || line.length == 0)
        seuss_halt(line_count);
    struct piece all = kept(pattern), parts = {all.at + 1, all.length - 1};
    uint16_t node = 0;
    size_t parameters = 0;
    for (bool more = true; more;) {
        struct piece part = cut(&parts, '/');
        /* behind the last part stands no `/` */
        more = part.at + part.length != all.at + all.length;
        if (part.length == 1 && part.at[0] == '*') {
            if (more)
                seuss_halt(line_count);
            node = only_child(&nodes[node].rest);
        } else if (part.length > 0 && part.at[0] == ':') {
            if (++parameters > MOST_PARAMETERS)
                seuss_halt(line_count);
            node = only_child(&nodes[node].parameter);
        } else {
            node = literal_child(node, part);
        }
    }
    nodes[node].has_target = true;
    nodes[node].target = kept(line);
    nodes[node].names = all;
}

static void add_rules(struct piece lines) {
    while (lines.length > 0) {
        line_count++;
        add_rule(cut(&lines, '\n'));
    }
}

/* What the parameters on the way took. */
static struct piece values[MOST_PARAMETERS];
static size_t value_count;

/*
 * The node with a target to which the parts of the path lead from this one, or 0. `more` says
 * whether there is a part. `rest` takes the parts that `*` did.
 */
static uint16_t find(uint16_t node, struct piece path, bool more) {
    if (!more)
        return nodes[node].has_target ? node : 0;
    struct piece parts = path, part = cut(&parts, '/');
    bool others = part.length < path.length;
    for (uint16_t child = nodes[node].literal; child != 0; child = nodes[child].next) {
        if (!same(nodes[child].part, part))
            continue;
        uint16_t found = find(child, parts, others);
        if (found != 0)
            return found;
    }
    if (nodes[node].parameter != 0) {
        values[value_count++] = part;
        uint16_t found = find(nodes[node].parameter, parts, others);
        if (found != 0)
            return found;
        value_count--;
    }
    return nodes[node].rest;
}

static size_t add(uint8_t *reply, size_t length, struct piece piece) {
    for (size_t at = 0; at < piece.length && length < SEUSS_PACKET_BYTES; at++)
        reply[length++] = piece.at[at];
    return length;
}

static size_t answer(uint8_t *reply, uint16_t node) {
    size_t length = add(reply, 0, nodes[node].target), value = 0;
    struct piece names = nodes[node].names;
    while (value < value_count) {
        struct piece part = cut(&names, '/');
        if (part.length == 0 || part.at[0] != ':')
            continue;
        length = add(reply, length, (struct piece){(const uint8_t *)"\n", 1});
        length = add(reply, length, (struct piece){part.at + 1, part.length - 1});
        length = add(reply, length, (struct piece){(const uint8_t *)"=", 1});
        length = add(reply, length, values[value++]);
    }
    return length;
}

static size_t handle(const uint8_t *packet, size_t length, uint8_t *reply) {
    struct piece bytes = {packet, length};
    if (is_open) {
        is_open = length > 0;
        add_rules(bytes);
        return 0;
    }
    value_count = 0;
    uint16_t found = 0;
    if (length > 0 && packet[0] == '/')
        found = find(0, (struct piece){packet + 1, length - 1}, true);
    if (found == 0)
        return add(reply, 0, (struct piece){(const uint8_t *)"!none", 5});
    return answer(reply, found);
}

int main(void) {
    seuss_serve_layers(handle);
}
