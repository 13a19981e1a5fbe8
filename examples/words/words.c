/*
 * Runs programs of a small language, in words with spaces between them. The first packet is the
 * program: it belongs into the packets of a layer, so that layers with programs of their own stand
 * on one with this interpreter, which has no packet and has learned the words of its own by then.
 * Each packet behind that is numbers, on which the word `main` runs; the answer is the numbers that
 * are left, with a space between two.
 *
 * Numbers are of 64 bits with a sign, and go round. Words: `+` `-` `*` `/` `%`, of which the last
 * two cut towards zero; `<` and `=`, with 1 or 0; `dup` `drop` `swap` `over`; `if A else B then`,
 * which takes a number and does A where it isn't 0, and else B, which may be left out; and
 * `: NAME .. ;`, which says what a name means, also within itself. `abs`, `min`, `max` and `gcd`
 * are said so already. A later meaning counts from there on.
 *
 * An answer is `!stack` where a number is missing or above 256 are there, `!zero` where a divisor
 * is 0, `!depth` where above 256 names are within another, `!steps` after 20,000 words, those within names too, `!number`
 * where a packet isn't numbers. A program that is wrong ends the run with code 1, or 2 where there
 * is no room for it.
 */
#include <stdbool.h>

#include "seuss.h"

enum {
    MOST_CELLS = 4096,
    MOST_NAMES = 256,
    MOST_NUMBERS = 256,
    MOST_DEPTH = 256,
    MOST_STEPS = 20000,
    TEXT_BYTES = 16384
};

enum operation {
    PUSH, ADD, SUBTRACT, MULTIPLY, DIVIDE, REMAINDER, LESS, EQUAL, DUP, DROP, SWAP, OVER,
    SKIP,        /* to the cell of the operand */
    SKIP_ZERO,   /* likewise, where the number that is taken is 0 */
    CALL, RETURN
};

struct cell {
    enum operation operation;
    int64_t operand;
};

struct piece {
    const uint8_t *at;
    size_t length;
};

struct name {
    struct piece word;
    size_t cell;
};

static const char *const plain[] = {"+", "-", "*", "/", "%", "<", "=", "dup", "drop", "swap",
                                    "over"};

static const char own[] = ": abs dup 0 < if 0 swap - then ; "
                          ": min over over < if drop else swap drop then ; "
                          ": max over over < if swap drop else drop then ; "
                          ": gcd dup if swap over % gcd else drop abs then ; ";

static struct cell cells[MOST_CELLS];
static struct name names[MOST_NAMES];
static uint8_t text[TEXT_BYTES];
static size_t cell_count, name_count, text_length;
static bool has_program;

static int64_t numbers[MOST_NUMBERS];
static size_t number_count, calls[MOST_DEPTH];

static bool is_word(struct piece word, const char *name) {
    size_t at = 0;
    while (at < word.length && name[at] != 0 && word.at[at] == (uint8_t)name[at])
        at++;
    return at == word.length && name[at] == 0;
}

static bool same(struct piece left, struct piece right) {
    if (left.length != right.length)
        return false;
    for (size_t at = 0; at < left.length; at++)
        if (left.at[at] != right.at[at])
            return false;
    return true;
}

/* The next word of the text, which is taken off it; empty at the end. */
static struct piece next(struct piece *from) {
    while (from->length > 0 && (*from->at == ' ' || *from->at == '\n'))
        from->at++, from->length--;
    struct piece word = {from->at, 0};
    while (from->length > 0 && *from->at != ' ' && *from->at != '\n')
        from->at++, from->length--, word.length++;
    return word;
}

/* Digits, with an optional `-` before them. */
static bool read_number(struct piece word, int64_t *number) {
    bool is_negative = word.length > 1 && word.at[0] == '-';
    uint64_t value = 0;
    if (word.length == 0)
        return false;
    for (size_t at = is_negative; at < word.length; at++) {
        if (word.at[at] < '0' || word.at[at] > '9')
            return false;
        value = value * 10 + (word.at[at] - '0');
    }
    *number = (int64_t)(is_negative ? -value : value);
    return true;
}

static _Noreturn void refuse(void) {
    seuss_halt(1);
}

static size_t emit(enum operation operation, int64_t operand) {
    if (cell_count == MOST_CELLS)
        seuss_halt(2);
    cells[cell_count] = (struct cell){operation, operand};
    return cell_count++;
}

static const struct name *find(struct piece word) {
    for (size_t at = name_count; at > 0; at--)
        if (same(names[at - 1].word, word))
            return &names[at - 1];
    return NULL;
}

static void compile_word(struct piece word) {
    int64_t number;
    if (read_number(word, &number)) {
        emit(PUSH, number);
        return;
    }
    for (size_t at = 0; at < sizeof plain / sizeof *plain; at++) {
        if (is_word(word, plain[at])) {
            emit(ADD + at, 0);
            return;
        }
    }
    const struct name *name = find(word);
    if (name == NULL)
        refuse();
    emit(CALL, (int64_t)name->cell);
}

/* Compiles the words up to one that ends a part, and answers that. */
static struct piece compile_part(struct piece *from) {
    for (;;) {
        struct piece word = next(from);
        if (word.length == 0 || is_word(word, ";") || is_word(word, "else") ||
            is_word(word, "then"))
            return word;
        if (is_word(word, ":"))
            refuse();
        if (!is_word(word, "if")) {
            compile_word(word);
            continue;
        }
        size_t skip = emit(SKIP_ZERO, 0);
        struct piece end = compile_part(from);
        if (is_word(end, "else")) {
            size_t over = emit(SKIP, 0);
            cells[skip].operand = (int64_t)cell_count;
            skip = over;
            end = compile_part(from);
        }
        if (!is_word(end, "then"))
            refuse();
        cells[skip].operand = (int64_t)cell_count;
    }
}

static void compile(struct piece program) {
    if (program.length > sizeof text - text_length)
        seuss_halt(2);
    struct piece from = {text + text_length, program.length};
    for (size_t at = 0; at < program.length; at++)
        text[text_length++] = program.at[at];
    for (;;) {
        struct piece word = next(&from);
        if (word.length == 0)
            return;
        struct piece name = next(&from);
        if (!is_word(word, ":") || name.length == 0)
            refuse();
        if (name_count == MOST_NAMES)
            seuss_halt(2);
        names[name_count++] = (struct name){name, cell_count};
        if (!is_word(compile_part(&from), ";"))
            refuse();
        emit(RETURN, 0);
    }
}

/* What an operation on two numbers makes of them. The divisor isn't 0. */
static int64_t two(enum operation operation, int64_t left, int64_t right) {
    uint64_t a = (uint64_t)left, b = (uint64_t)right;
    switch (operation) {
    case ADD: return (int64_t)(a + b);
    case SUBTRACT: return (int64_t)(a - b);
    case MULTIPLY: return (int64_t)(a * b);
    case DIVIDE: return right == -1 ? (int64_t)-a : left / right;
    case REMAINDER: return right == -1 ? 0 : left % right;
    case LESS: return left < right;
    default: return left == right;
    }
}

static bool push(int64_t number) {
    if (number_count == MOST_NUMBERS)
        return false;
    numbers[number_count++] = number;
    return true;
}

/* Does one operation that stays with the numbers. The answer is what is wrong, or null. */
static const char *compute(struct cell cell) {
    size_t takes = cell.operation == PUSH ? 0
                   : cell.operation == DUP || cell.operation == DROP ? 1
                                                                     : 2;
    if (number_count < takes)
        return "!stack";
    int64_t *top = numbers + number_count;
    switch (cell.operation) {
    case PUSH: return push(cell.operand) ? NULL : "!stack";
    case DUP: return push(top[-1]) ? NULL : "!stack";
    case OVER: return push(top[-2]) ? NULL : "!stack";
    case DROP: number_count--; return NULL;
    case SWAP: {
        int64_t number = top[-1];
        top[-1] = top[-2];
        top[-2] = number;
        return NULL;
    }
    case DIVIDE:
    case REMAINDER:
        if (top[-1] == 0)
            return "!zero";
        break;
    default: break;
    }
    top[-2] = two(cell.operation, top[-2], top[-1]);
    number_count--;
    return NULL;
}

/* Runs the cells from this one to its return. The answer is what is wrong, or null. */
static const char *run(size_t at) {
    size_t depth = 0;
    for (size_t steps = 0; steps < MOST_STEPS; steps++) {
        struct cell cell = cells[at++];
        switch (cell.operation) {
        case RETURN:
            if (depth == 0)
                return NULL;
            at = calls[--depth];
            break;
        case CALL:
            if (depth == MOST_DEPTH)
                return "!depth";
            calls[depth++] = at;
            at = (size_t)cell.operand;
            break;
        case SKIP: at = (size_t)cell.operand; break;
        case SKIP_ZERO:
            if (number_count == 0)
                return "!stack";
            if (numbers[--number_count] == 0)
                at = (size_t)cell.operand;
            break;
        default: {
            const char *wrong = compute(cell);
            if (wrong != NULL)
                return wrong;
        }
        }
    }
    return "!steps";
}

static size_t say(uint8_t *reply, const char *word) {
    size_t length = 0;
    for (; word[length] != 0; length++)
        reply[length] = (uint8_t)word[length];
    return length;
}

static size_t add_number(uint8_t *reply, size_t length, int64_t number) {
    uint8_t digits[20];
    size_t count = 0;
    uint64_t rest = number < 0 ? -(uint64_t)number : (uint64_t)number;
    do
        digits[count++] = (uint8_t)('0' + rest % 10);
    while (rest /= 10);
    if (number < 0)
        reply[length++] = '-';
    while (count > 0)
        reply[length++] = digits[--count];
    return length;
}

static size_t answer(struct piece packet, uint8_t *reply) {
    static const struct piece word = {(const uint8_t *)"main", 4};
    number_count = 0;
    for (;;) {
        struct piece part = next(&packet);
        int64_t number;
        if (part.length == 0)
            break;
        if (!read_number(part, &number))
            return say(reply, "!number");
        if (!push(number))
            return say(reply, "!stack");
    }
    const char *wrong = run(find(word)->cell);
    if (wrong != NULL)
        return say(reply, wrong);
    size_t length = 0;
    for (size_t at = 0; at < number_count; at++) {
        if (at > 0)
            reply[length++] = ' ';
        length = add_number(reply, length, numbers[at]);
    }
    return length;
}

static size_t handle(const uint8_t *packet, size_t length, uint8_t *reply) {
    struct piece bytes = {packet, length};
    if (has_program)
        return answer(bytes, reply);
    compile(bytes);
    if (find((struct piece){(const uint8_t *)"main", 4}) == NULL)
        refuse();
    has_program = true;
    return 0;
}

int main(void) {
    compile((struct piece){(const uint8_t *)own, sizeof own - 1});
    seuss_serve_layers(handle);
}
