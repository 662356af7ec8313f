/* Of the stand-in: types by their encodings, in plain C. A text is from `at` to `end`, and `at`
 * moves on. */
#include <string.h>

enum { DEEPEST = 200, LARGEST = 1 << 28, A_BYTE = 8, ENDED = -1 };

struct reader { const uint8_t *at, *end; };

/* Of a bit-field also its bits, from `first` to before `last`, which is 0 elsewhere. */
struct shape { uint64_t size, align; bool is_bits; uint64_t first, last; };

static struct shape read_type(struct reader *text, int left);

static uint64_t at_most(uint64_t size) { return size < LARGEST ? size : LARGEST; }
static int front(const struct reader *text) { return text->at < text->end ? *text->at : ENDED; }
static bool is_of(const char *letters, int letter) { return letter > 0 && strchr(letters, letter); }
static void skip(struct reader *text, int letter) { text->at += front(text) == letter; }
static void skip_all(struct reader *text, const char *these)
{
    while (is_of(these, front(text))) text->at++;
}
static void skip_to(struct reader *text, int one, int other)
{
    while (front(text) != ENDED && front(text) != one && front(text) != other) text->at++;
}
static void skip_name(struct reader *text)
{
    if (front(text) != '"') return;
    text->at++;
    skip_to(text, '"', '"');
    skip(text, '"');
}
static uint64_t number(struct reader *text)
{
    uint64_t number = 0;
    while (is_of("0123456789", front(text))) number = at_most(10 * number + *text->at++ - '0');
    return number;
}

static struct shape plain(uint64_t size)
{
    return (struct shape){.size = size, .align = size ? size : 1};
}
static struct shape rows(struct shape row, uint64_t count)
{
    return (struct shape){.size = at_most(row.size * count), .align = row.align};
}
static uint64_t rounded(uint64_t bits, uint64_t align)
{
    uint64_t bytes = at_most(bits / A_BYTE + (bits % A_BYTE != 0));
    return (bytes + align - 1) / align * align;
}
static void lie_at(const struct shape *it, uint64_t before, uint64_t *first, uint64_t *last)
{
    *first = it->is_bits ? it->first : A_BYTE * rounded(before, it->align);
    *last = it->is_bits ? it->last : *first + A_BYTE * it->size;
}

static struct shape members(struct reader *text, int close, int left)
{
    uint64_t end = 0, align = 1, first, last;
    skip_to(text, '=', close);
    skip(text, '=');
    for (skip_name(text); front(text) != ENDED && front(text) != close; skip_name(text)) {
        struct shape it = read_type(text, left);
        lie_at(&it, close == ')' ? 0 : end, &first, &last);
        if (last > end) end = last;
        if (it.align > align) align = it.align;
    }
    skip(text, close);
    return (struct shape){.size = at_most(rounded(end, align)), .align = align};
}

static struct shape vector(struct reader *text, int left)
{
    skip(text, '[');
    uint64_t size = number(text);
    skip(text, ',');
    uint64_t align = number(text);
    read_type(text, left);
    skip(text, ']');
    return (struct shape){.size = size, .align = align ? align : 1};
}

static struct shape bit_field(struct reader *text, int left)
{
    uint64_t first = number(text);
    struct shape it = read_type(text, left);
    return (struct shape){it.size, it.align, true, first, first + number(text)};
}

static struct shape array(struct reader *text, int left)
{
    uint64_t count = number(text);
    struct shape row = read_type(text, left);
    skip(text, ']');
    return rows(row, count);
}

static struct shape pointer(struct reader *text, int left)
{
    skip_all(text, "^rnNoORV|");
    read_type(text, left);
    return plain(8);
}

static struct shape object(struct reader *text)
{
    skip(text, '?');
    skip_name(text);
    return plain(8);
}

static uint64_t size_of(int letter)
{
    static const struct { const char *letters; uint64_t size; } sizes[] = {
        {"cCB", 1}, {"sS", 2}, {"iIf", 4}, {"lLqQd@#:*%^?", 8}, {"tTD", 16}};
    for (size_t i = 0; i < sizeof sizes / sizeof *sizes; i++)
        if (is_of(sizes[i].letters, letter)) return sizes[i].size;
    return 0;
}

static struct shape read_type(struct reader *text, int left)
{
    if (left) skip_all(text, "rnNoORV|");
    else text->at = text->end;
    int letter = front(text);
    text->at += letter != ENDED;
    switch (letter) {
    case '{': return members(text, '}', left - 1);
    case '(': return members(text, ')', left - 1);
    case '[': return array(text, left - 1);
    case '!': return vector(text, left - 1);
    case 'j': return rows(read_type(text, left - 1), 2);
    case 'b': return bit_field(text, left - 1);
    case '^': return pointer(text, left - 1);
    case '@': return object(text);
    default: return plain(size_of(letter));
    }
}

size_t msg_type_first(const uint8_t *text, size_t length, uint64_t *size, uint64_t *align)
{
    struct reader rest = {text, text + length};
    struct shape it = read_type(&rest, DEEPEST);
    *size = it.size;
    *align = it.align;
    return (size_t)(rest.at - text);
}

uint32_t msg_type_member(const uint8_t *text, size_t length, uint64_t before, size_t *begin,
                         size_t *end, uint64_t *first, uint64_t *last, uint64_t *align)
{
    struct reader rest = {text, text + length};
    skip_name(&rest);
    if (front(&rest) == ENDED || front(&rest) == '}' || front(&rest) == ')') return MSG_NONE;
    *begin = (size_t)(rest.at - text);
    struct shape it = read_type(&rest, DEEPEST);
    lie_at(&it, before, first, last);
    *align = it.align;
    *end = (size_t)(rest.at - text);
    return MSG_DONE;
}
