/* Runs trusted/objc/encoding.c over every text of up to N of the letters that it tells apart, under
 * the sanitizers. Each text lies at the end of a block of just its size, so a read beyond it is
 * seen. */
#include <stdio.h>
#include <stdlib.h>
#include <string.h>
#include "encoding.c"
#include "tests/standin_types.h" /* in place of the proved reader */

/* One of each kind: digits are one kind, as simple types and qualifiers are. */
#define LETTERS "{}()[]!bj^@?\"=,1ic_"
static unsigned long long texts;

#define MUST(is_so) \
    do { if (!(is_so)) { printf("%s: not so: %s\n", text, #is_so); exit(1); } } while (0)

static void call_all(const char *text, size_t length)
{
    char *copy = malloc(length + 1); /* the sanitizer's block ends behind it */
    memcpy(copy, text, length + 1);
    const char *end = copy + length, *type;
    struct objc_struct_layout layout;
    unsigned size, align, steps = 0;
    MUST(objc_sizeof_type(copy) >= 0 && objc_alignof_type(copy) >= 1);
    MUST(objc_aligned_size(copy) >= 0 && objc_promoted_size(copy) >= 0);
    objc_get_type_qualifiers(copy);
    const char *ends[] = {objc_skip_type_qualifiers(copy), objc_skip_typespec(copy),
                          objc_skip_offset(copy), objc_skip_argspec(copy)};
    for (int i = 0; i < 4; i++) MUST(ends[i] >= copy && ends[i] <= end);
    MUST(!length || ends[1] > copy); /* it goes on */
    objc_layout_structure(copy, &layout);
    while (objc_layout_structure_next_member(&layout)) {
        objc_layout_structure_get_info(&layout, &size, &align, &type);
        MUST(type >= copy && type <= end && align >= 1 && ++steps <= length);
    }
    objc_layout_finish_structure(&layout, &size, &align);
    free(copy);
    texts++;
}

static void every(char *text, size_t at, size_t most)
{
    text[at] = 0;
    call_all(text, at);
    for (const char *letter = LETTERS; at < most && *letter; letter++) {
        text[at] = *letter;
        every(text, at + 1, most);
    }
}

int main(int argc, char **argv)
{
    char text[64];
    every(text, 0, argc > 1 ? (size_t)atoi(argv[1]) : 4);
    printf("ALL RIGHT: %llu texts\n", texts);
    return 0;
}
