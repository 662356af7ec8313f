/* Encodings that come from anywhere: none ends the program, or leads past its end; and what GCC
 * writes of instance variables is measured. */
#include "calls.h"
#include <stdio.h>
#include <stdlib.h>
#include <string.h>

enum { DEEP = 100000, TEXTS = 200000, LONGEST = 24 };

struct pair { int n; void *text; };
struct bits { void *a; int b : 3; char c; };
struct outer { char c; struct pair pairs[3]; union { int n; void *text; } u; };

#define IS(type, text) \
    (objc_sizeof_type(text) == sizeof(type) && objc_alignof_type(text) == _Alignof(type) && \
     !*objc_skip_typespec(text))

/* A letter so often, then an end. */
static void nested(const char *begin, const char *end)
{
    size_t length = strlen(begin);
    char *text = malloc(DEEP * length + strlen(end) + 1);
    for (size_t i = 0; i < DEEP; i++) memcpy(text + i * length, begin, length);
    strcpy(text + DEEP * length, end);
    int size = objc_sizeof_type(text), align = objc_alignof_type(text);
    const char *after = objc_skip_typespec(text);
    printf("%s deep: %d\n", begin,
           size >= 0 && align >= 1 && after > text && after <= text + strlen(text));
    free(text);
}

static int layout_ends(const char *text)
{
    struct objc_struct_layout layout;
    unsigned int size, align, members = 0, offset;
    const char *type;
    objc_layout_structure(text, &layout);
    while (members <= LONGEST && objc_layout_structure_next_member(&layout)) members++;
    objc_layout_structure_get_info(&layout, &offset, &align, &type);
    objc_layout_finish_structure(&layout, &size, &align);
    return members <= LONGEST && align >= 1;
}

static uint32_t drawn(void)
{
    static uint64_t state = 88172645463325252;
    state ^= state << 13;
    state ^= state >> 7;
    state ^= state << 17;
    return (uint32_t)(state >> 32);
}

static int drawn_texts(void)
{
    static const char letters[] = "cCsSiIlLqQtfdDBv@#:*%?^jb![](){}=\"rnNoORV|0123456789,+-aAzZ";
    int right = 0;
    for (int i = 0; i < TEXTS; i++) {
        char *text = malloc(LONGEST + 1); /* so that a sanitizer sees a step past its end */
        size_t length = drawn() % LONGEST;
        for (size_t j = 0; j < length; j++) text[j] = letters[drawn() % (sizeof letters - 1)];
        text[length] = 0;
        const char *after = objc_skip_argspec(text);
        int in = after >= text && after <= text + length;
        int sized = objc_sizeof_type(text) >= 0 && objc_aligned_size(text) >= 0 &&
                    objc_promoted_size(text) >= 0;
        right += in && sized && objc_alignof_type(text) >= 1 && layout_ends(text);
        free(text);
    }
    return right;
}

int main(void)
{
    const char *outer =
        "{outer=\"c\"c\"pairs\"[3{pair=\"n\"i\"text\"@\"NSString\"}]\"u\"(?=\"n\"i\"text\"@\"A\")}";
    printf("quoted: %d %d", IS(struct pair, "{?=\"n\"i\"text\"@\"NSString\"}"),
           IS(struct outer, outer));
    printf(" %d\n", IS(struct bits, "{?=\"a\"@\"X\"\"b\"b64i3\"c\"c}"));
    printf("of a block: %d %d\n", IS(void *, "@?"), IS(struct pair, "{?=i@?}"));
    printf("unknown: %d %d\n", objc_sizeof_type("A"), objc_sizeof_type("{s=iA}"));
    printf("nothing: %d %d %d\n", objc_sizeof_type(""), objc_alignof_type(""),
           objc_sizeof_type("{s"));
    printf("no alignment: %d\n", objc_alignof_type("![16,0f]"));
    printf("large: %d", objc_sizeof_type("[99999999999999999999i]") > 0);
    printf(" %d\n", objc_aligned_size("[4294967295[4294967295[4294967295d]]]") > 0);
    printf("no structure: %d\n", layout_ends("i"));
    nested("{", "");
    nested("{a=", "i");
    nested("(", "");
    nested("[1", "i");
    nested("^", "i");
    nested("j", "d");
    nested("!", "i");
    nested("b0", "i3");
    nested("r", "i");
    nested("\"", "i");
    printf("drawn: %d of %d\n", drawn_texts(), TEXTS);
    return 0;
}
