/* Sizes and alignments by encoding are the compiler's; what is skipped; a structure member by
 * member. */
#include "roots.h"
#include <stdio.h>

struct inner { char c; short s; };
struct outer {
    char c;
    struct inner inner[3];
    double d;
    union {
        int i;
        char text[7];
    } u;
    unsigned bits : 3;
    int more : 20;
    long double l;
    _Complex float z;
    void *p;
};

#define SAME(type) \
    (objc_sizeof_type(@encode(type)) == sizeof(type) && \
     objc_alignof_type(@encode(type)) == _Alignof(type))

int main(void)
{
    printf("simple: %d%d%d%d%d%d%d\n", SAME(char), SAME(short), SAME(long), SAME(float),
           SAME(long double), SAME(char *), SAME(_Bool));
    printf("compound: %d%d%d%d\n", SAME(struct inner), SAME(struct outer), SAME(int[5]),
           SAME(_Complex double));
    printf("rounded up: %d %d\n", objc_aligned_size("{p=ic}"), objc_promoted_size("s"));
    printf("qualifiers: %u, then %s\n", objc_get_type_qualifiers("rnO@16"),
           objc_skip_type_qualifiers("rnO@16"));
    for (const char *letter = "rnNoORV@"; *letter; letter++)
        printf("%u ", objc_get_type_qualifiers((char[]){*letter, 'i', 0}));
    printf("%u\n", objc_get_type_qualifiers("noVi"));
    printf("skipped: %s %s %s\n", objc_skip_typespec("^{a=i[3(b=fc)]}8@0"),
           objc_skip_argspec("{a=i}8@0:4"), objc_skip_offset("-12i"));
    printf("%s %s %s\n", objc_skip_offset("+12i"), objc_skip_offset("12i"), objc_skip_offset("i"));
    const char *named = "\"x\"i\"y\"d}", *second = objc_skip_typespec(named);
    printf("named: %d by %d, then %s, %d by %d, then %s\n", objc_sizeof_type(named),
           objc_alignof_type(named), second, objc_sizeof_type(second), objc_alignof_type(second),
           objc_skip_typespec(second));
    printf("void: %d, promoted %d\n", objc_sizeof_type("v"), objc_promoted_size("v"));
    struct objc_struct_layout layout;
    unsigned int offset, align, size;
    const char *type;
    objc_layout_structure("{n=csd^ib192i3}", &layout);
    while (objc_layout_structure_next_member(&layout)) {
        objc_layout_structure_get_info(&layout, &offset, &align, &type);
        printf("%c at %u by %u\n", *type, offset, align);
    }
    objc_layout_finish_structure(&layout, &size, &align);
    printf("size %u by %u\n", size, align);
    objc_layout_structure("(n=cd^i)", &layout);
    while (objc_layout_structure_next_member(&layout)) {
        objc_layout_structure_get_info(&layout, &offset, NULL, NULL);
        objc_layout_structure_get_info(&layout, NULL, &align, &type);
        printf("%c at %u by %u\n", *type, offset, align);
    }
    size = align = 0;
    objc_layout_finish_structure(&layout, &size, NULL);
    objc_layout_finish_structure(&layout, NULL, &align);
    printf("size %u by %u\n", size, align);
    return 0;
}
