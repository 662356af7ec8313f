/* All of objc/ over the stand-in: three objects with modules are loaded, closed and loaded again,
 * in every order of so many steps, each in a process of its own, under sanitizers. The loader is a
 * model: an object that isn't kept goes with its memory when it is closed, and comes anew. After
 * each step each class is there that can be, with the methods that it has by then; +load was sent
 * once, a superclass's first. */
#include "shim.h"
#include <link.h>
#include <stdio.h>
#include <sys/wait.h>
#include <unistd.h>

id class_createInstance(Class class_, size_t extra);
SEL sel_registerName(const char *name);
Class objc_lookUpClass(const char *name);
BOOL class_respondsToSelector(Class class_, SEL sel);
void __objc_exec_class(struct module *module);

/* ---- the loader ---- */

enum { OBJECTS = 3, IMAGES = 2, TEXTS = 16, LONGEST = 16 };

/* One module, all of which lies in its object: with a class, a category or both. */
struct methods { struct method_list *next; int32_t count; struct objc_method rows[1]; };
struct image {
    struct module module;
    struct { struct symbols head; void *defs[3]; } symbols;
    struct objc_class class_, meta;
    struct methods own, loads, more, more_loads;
    struct objc_category category;
};
struct object { struct image images[IMAGES]; char texts[TEXTS][LONGEST]; int text_count; };

static struct object *there[OBJECTS];
static bool is_open[OBJECTS], is_kept[OBJECTS];
static struct link_map maps[OBJECTS] = {{.l_name = "0"}, {.l_name = "1"}, {.l_name = "2"}};

int cv_find_object(void *address, struct dl_find_object *found)
{
    for (int i = 0; i < OBJECTS; i++)
        if (there[i] && address >= (void *)there[i] && address < (void *)(there[i] + 1))
            return found->dlfo_link_map = &maps[i], 0;
    return -1;
}
void *cv_dlopen(const char *name, int how)
{
    if (how & RTLD_NODELETE) is_kept[*name - '0'] = true;
    return maps;
}
int cv_dlclose(void *handle) { return 0; }

/* ---- what a compiler would emit ---- */

static int loaded[4], sent; /* when each +load was sent: of A, of its category, of B, of C */
static void note(int at) { loaded[at] = loaded[at] ? -1 : ++sent; }
static id load_a(id self, SEL sel) { note(0); return self; }
static id load_more(id self, SEL sel) { note(1); return self; }
static id load_b(id self, SEL sel) { note(2); return self; }
static id load_c(id self, SEL sel) { note(3); return self; }
static int value_a(id self, SEL sel) { return 1; }
static int value_more(id self, SEL sel) { return 2; }
static int value_b(id self, SEL sel) { return 3; }
static int extra(id self, SEL sel) { return 4; }
#define IMP_OF(function) ((IMP)(void (*)(void))(function))

static char *text(struct object *of, const char *said)
{
    return strcpy(of->texts[of->text_count++], said);
}

static struct method_list *list(struct object *of, struct methods *into, const char *name, IMP imp)
{
    if (!imp) return NULL;
    *into =
        (struct methods){NULL, 1, {{.name.text = text(of, name), .types = "i16@0:8", .imp = imp}}};
    return (struct method_list *)into;
}

static void emit_class(struct object *of, struct image *image, const char *name, const char *above,
                       IMP value, IMP load)
{
    const char *said = text(of, name);
    image->meta = (struct objc_class){.isa = (Class)said, .name = said, .info = CLASS_META,
        .instance_size = sizeof image->meta, .methods = list(of, &image->loads, "load", load)};
    image->class_ = (struct objc_class){.isa = &image->meta, .name = said, .info = CLASS_PLAIN,
        .instance_size = sizeof(id), .methods = list(of, &image->own, "value", value)};
    if (above) image->class_.superclass.text = text(of, above);
    image->symbols.defs[image->symbols.head.class_count++] = &image->class_;
}

static void emit_category(struct object *of, struct image *image, const char *class_,
                          const char *name, IMP imp, IMP load)
{
    struct symbols *head = &image->symbols.head;
    image->category = (struct objc_category){"More", text(of, class_),
        list(of, &image->more, name, imp), list(of, &image->more_loads, "load", load), NULL};
    image->symbols.defs[head->class_count + head->category_count++] = &image->category;
}

/* A, and a category of it; B below A; a category of B, and C below it. */
static void emit(int i)
{
    struct object *of = there[i];
    struct image *image = of->images;
    if (i == 0) emit_class(of, image, "A", NULL, IMP_OF(value_a), IMP_OF(load_a));
    if (i == 0) emit_category(of, &image[1], "A", "value", IMP_OF(value_more), IMP_OF(load_more));
    if (i == 1) emit_class(of, image, "B", "A", IMP_OF(value_b), IMP_OF(load_b));
    if (i == 2) emit_class(of, image, "C", "B", NULL, IMP_OF(load_c));
    if (i == 2) emit_category(of, image, "B", "extra", IMP_OF(extra), NULL);
    for (int j = 0; j < IMAGES; j++)
        image[j].module = (struct module){8, sizeof(struct module), text(of, "m"),
                                          (struct symbols *)&image[j].symbols};
}

static void load(int i)
{
    is_open[i] = true;
    if (there[i]) return;
    there[i] = calloc(1, sizeof *there[i]);
    emit(i);
    for (int j = 0; j < IMAGES; j++) __objc_exec_class(&there[i]->images[j].module);
}

static void close_object(int i)
{
    is_open[i] = false;
    if (is_kept[i]) return;
    free(there[i]);
    there[i] = NULL;
}

/* ---- what is claimed ---- */

static const char *steps;
#define MUST(is_so) \
    do { \
        if (!(is_so)) { \
            printf("%s, line %d: not so: %s\n", steps, __LINE__, #is_so); \
            fflush(stdout); \
            _exit(1); \
        } \
    } while (0)

static int send(Class class_, const char *name)
{
    SEL sel = sel_registerName(name);
    id object = class_createInstance(class_, 0);
    int found = ((int (*)(id, SEL))(void (*)(void))objc_msg_lookup(object, sel))(object, sel);
    free(object);
    return found;
}

static void check(bool has_a, bool has_b, bool has_c)
{
    Class a = objc_lookUpClass("A"), b = objc_lookUpClass("B"), c = objc_lookUpClass("C");
    MUST(!a == !has_a && !b == !has_b && !c == !has_c);
    MUST(!!loaded[0] == has_a && !!loaded[1] == has_a);
    MUST(!!loaded[2] == has_b && !!loaded[3] == has_c);
    for (int i = 0; i < 4; i++) MUST(loaded[i] >= 0);
    if (has_a) MUST(loaded[0] < loaded[1] && send(a, "value") == 2 && !strcmp(a->name, "A"));
    if (has_b) MUST(loaded[0] < loaded[2] && send(b, "value") == 3 && b->superclass.class_ == a);
    if (has_b) MUST(class_respondsToSelector(b, sel_registerName("extra")) == has_c);
    if (has_c) MUST(loaded[2] < loaded[3] && send(c, "value") == 3 && send(c, "extra") == 4);
}

static void run(const char *order)
{
    bool was[OBJECTS] = {false};
    steps = order;
    for (; *order; order++) {
        int i = *order - '0';
        if (is_open[i]) close_object(i);
        else load(i);
        was[i] = true;
        check(was[0], was[0] && was[1], was[0] && was[1] && was[2]);
    }
    _exit(0);
}

int main(int argc, char **argv)
{
    int most = argc > 1 ? atoi(argv[1]) : 4, status = 0;
    unsigned long long orders = 1, wrong = 0;
    for (int i = 0; i < most; i++) orders *= OBJECTS;
    for (unsigned long long order = 0; order < orders; order++) {
        char said[32] = {0};
        unsigned long long left = order;
        for (int i = 0; i < most; i++, left /= OBJECTS) said[i] = (char)('0' + left % OBJECTS);
        pid_t child = fork();
        if (!child) run(said);
        if (child < 0 || waitpid(child, &status, 0) != child || status) wrong++;
        if (wrong && getenv("CHECK_ONCE")) return 1;
    }
    printf("%s: %llu orders\n", wrong ? "FAILED" : "ALL RIGHT", orders);
    return wrong != 0;
}
