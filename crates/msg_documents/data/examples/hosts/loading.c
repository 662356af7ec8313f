/* A host in C that has its classes by name in arrays, as a loader has them: it numbers the names
 * itself, and makes each class after its superclass. */
#include "msg_runtime.h"
#include <stdio.h>
#include <stdlib.h>

typedef struct { const char *selector; uint32_t (*body)(uint32_t side); } method_row;
typedef struct {
    const char *name, *superclass;
    const method_row *methods;
    size_t count;
} class_row;

static uint32_t forward(uint32_t side) { (void)side; return 404; }
static uint32_t shape_area(uint32_t side) { (void)side; return 0; }
static uint32_t shape_sides(uint32_t side) { (void)side; return 4; }
static uint32_t square_area(uint32_t side) { return side * side; }

#define ROWS(rows) rows, sizeof(rows) / sizeof *(rows)
static const method_row of_shape[] = {{"area", shape_area}, {"sides", shape_sides}};
static const method_row of_square[] = {{"area", square_area}};

/* In any order: Square comes before its superclass. */
static const class_row classes[] = {
    {"Square", "Shape", ROWS(of_square)},
    {"Shape", NULL, ROWS(of_shape)},
    {"Tile", "Square", NULL, 0},
    {"Ring", "Round", NULL, 0}, /* which no row has */
};
enum { CLASSES = sizeof classes / sizeof *classes, NAMES = 64, METHODS = 64 };

/* ---- numbers of names, and of bodies ---- */

static const char *selectors[NAMES];
static uint32_t selector_count = 1; /* 0 is no selector's number */
static uint32_t (*bodies[METHODS])(uint32_t) = {forward};
static uint32_t body_count = 1;

static uint32_t selector(const char *name)
{
    uint32_t sel = 1;
    while (sel < selector_count && strcmp(selectors[sel], name) != 0) sel++;
    if (sel == NAMES) exit(2);
    if (sel == selector_count) selectors[selector_count++] = name;
    return sel;
}

static uint32_t implementation(uint32_t (*body)(uint32_t))
{
    if (body_count == METHODS) exit(2);
    bodies[body_count] = body;
    return body_count++;
}

/* The place of a class's row is its number; CLASSES is no class's. */
static uint32_t class_named(const char *name)
{
    uint32_t number = 0;
    while (number < CLASSES && strcmp(classes[number].name, name) != 0) number++;
    return number;
}

/* ---- loading ---- */

static msg_runtime runtime = MSG_RUNTIME_INIT;
static pthread_mutex_t lock = PTHREAD_MUTEX_INITIALIZER;
static msg_sender sender = MSG_SENDER_INIT;

static void want(uint32_t answer)
{
    if (answer == MSG_DONE) return;
    fprintf(stderr, "fault %u\n", answer);
    exit(1);
}

static void attach(uint32_t number)
{
    const class_row *row = &classes[number];
    msg_method methods[METHODS];
    if (row->count > METHODS) exit(2);
    for (size_t i = 0; i < row->count; i++) {
        const method_row *method = &row->methods[i];
        methods[i] = (msg_method){selector(method->selector), implementation(method->body)};
    }
    want(msg_attach(&runtime, number, methods, row->count, methods, 0));
}

/* Makes each class whose superclass is made, until a round makes none. Tells how many are left. */
static uint32_t load(void)
{
    static bool made[CLASSES];
    uint32_t left = CLASSES;
    for (bool again = true; again;) {
        again = false;
        for (uint32_t number = 0; number < CLASSES; number++) {
            const char *above = classes[number].superclass;
            if (made[number]) continue;
            uint32_t answer = above ? msg_make_class(&runtime, number, class_named(above))
                                    : msg_make_root_class(&runtime, number);
            /* the superclass isn't made, or there is none of the name */
            if (answer == MSG_NO_SUCH_CLASS) continue;
            want(answer);
            attach(number);
            made[number] = again = true;
            left--;
        }
    }
    return left;
}

static uint32_t send(const char *name, const char *sel)
{
    uint32_t imp;
    want(msg_find(&runtime, &lock, &sender, class_named(name), false, selector(sel), &imp));
    return bodies[imp](3);
}

static void tell(const char *when)
{
    struct msg_report_row report;
    want(msg_report(&runtime, &report));
    printf("%s: %u filled in, %u arrays installed and %u taken away, ", when,
           (unsigned)report.fills, (unsigned)report.growths, (unsigned)report.retired);
    printf("%u of them by flushes, %u given again\n", (unsigned)report.flushes,
           (unsigned)report.given_again);
}

int main(void)
{
    uint32_t count;
    want(msg_open(&runtime, &(msg_config){.classes = CLASSES, .senders = 1, .arrays = {8, 4}}));
    printf("opened twice: %u\n", msg_open(&runtime, NULL));
    printf("not loaded: %u\n", load());
    want(msg_class_count(&runtime, &count));
    printf("class numbers: %u\n", count);
    want(msg_sender_open(&runtime, &sender));
    tell("at first");
    printf("area %u, sides %u, ", send("Square", "area"), send("Square", "sides"));
    printf("of a tile %u\n", send("Tile", "area"));
    printf("a method that isn't there: %u\n", send("Square", "volume"));
    tell("after sends");
    uint32_t square = class_named("Square"), imp = implementation(square_area);
    want(msg_replace(&runtime, square, false, selector("sides"), imp));
    want(msg_meet(&runtime, &sender));
    printf("replaced: sides %u, of a tile %u\n", send("Square", "sides"), send("Tile", "sides"));
    tell("after a change");
    want(msg_sender_close(&runtime, &sender));
    want(msg_close(&runtime));
    printf("closed: %u\n", msg_report(&runtime, &(struct msg_report_row){0}));
    return 0;
}
