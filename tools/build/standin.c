/* The plain tables of trusted/objc/tests/standin.c, with the calls that they lack: for writing a
 * host where the proved library isn't built (tools/build/install --stand-in). Nothing of it is
 * proved.
 *
 * It answers what the header says, but for three things. It takes no care of speed or of memory
 * that is refused. A class's methods are shown in the order of their selectors. What msg_report
 * tells of arrays is 0. */
#define msg_sender_close standin_close
#include "../../trusted/objc/tests/standin.c"
#undef msg_sender_close
#include <stdio.h>
uint32_t msg_sender_close(msg_runtime *runtime, msg_sender *sender);

__attribute__((constructor)) static void tell(void)
{
    const char *how = getenv("YELDROST_STANDIN");
    if (how && !strcmp(how, "quiet")) return;
    fputs("yeldrost: a STAND-IN for the library, of which nothing is proved\n", stderr);
}

static void free_tables(struct tables *tables)
{
    for (size_t i = 0; i < tables->cell_room; i++)
        while (tables->cells[i].covered) uncover(tables, tables->cells[i].key);
    free(tables->of);
    free(tables->cells);
    free((void *)tables->words);
    free(tables);
}

uint32_t msg_close(msg_runtime *runtime)
{
    if (!runtime->open) return MSG_CLOSED;
    struct tables *tables = runtime->at;
    *runtime = (msg_runtime)MSG_RUNTIME_INIT;
    if (!tables->out) free_tables(tables);
    return MSG_DONE;
}

uint32_t msg_sender_close(msg_runtime *runtime, msg_sender *sender)
{
    if (runtime->open || !sender->open) return standin_close(runtime, sender);
    msg_runtime was = {((struct asker *)sender->at)->tables, true};
    uint32_t fault = standin_close(&was, sender);
    if (!((struct tables *)was.at)->out) msg_close(&was);
    return fault;
}

uint32_t msg_class_count(msg_runtime *runtime, uint32_t *count)
{
    if (!runtime->open) return MSG_CLOSED;
    *count = ((struct tables *)runtime->at)->classes;
    return MSG_DONE;
}

uint32_t msg_set_imp(msg_runtime *runtime, uint32_t number, bool meta, uint32_t sel, uint32_t imp)
{
    return change_one(runtime, (msg_change){MSG_SETS_IMP, number, meta, sel, imp, 0, 0, 0});
}

static int by_selector(const void *one, const void *other)
{
    uint32_t a = MSG_SEL_OF((*(struct cell *const *)one)->key),
             b = MSG_SEL_OF((*(struct cell *const *)other)->key);
    return a < b ? -1 : a > b;
}

uint32_t msg_methods(msg_runtime *runtime, uint32_t number, bool meta, msg_method *methods,
                     size_t room, size_t *count)
{
    if (!runtime->open) return MSG_CLOSED;
    struct tables *tables = runtime->at;
    if (number >= tables->classes) return MSG_NO_CLASS;
    struct cell **own = zeros(tables->cell_room, sizeof *own);
    size_t cells = 0, rows = 0;
    for (size_t i = 0; i < tables->cell_room; i++) {
        struct cell *it = &tables->cells[i];
        if (it->imp && MSG_SLOT_OF(it->key) == msg_slot(number, meta)) own[cells++] = it;
    }
    qsort(own, cells, sizeof *own, by_selector);
    for (int writes = 0; writes < 2; writes++) {
        if (writes && rows > room) break;
        rows = 0;
        for (size_t i = 0; i < cells; i++) {
            struct covered top = {own[i]->imp, own[i]->covered};
            for (const struct covered *it = &top; it; it = it->covered, rows++)
                if (writes) methods[rows] = (msg_method){MSG_SEL_OF(own[i]->key), it->imp};
        }
    }
    free(own);
    *count = rows;
    return rows > room ? MSG_NO_ROOM : MSG_DONE;
}

/* Writes a class and those below it, as far as there is room, and counts them. */
static size_t show(const struct tables *tables, int64_t at, uint32_t *classes, size_t room)
{
    size_t count = 1;
    if (room) *classes = (uint32_t)at;
    for (int64_t below = tables->of[at].below; below >= 0; below = tables->of[below].beside)
        count += show(tables, below, classes + count, room > count ? room - count : 0);
    return count;
}

static uint32_t shown(const struct tables *tables, int64_t below, uint32_t *classes, size_t room,
                      size_t *count)
{
    uint32_t *all = zeros(tables->classes + 1, sizeof *all);
    size_t found = 0;
    if (below >= 0 && tables->of[below].made) found = show(tables, below, all, tables->classes) - 1;
    for (uint32_t i = 0; below < 0 && i < tables->classes; i++)
        if (tables->of[i].made && tables->of[i].above < 0)
            found += show(tables, i, all + found, tables->classes - found);
    if (found && found <= room) memcpy(classes, all + (below >= 0), found * sizeof *all);
    free(all);
    *count = found;
    return found > room ? MSG_NO_ROOM : MSG_DONE;
}

uint32_t msg_classes(msg_runtime *runtime, uint32_t *classes, size_t room, size_t *count)
{
    return runtime->open ? shown(runtime->at, -1, classes, room, count) : MSG_CLOSED;
}

uint32_t msg_classes_below(msg_runtime *runtime, uint32_t number, uint32_t *classes, size_t room,
                           size_t *count)
{
    if (!runtime->open) return MSG_CLOSED;
    const struct tables *tables = runtime->at;
    if (number >= tables->classes) return MSG_NO_CLASS;
    return shown(tables, number, classes, room, count);
}

struct texts {
    uint32_t count, room;
    struct text {
        size_t length;
        uint8_t *bytes;
    } * at;
};

uint32_t msg_texts_open(msg_texts *texts)
{
    if (texts->open) return MSG_ALREADY_OPEN;
    texts->at = zeros(1, sizeof(struct texts));
    texts->open = true;
    return MSG_DONE;
}

uint32_t msg_texts_close(msg_texts *texts)
{
    if (!texts->open) return MSG_CLOSED;
    struct texts *all = texts->at;
    for (uint32_t i = 0; i < all->count; i++) free(all->at[i].bytes);
    free(all->at);
    free(all);
    *texts = (msg_texts)MSG_TEXTS_INIT;
    return MSG_DONE;
}

uint32_t msg_texts_find(msg_texts *texts, const uint8_t *text, size_t length, uint32_t *number)
{
    if (!texts->open) return MSG_CLOSED;
    const struct texts *all = texts->at;
    for (uint32_t i = 0; i < all->count; i++) {
        if (all->at[i].length != length) continue;
        if (length && memcmp(all->at[i].bytes, text, length)) continue;
        *number = i + 1;
        return MSG_DONE;
    }
    return MSG_NONE;
}

uint32_t msg_texts_intern(msg_texts *texts, const uint8_t *text, size_t length, uint32_t *number)
{
    uint32_t fault = msg_texts_find(texts, text, length, number);
    if (fault != MSG_NONE) return fault;
    struct texts *all = texts->at;
    if (all->count == all->room) {
        all->room = 2 * all->room + 8;
        all->at = realloc(all->at, all->room * sizeof *all->at);
        must(all->at);
    }
    uint8_t *bytes = zeros(length + 1, 1);
    if (length) memcpy(bytes, text, length);
    all->at[all->count++] = (struct text){length, bytes};
    *number = all->count;
    return MSG_DONE;
}

static const struct text *text_of(const msg_texts *texts, uint32_t number)
{
    const struct texts *all = texts->at;
    return number && number <= all->count ? &all->at[number - 1] : NULL;
}

uint32_t msg_texts_text(msg_texts *texts, uint32_t number, uint8_t *into, size_t room,
                        size_t *length)
{
    if (!texts->open) return MSG_CLOSED;
    const struct text *text = text_of(texts, number);
    if (!text) return MSG_NONE;
    size_t most = text->length < room ? text->length : room;
    if (most) memcpy(into, text->bytes, most);
    *length = text->length;
    return MSG_DONE;
}

uint32_t msg_texts_colons(msg_texts *texts, uint32_t number, size_t *count)
{
    if (!texts->open) return MSG_CLOSED;
    const struct text *text = text_of(texts, number);
    if (!text) return MSG_NONE;
    *count = 0;
    for (size_t i = 0; i < text->length; i++) *count += text->bytes[i] == ':';
    return MSG_DONE;
}
