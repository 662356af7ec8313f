/* A stand-in for those calls of the library that the shim and process/ make: plain tables,
 * nothing proved. For trying their own logic where the archive isn't built, and under
 * sanitizers: what is seen with it says nothing of the proved dispatcher. It goes the ways that
 * the library goes: notes are written, so that a send hits; a shared cache is probed without a
 * lock; as many senders are given out as the config says; the faults are the header's. What
 * would break the one `requires` that the header leaves ends the program. */
#include "msg_runtime.h"
#include <stdatomic.h>
#include <stdlib.h>
#include "standin_types.h"

enum { CLASSES = 1 << 20, SENDERS = 1 << 14, ARRAYS = 65535, PLACES = 8192 };
#define CHANGES (UINT64_C(1) << 48)

/* What a method's implementation covers: that of an older method of the same class and name. */
struct covered { uint32_t imp; struct covered *covered; };

/* A method of a class, or an empty place. */
struct cell { uint64_t key; uint32_t imp; struct covered *covered; };

/* A place of the cache: what was found for a slot and a selector at a version, and their key
 * mixed with it, so that who reads both words without a lock sees whether they are of one entry. */
struct entry { _Atomic(uint64_t) mixed, found; };

/* Its superclass, the last that was made below it, and the one before that below the same; or a
 * number below 0. */
struct class { bool made; int64_t above, below, beside; };

/* Shared words: the version, and a stamp for each slot: no change after that version has affected
 * it. It is closed by a change, and opened by the next fill. What was noted or cached of an earlier
 * version is no longer found. */
enum { VERSION, STAMPS = 8 };
#define CLOSED UINT64_MAX

struct tables {
    struct class *of;
    struct cell *cells;
    size_t cell_room, cell_count;
    uint32_t classes, senders, out;
    uint64_t fills, refused;
    struct asker *askers; /* all that are out: a handle may lie where no sanitizer looks */
    _Atomic(uint64_t) *words;
    struct entry cache[PLACES];
};

/* What a sender's handle points to. */
struct asker { struct tables *tables; uint64_t seen, rested; struct asker *next; };

static void must(bool holds) { if (!holds) abort(); }

static void *zeros(size_t count, size_t size)
{
    void *memory = calloc(count, size);
    must(memory);
    return memory;
}

static uint64_t version(const struct tables *tables)
{
    return atomic_load(&tables->words[VERSION]);
}

static uint64_t stamp(const struct tables *tables, uint32_t slot)
{
    return atomic_load(&tables->words[STAMPS + slot]);
}

static uint64_t mix(uint64_t word) { return (word ^ word >> 29) * 0x9e3779b97f4a7c15; }

/* Where the method of a key stands, or would. */
static struct cell *cell(const struct tables *tables, uint64_t key)
{
    size_t at = mix(key) >> 20 & (tables->cell_room - 1);
    while (tables->cells[at].key && tables->cells[at].key != key)
        at = (at + 1) & (tables->cell_room - 1);
    return &tables->cells[at];
}

/* The same, and there is room for one there. */
static struct cell *roomy_cell(struct tables *tables, uint64_t key)
{
    if (2 * (tables->cell_count + 1) > tables->cell_room) {
        struct tables before = {.cells = tables->cells, .cell_room = tables->cell_room};
        tables->cell_room *= 2;
        tables->cells = zeros(tables->cell_room, sizeof(struct cell));
        for (size_t i = 0; i < before.cell_room; i++)
            if (before.cells[i].key) *cell(tables, before.cells[i].key) = before.cells[i];
        free(before.cells);
    }
    struct cell *at = cell(tables, key);
    tables->cell_count += !at->key;
    at->key = key;
    return at;
}

static void put(struct tables *tables, uint64_t key, uint32_t imp)
{
    roomy_cell(tables, key)->imp = imp;
}

/* As an attached category's method: what was there is covered. */
static void cover(struct tables *tables, uint64_t key, uint32_t imp)
{
    struct cell *at = roomy_cell(tables, key);
    if (at->imp) {
        struct covered *below = zeros(1, sizeof *below);
        *below = (struct covered){at->imp, at->covered};
        at->covered = below;
    }
    at->imp = imp;
}

/* The method leaves, and what it covered counts again. */
static void uncover(struct tables *tables, uint64_t key)
{
    struct cell *at = cell(tables, key);
    struct covered *below = at->covered;
    at->imp = below ? below->imp : 0;
    at->covered = below ? below->covered : NULL;
    free(below);
}

static bool is_config(const uint32_t *config, size_t words)
{
    static const uint32_t most[] = {CLASSES, SENDERS, ARRAYS, ARRAYS, ARRAYS, ARRAYS,
                                    ARRAYS,  ARRAYS,  ARRAYS, ARRAYS, ARRAYS};
    for (size_t i = 0; i < words; i++)
        if (config[i] > (i < sizeof most / sizeof *most ? most[i] : 0)) return false;
    return true;
}

uint32_t msg_open_words(msg_runtime *runtime, const uint32_t *config, size_t words)
{
    if (runtime->open) return MSG_ALREADY_OPEN;
    if (!is_config(config, words)) return MSG_BAD_CONFIG;
    struct tables *tables = zeros(1, sizeof *tables);
    tables->classes = words > 0 && config[0] ? config[0] : 16384;
    tables->senders = words > 1 && config[1] ? config[1] : 1024;
    tables->of = zeros(tables->classes, sizeof *tables->of);
    tables->words = zeros(STAMPS + 2 * tables->classes, sizeof *tables->words);
    tables->cell_room = 1024;
    tables->cells = zeros(tables->cell_room, sizeof *tables->cells);
    *runtime = (msg_runtime){tables, true};
    return MSG_DONE;
}

uint32_t msg_change_count(msg_runtime *runtime, uint64_t *count)
{
    if (!runtime->open) return MSG_CLOSED;
    *count = version(runtime->at);
    return MSG_DONE;
}

uint32_t msg_words(msg_runtime *runtime, const uint64_t **words)
{
    if (!runtime->open) return MSG_CLOSED;
    *words = (const uint64_t *)(const void *)((struct tables *)runtime->at)->words;
    return MSG_DONE;
}

static uint32_t fault_of(const struct tables *tables, uint32_t number, uint32_t sel)
{
    if (number >= tables->classes) return MSG_NO_CLASS;
    return sel ? MSG_DONE : MSG_NO_SELECTOR;
}

/* Where the method stands, or a number below 0. A root's metaclass stands under the root. */
static int64_t holder(const struct tables *tables, uint32_t number, bool *meta, uint32_t sel)
{
    int64_t at = tables->of[number].made ? (int64_t)number : -1;
    while (at >= 0 && !cell(tables, msg_key(2 * (uint32_t)at + *meta, sel))->imp) {
        if (tables->of[at].above < 0 && *meta) *meta = false;
        else at = tables->of[at].above;
    }
    return at;
}

uint32_t msg_lookup(msg_runtime *runtime, uint32_t number, bool meta, uint32_t sel, uint32_t *imp)
{
    if (!runtime->open) return MSG_CLOSED;
    struct tables *tables = runtime->at;
    uint32_t fault = fault_of(tables, number, sel);
    if (fault) return fault;
    int64_t at = holder(tables, number, &meta, sel);
    *imp = at < 0 ? 0 : cell(tables, msg_key(2 * (uint32_t)at + meta, sel))->imp;
    return MSG_DONE;
}

uint32_t msg_superclass(msg_runtime *runtime, uint32_t number, bool meta, msg_class *above)
{
    if (!runtime->open) return MSG_CLOSED;
    const struct tables *tables = runtime->at;
    if (number >= tables->classes) return MSG_NO_CLASS;
    const struct class *class = &tables->of[number];
    if (!class->made || (class->above < 0 && !meta)) return MSG_NONE;
    *above = class->above < 0 ? (msg_class){number, false}
                              : (msg_class){(uint32_t)class->above, meta};
    return MSG_DONE;
}

uint32_t msg_holder(msg_runtime *runtime, uint32_t number, bool meta, uint32_t sel, msg_class *at)
{
    if (!runtime->open) return MSG_CLOSED;
    uint32_t fault = fault_of(runtime->at, number, sel);
    if (fault) return fault;
    int64_t found = holder(runtime->at, number, &meta, sel);
    if (found < 0) return MSG_NONE;
    *at = (msg_class){(uint32_t)found, meta};
    return MSG_DONE;
}

static void close_stamp(struct tables *tables, uint32_t slot)
{
    atomic_store(&tables->words[STAMPS + slot], CLOSED);
}

/* The class, or its metaclass, and those below: their stamps are closed before the change is told.
 * A root's metaclass stands below the root. */
static void flush(struct tables *tables, uint32_t number, bool meta)
{
    int64_t at = (int64_t)number;
    bool both = !meta && tables->of[number].above < 0;
    while (at >= 0) {
        if (both || !meta) close_stamp(tables, 2 * (uint32_t)at);
        if (both || meta) close_stamp(tables, 2 * (uint32_t)at + 1);
        int64_t next = tables->of[at].below;
        while (next < 0 && at >= 0 && at != (int64_t)number) {
            next = tables->of[at].beside;
            at = tables->of[at].above;
        }
        at = next;
    }
}

/* ---- changes: each is a list of parts ---- */

/* What a part wrote, so that it can be taken back: a method of a key, with the implementation that
 * it had; or a class, whose key is of no selector. */
enum wrote { ADDED, REWROTE, REMOVED, MADE, DISPOSED };
struct was { enum wrote wrote; uint64_t key; uint32_t imp; };
struct log { struct was *rows; size_t count, room; };

static void log_row(struct log *log, enum wrote wrote, uint64_t key, uint32_t imp)
{
    if (log->count == log->room) {
        log->room = 2 * log->room + 8;
        log->rows = realloc(log->rows, log->room * sizeof *log->rows);
        must(log->rows);
    }
    log->rows[log->count++] = (struct was){wrote, key, imp};
}

static bool is_made(const struct tables *tables, uint32_t number)
{
    return number < tables->classes && tables->of[number].made;
}

static uint32_t set(struct tables *tables, struct log *log, uint64_t key, uint32_t imp)
{
    uint32_t had = cell(tables, key)->imp;
    log_row(log, had ? REWROTE : ADDED, key, had);
    put(tables, key, imp);
    return MSG_DONE;
}

static uint32_t write(struct tables *tables, struct log *log, const msg_change *it, bool full)
{
    uint64_t key = msg_key(2 * it->number + it->meta, it->sel);
    if (!is_made(tables, it->number)) return MSG_NO_SUCH_CLASS;
    if (!it->sel) return MSG_NO_SELECTOR;
    if (!it->imp) return MSG_NO_SUCH_IMP;
    if (it->kind == MSG_ADDS && cell(tables, key)->imp) return MSG_METHOD_PRESENT;
    if (it->kind == MSG_COVERS && !full) {
        log_row(log, ADDED, key, 0);
        cover(tables, key, it->imp);
        return MSG_DONE;
    }
    bool meta = it->meta;
    bool sets = it->kind == MSG_SETS_IMP;
    int64_t at = sets ? holder(tables, it->number, &meta, it->sel) : (int64_t)it->number;
    if (at < 0) return MSG_NO_METHOD;
    if (full) return MSG_LIMIT;
    return set(tables, log, msg_key(2 * (uint32_t)at + meta, it->sel), it->imp);
}

static uint32_t exchange(struct tables *tables, struct log *log, const msg_change *it, bool full)
{
    bool meta = it->meta, other_meta = it->other_meta;
    if (!is_made(tables, it->number) || !is_made(tables, it->other)) return MSG_NO_SUCH_CLASS;
    if (!it->sel || !it->other_sel) return MSG_NO_SELECTOR;
    int64_t at = holder(tables, it->number, &meta, it->sel);
    int64_t other = holder(tables, it->other, &other_meta, it->other_sel);
    if (at < 0 || other < 0) return MSG_NO_METHOD;
    if (full) return MSG_LIMIT;
    uint64_t key = msg_key(2 * (uint32_t)at + meta, it->sel);
    uint64_t other_key = msg_key(2 * (uint32_t)other + other_meta, it->other_sel);
    uint32_t imp = cell(tables, key)->imp;
    set(tables, log, key, cell(tables, other_key)->imp);
    return set(tables, log, other_key, imp);
}

/* The last that is made below a class is the first there. */
static void link_class(struct tables *tables, uint32_t number, int64_t above)
{
    int64_t beside = above < 0 ? -1 : tables->of[above].below;
    tables->of[number] = (struct class){true, above, -1, beside};
    if (above >= 0) tables->of[above].below = number;
}

static void unlink_class(struct tables *tables, uint32_t number)
{
    struct class *class = &tables->of[number];
    class->made = false;
    if (class->above < 0) return;
    int64_t *at = &tables->of[class->above].below;
    for (; *at != (int64_t)number; at = &tables->of[*at].beside) must(*at >= 0);
    *at = class->beside;
}

static uint32_t make(struct tables *tables, struct log *log, const msg_change *it, bool full)
{
    bool is_root = it->kind == MSG_MAKES_ROOT_CLASS;
    bool is_below = is_root || is_made(tables, it->other);
    if (it->number >= tables->classes || !is_below) return MSG_NO_SUCH_CLASS;
    if (full) return MSG_LIMIT;
    if (tables->of[it->number].made) return MSG_DUPLICATE_CLASS;
    link_class(tables, it->number, is_root ? -1 : (int64_t)it->other);
    log_row(log, MADE, msg_key(2 * it->number, 0), 0);
    return MSG_DONE;
}

static uint32_t take_away(struct tables *tables, struct log *log, const msg_change *it, bool full)
{
    uint64_t key = msg_key(2 * it->number + it->meta, it->sel);
    if (!is_made(tables, it->number)) return MSG_NO_SUCH_CLASS;
    if (!it->sel) return MSG_NO_SELECTOR;
    uint32_t had = cell(tables, key)->imp;
    if (!had) return MSG_NO_METHOD;
    if (full) return MSG_LIMIT;
    log_row(log, REMOVED, key, had);
    uncover(tables, key);
    return MSG_DONE;
}

static uint32_t dispose(struct tables *tables, struct log *log, const msg_change *it, bool full)
{
    if (!is_made(tables, it->number)) return MSG_NO_SUCH_CLASS;
    if (full) return MSG_LIMIT;
    struct class *class = &tables->of[it->number];
    if (class->below >= 0) return MSG_CLASS_IN_USE;
    for (size_t i = 0; i < tables->cell_room; i++) {
        struct cell *at = &tables->cells[i];
        while (at->imp && MSG_SLOT_OF(at->key) / 2 == it->number) {
            log_row(log, REMOVED, at->key, at->imp);
            uncover(tables, at->key);
        }
    }
    log_row(log, DISPOSED, msg_key(2 * it->number, 0), (uint32_t)(class->above + 1));
    unlink_class(tables, it->number);
    return MSG_DONE;
}

static uint32_t meaning(const msg_change *it)
{
    switch (it->kind) {
    case MSG_ADDS: case MSG_REPLACES: case MSG_SETS_IMP: case MSG_REMOVES: case MSG_COVERS:
        return it->meta > 1 ? MSG_BAD_CHANGE : it->sel ? MSG_DONE : MSG_NO_SELECTOR;
    case MSG_EXCHANGES:
        if (it->meta > 1 || it->other_meta > 1) return MSG_BAD_CHANGE;
        return it->sel && it->other_sel ? MSG_DONE : MSG_NO_SELECTOR;
    case MSG_MAKES_CLASS: case MSG_MAKES_ROOT_CLASS: case MSG_DISPOSES_CLASS: return MSG_DONE;
    default: return MSG_BAD_CHANGE;
    }
}

static uint32_t change(struct tables *tables, struct log *log, const msg_change *it, bool full)
{
    switch (it->kind) {
    case MSG_ADDS: case MSG_REPLACES: case MSG_SETS_IMP: case MSG_COVERS:
        return write(tables, log, it, full);
    case MSG_EXCHANGES: return exchange(tables, log, it, full);
    case MSG_REMOVES: return take_away(tables, log, it, full);
    case MSG_DISPOSES_CLASS: return dispose(tables, log, it, full);
    default: return make(tables, log, it, full);
    }
}

static void take_back(struct tables *tables, const struct log *log)
{
    for (size_t i = log->count; i--;) {
        struct was was = log->rows[i];
        uint32_t number = MSG_SLOT_OF(was.key) / 2;
        switch (was.wrote) {
        case ADDED: uncover(tables, was.key); break;
        case REWROTE: put(tables, was.key, was.imp); break;
        case REMOVED: cover(tables, was.key, was.imp); break;
        case MADE: unlink_class(tables, number); break;
        case DISPOSED: link_class(tables, number, (int64_t)was.imp - 1); break;
        }
    }
}

/* The part that takes back what was written. */
static msg_change back_of(struct was was)
{
    uint32_t slot = MSG_SLOT_OF(was.key), number = slot / 2;
    msg_change back = {.number = number, .meta = slot % 2, .sel = MSG_SEL_OF(was.key)};
    switch (was.wrote) {
    case ADDED: back.kind = MSG_REMOVES; return back;
    case REWROTE: back.kind = MSG_REPLACES; back.imp = was.imp; return back;
    case REMOVED: back.kind = MSG_COVERS; back.imp = was.imp; return back;
    case MADE: return (msg_change){.kind = MSG_DISPOSES_CLASS, .number = number};
    default: break;
    }
    if (!was.imp) return (msg_change){.kind = MSG_MAKES_ROOT_CLASS, .number = number};
    return (msg_change){.kind = MSG_MAKES_CLASS, .number = number, .other = was.imp - 1};
}

static bool is_of_class(const msg_change *it)
{
    return it->kind == MSG_MAKES_CLASS || it->kind == MSG_MAKES_ROOT_CLASS
           || it->kind == MSG_DISPOSES_CLASS;
}

/* A class reference. */
struct mark { int64_t number; bool meta; };

/* Those at which a part writes rows: what stands below them is the same before and after. */
static size_t places_of(const struct tables *tables, const msg_change *it, struct mark *marks)
{
    struct mark first = {it->number, it->meta}, other = {it->other, it->other_meta};
    if (is_of_class(it) || !is_made(tables, it->number)) return 0;
    if (it->kind == MSG_SETS_IMP || it->kind == MSG_EXCHANGES)
        first.number = holder(tables, it->number, &first.meta, it->sel);
    marks[0] = first;
    if (it->kind != MSG_EXCHANGES || !is_made(tables, it->other)) return 1;
    other.number = holder(tables, it->other, &other.meta, it->other_sel);
    marks[1] = other;
    return 2;
}

static void mark_below(const struct tables *tables, struct mark place, bool *reached)
{
    for (uint32_t slot = 0; slot < 2 * tables->classes; slot++) {
        int64_t at = is_made(tables, slot / 2) ? (int64_t)(slot / 2) : -1;
        bool meta = slot % 2;
        while (at >= 0 && !(at == place.number && meta == place.meta)) {
            if (tables->of[at].above < 0 && meta) meta = false;
            else at = tables->of[at].above;
        }
        if (at >= 0) reached[slot] = true;
    }
}

/* All that was written is affected, and what is below it; of a class that was made or disposed of
 * both sides. */
static void commit(struct tables *tables, const struct log *log)
{
    for (size_t i = 0; i < log->count; i++) {
        const struct was *was = &log->rows[i];
        uint32_t slot = MSG_SLOT_OF(was->key);
        flush(tables, slot / 2, slot % 2);
        if (was->wrote == MADE || was->wrote == DISPOSED) flush(tables, slot / 2, true);
    }
    atomic_fetch_add(&tables->words[VERSION], 1);
}

/* Makes the parts, as far as one that is refused, and marks before each what it reaches, where
 * that is asked. */
static uint32_t change_each(struct tables *tables, struct log *log, const msg_change *changes,
                            size_t count, bool *reached, size_t *place)
{
    uint32_t fault = MSG_DONE;
    size_t at = 0;
    while (at < count && !(fault = meaning(&changes[at]))) at++;
    if (!fault) at = 0;
    while (at < count && !fault) {
        struct mark marks[2];
        size_t marked = reached ? places_of(tables, &changes[at], marks) : 0;
        if ((fault = change(tables, log, &changes[at], version(tables) + at >= CHANGES))) break;
        for (size_t i = 0; i < marked; i++) mark_below(tables, marks[i], reached);
        uint32_t slot = 2 * changes[at].number;
        if (reached && is_of_class(&changes[at]))
            reached[slot] = reached[slot + 1] = true;
        at++;
    }
    if (fault) *place = at;
    return fault;
}

uint32_t msg_change_all_with_undo(msg_runtime *runtime, const msg_change *changes, size_t count,
                                  msg_change *undo, size_t room, size_t *undone, size_t *place)
{
    if (!runtime->open) return MSG_CLOSED;
    struct tables *tables = runtime->at;
    struct log log = {NULL, 0, 0};
    uint32_t fault = change_each(tables, &log, changes, count, NULL, place);
    if (!fault && undone) *undone = log.count;
    if (!fault && undone && room < log.count) fault = MSG_NO_ROOM;
    if (fault) take_back(tables, &log);
    else if (count) commit(tables, &log);
    for (size_t i = 0; undone && !fault && i < log.count; i++)
        undo[i] = back_of(log.rows[log.count - 1 - i]);
    free(log.rows);
    return fault;
}

uint32_t msg_change_all(msg_runtime *runtime, const msg_change *changes, size_t count,
                        size_t *place)
{
    return msg_change_all_with_undo(runtime, changes, count, NULL, 0, NULL, place);
}

uint32_t msg_reach(msg_runtime *runtime, const msg_change *changes, size_t count, bool *reached,
                   size_t room, size_t *place)
{
    if (!runtime->open) return MSG_CLOSED;
    struct tables *tables = runtime->at;
    if (room != 2 * tables->classes) return MSG_NO_ROOM;
    struct log log = {NULL, 0, 0};
    uint32_t fault = change_each(tables, &log, changes, count, reached, place);
    take_back(tables, &log);
    free(log.rows);
    return fault;
}

static uint32_t change_one(msg_runtime *runtime, msg_change it)
{
    size_t place;
    return msg_change_all(runtime, &it, 1, &place);
}

uint32_t msg_add(msg_runtime *runtime, uint32_t number, bool meta, uint32_t sel, uint32_t imp)
{
    return change_one(runtime, (msg_change){MSG_ADDS, number, meta, sel, imp, 0, 0, 0});
}

uint32_t msg_replace(msg_runtime *runtime, uint32_t number, bool meta, uint32_t sel, uint32_t imp)
{
    return change_one(runtime, (msg_change){MSG_REPLACES, number, meta, sel, imp, 0, 0, 0});
}

uint32_t msg_exchange(msg_runtime *runtime, uint32_t number, bool meta, uint32_t sel,
                      uint32_t other, bool other_meta, uint32_t other_sel)
{
    msg_change it = {MSG_EXCHANGES, number, meta, sel, 0, other, other_meta, other_sel};
    return change_one(runtime, it);
}

uint32_t msg_make_class(msg_runtime *runtime, uint32_t number, uint32_t superclass)
{
    return change_one(runtime, (msg_change){MSG_MAKES_CLASS, number, 0, 0, 0, superclass, 0, 0});
}

uint32_t msg_make_root_class(msg_runtime *runtime, uint32_t number)
{
    return change_one(runtime, (msg_change){MSG_MAKES_ROOT_CLASS, number, 0, 0, 0, 0, 0, 0});
}

uint32_t msg_remove(msg_runtime *runtime, uint32_t number, bool meta, uint32_t sel)
{
    return change_one(runtime, (msg_change){MSG_REMOVES, number, meta, sel, 0, 0, 0, 0});
}

uint32_t msg_dispose_class(msg_runtime *runtime, uint32_t number)
{
    return change_one(runtime, (msg_change){MSG_DISPOSES_CLASS, number, 0, 0, 0, 0, 0, 0});
}

static bool lack_one(const msg_method *methods, size_t count, bool imps)
{
    for (size_t i = 0; i < count; i++)
        if (!(imps ? methods[i].imp : methods[i].sel)) return true;
    return false;
}

/* From the last, so that the earlier of a name counts. */
static void put_all(struct tables *tables, uint32_t slot, const msg_method *methods, size_t count)
{
    while (count--) cover(tables, msg_key(slot, methods[count].sel), methods[count].imp);
}

uint32_t msg_attach(msg_runtime *runtime, uint32_t number, const msg_method *methods, size_t count,
                    const msg_method *class_methods, size_t class_count)
{
    if (!runtime->open) return MSG_CLOSED;
    struct tables *tables = runtime->at;
    if (lack_one(methods, count, false) || lack_one(class_methods, class_count, false))
        return MSG_NO_SELECTOR;
    if (!is_made(tables, number)) return MSG_NO_SUCH_CLASS;
    if (lack_one(methods, count, true) || lack_one(class_methods, class_count, true))
        return MSG_NO_SUCH_IMP;
    if (version(tables) == CHANGES) return MSG_LIMIT;
    put_all(tables, 2 * number, methods, count);
    put_all(tables, 2 * number + 1, class_methods, class_count);
    if (count) flush(tables, number, false);
    if (class_count) flush(tables, number, true);
    atomic_fetch_add(&tables->words[VERSION], 1);
    return MSG_DONE;
}

uint32_t msg_sender_open(msg_runtime *runtime, msg_sender *sender)
{
    if (sender->open) return MSG_ALREADY_OPEN;
    if (!runtime->open) return MSG_CLOSED;
    struct tables *tables = runtime->at;
    if (tables->out == tables->senders) {
        tables->refused++;
        return MSG_NO_SENDER;
    }
    struct asker *asker = malloc(sizeof *asker);
    if (!asker) return MSG_NO_MEMORY;
    *asker = (struct asker){tables, version(tables), version(tables), tables->askers};
    tables->askers = asker;
    tables->out++;
    sender->at = asker;
    sender->open = true;
    return MSG_DONE;
}

uint32_t msg_sender_close(msg_runtime *runtime, msg_sender *sender)
{
    if (!sender->open) return MSG_CLOSED;
    struct asker *asker = sender->at;
    must(asker && runtime->at == asker->tables); /* in no other call */
    struct asker **at = &asker->tables->askers;
    while (*at != asker) at = &(*at)->next;
    *at = asker->next;
    asker->tables->out--;
    free(asker);
    memset(sender, 0, sizeof *sender);
    return MSG_DONE;
}

uint32_t msg_version(void) { return MSG_VERSION_NUMBER; }

size_t msg_sender_size(void) { return sizeof(msg_sender); }

static uint64_t mark_of(uint32_t imp)
{
    return !imp ? MSG_SAID_NONE : imp < MSG_SAID_LONG ? imp : MSG_SAID_LONG;
}

static bool is_note_of(const msg_note *it, uint64_t key)
{
    return it->seal + mark_of(it->imp) == key;
}

static bool is_free(const msg_note *it, uint64_t key) { return !it->seal || is_note_of(it, key); }

/* Where both notes of a place are of other lookups, the older one is put out. */
static void note(msg_sender *sender, uint32_t slot, uint32_t sel, uint64_t count, uint32_t imp)
{
    uint64_t key = msg_key(slot, sel), stamp_at = (STAMPS + slot) * sizeof(uint64_t);
    msg_note *first = (msg_note *)MSG_NOTE_OF(sender, key);
    msg_note *second = (msg_note *)MSG_SECOND_NOTE_OF(sender, key);
    bool is_second =
        !is_free(first, key) && (is_free(second, key) || first->parity != second->parity);
    uint32_t parity = is_second ? first->parity : !second->parity;
    *(is_second ? second : first) = (msg_note){key - mark_of(imp), count, imp, parity, stamp_at};
}

static const msg_note *noted(const msg_sender *sender, uint32_t slot, uint32_t sel, uint64_t since)
{
    uint64_t key = msg_key(slot, sel);
    const msg_note *first = MSG_NOTE_OF(sender, key), *second = MSG_SECOND_NOTE_OF(sender, key);
    if (is_note_of(first, key) && first->count >= since) return first;
    return is_note_of(second, key) && second->count >= since ? second : NULL;
}

size_t msg_recall(const msg_sender *sender, size_t slot, uint32_t sel, uint64_t since)
{
    const msg_note *it = slot < MSG_SLOTS ? noted(sender, (uint32_t)slot, sel, since) : NULL;
    return !it ? 0 : it->imp ? it->imp : MSG_NOTED_NONE;
}

static struct entry *place(struct tables *tables, uint64_t key)
{
    return &tables->cache[mix(key) >> 40 & (PLACES - 1)];
}

/* One more than the version, since an empty place is of none. */
static uint64_t found_at(uint32_t imp, uint64_t version)
{
    return (uint64_t)imp << 32 | (uint32_t)(version + 1);
}

uint32_t msg_fill(msg_runtime *runtime, msg_sender *sender, uint32_t number, bool meta,
                  uint32_t sel, uint32_t *imp)
{
    if (!runtime->open || !sender->open) return MSG_CLOSED;
    struct asker *asker = sender->at;
    must(asker && runtime->at == asker->tables);
    uint32_t slot = 2 * number + meta, fault = msg_lookup(runtime, number, meta, sel, imp);
    if (fault) return fault;
    struct tables *tables = asker->tables;
    asker->seen = version(tables);
    note(sender, slot, sel, asker->seen, *imp);
    uint64_t key = msg_key(slot, sel), found = found_at(*imp, asker->seen);
    struct entry *entry = place(tables, key);
    atomic_store(&entry->found, found);
    atomic_store(&entry->mixed, key ^ mix(found));
    if (stamp(tables, slot) == CLOSED) atomic_store(&tables->words[STAMPS + slot], asker->seen);
    tables->fills++;
    return MSG_DONE;
}

/* Of what isn't done here 0. */
uint32_t msg_report_words(msg_runtime *runtime, uint64_t *words, size_t count)
{
    if (!runtime->open) return MSG_CLOSED;
    const struct tables *tables = runtime->at;
    for (size_t i = 0; i < count; i++) {
        bool fills = i * sizeof *words == offsetof(struct msg_report_row, fills);
        bool refused = i * sizeof *words == offsetof(struct msg_report_row, refused_senders);
        words[i] = fills ? tables->fills : refused ? tables->refused : 0;
    }
    return MSG_DONE;
}

/* From the shared cache: of a version since which no change affected the slot. */
static uint32_t probe(struct asker *asker, msg_sender *sender, uint32_t slot, uint32_t sel,
                      uint32_t *imp)
{
    uint64_t key = msg_key(slot, sel);
    struct entry *entry = place(asker->tables, key);
    asker->seen = version(asker->tables);
    uint64_t mixed = atomic_load(&entry->mixed), found = atomic_load(&entry->found);
    uint64_t since = (uint32_t)found - UINT64_C(1);
    if (mixed != (key ^ mix(found)) || stamp(asker->tables, slot) > since) return MSG_MISSED;
    if (asker->seen < since) asker->seen = since;
    uint32_t is_imp = *imp = (uint32_t)(found >> 32);
    note(sender, slot, sel, asker->seen, is_imp);
    return MSG_DONE;
}

uint32_t msg_probe(msg_sender *sender, uint32_t number, bool meta, uint32_t sel, uint32_t *imp)
{
    if (!sender->open) return MSG_CLOSED;
    struct asker *asker = sender->at;
    must(asker); /* in one call at a time: the library takes it out meanwhile */
    sender->at = NULL;
    uint32_t slot = 2 * number + meta, answer = fault_of(asker->tables, number, sel);
    const msg_note *it = answer ? NULL : noted(sender, slot, sel, stamp(asker->tables, slot));
    if (it) *imp = it->imp;
    else if (!answer) answer = probe(asker, sender, slot, sel, imp);
    sender->at = asker;
    return answer;
}

/* Why lookups aren't answered as one, or MSG_DONE. */
static uint32_t judge_all(const struct tables *tables, const msg_lookup_row *lookups, size_t count,
                          size_t room, size_t *place)
{
    if (room != count) return MSG_NO_ROOM;
    for (size_t i = 0; i < count; i++) {
        bool bad = lookups[i].meta > 1;
        uint32_t fault = fault_of(tables, lookups[i].number, lookups[i].sel);
        if (!bad && !fault) continue;
        *place = i;
        return bad ? MSG_BAD_CHANGE : fault;
    }
    return MSG_DONE;
}

/* What a lookup found after so many changes, if none after them has affected its class. */
static uint32_t probe_after(struct asker *asker, msg_sender *sender, uint64_t count,
                            msg_lookup_row it, uint32_t *imp)
{
    uint32_t slot = 2 * it.number + it.meta, answer = MSG_DONE;
    uint64_t since = stamp(asker->tables, slot);
    if (since > count) return MSG_MISSED;
    const msg_note *found = noted(sender, slot, it.sel, since);
    if (found) *imp = found->imp;
    else answer = probe(asker, sender, slot, it.sel, imp);
    return answer || stamp(asker->tables, slot) > count ? MSG_MISSED : MSG_DONE;
}

uint32_t msg_probe_all(msg_sender *sender, const msg_lookup_row *lookups, size_t count,
                       uint32_t *imps, size_t room, size_t *place)
{
    if (!sender->open) return MSG_CLOSED;
    struct asker *asker = sender->at;
    must(asker);
    uint32_t answer = judge_all(asker->tables, lookups, count, room, place);
    if (answer) return answer;
    sender->at = NULL;
    uint64_t counted = asker->seen = version(asker->tables);
    for (size_t i = 0; !answer && i < count; i++)
        answer = probe_after(asker, sender, counted, lookups[i], &imps[i]);
    sender->at = asker;
    return answer;
}

uint32_t msg_fill_all(msg_runtime *runtime, msg_sender *sender, const msg_lookup_row *lookups,
                      size_t count, uint32_t *imps, size_t room, size_t *place)
{
    if (!runtime->open || !sender->open) return MSG_CLOSED;
    struct asker *asker = sender->at;
    must(asker && runtime->at == asker->tables);
    uint32_t fault = judge_all(asker->tables, lookups, count, room, place);
    if (fault) return fault;
    asker->seen = version(asker->tables);
    for (size_t i = 0; i < count; i++)
        must(!msg_fill(runtime, sender, lookups[i].number, lookups[i].meta, lookups[i].sel,
                       &imps[i]));
    return MSG_DONE;
}

uint32_t msg_meet(msg_runtime *runtime, msg_sender *sender)
{
    if (!runtime->open || !sender->open) return MSG_CLOSED;
    struct asker *asker = sender->at;
    must(asker && runtime->at == asker->tables);
    asker->seen = version(asker->tables);
    return MSG_DONE;
}

uint32_t msg_rest(msg_runtime *runtime, msg_sender *sender)
{
    uint32_t answer = msg_meet(runtime, sender);
    struct asker *asker = sender->at;
    if (!answer) asker->rested = asker->seen;
    return answer;
}

uint32_t msg_seen_by_all(msg_runtime *runtime, uint64_t *count)
{
    if (!runtime->open) return MSG_CLOSED;
    const struct tables *tables = runtime->at;
    *count = version(tables);
    for (const struct asker *one = tables->askers; one; one = one->next)
        if (one->rested < *count) *count = one->rested;
    return MSG_DONE;
}

uint32_t msg_refresh(msg_sender *sender, uint64_t *count)
{
    if (!sender->open) return MSG_CLOSED;
    struct asker *asker = sender->at;
    must(asker);
    *count = asker->seen = version(asker->tables);
    return MSG_DONE;
}

uint32_t msg_stamp(msg_sender *sender, uint32_t number, bool meta, uint64_t *told)
{
    if (!sender->open) return MSG_CLOSED;
    struct asker *asker = sender->at;
    must(asker);
    uint32_t fault = fault_of(asker->tables, number, 1);
    if (!fault) *told = stamp(asker->tables, 2 * number + meta);
    return fault;
}
