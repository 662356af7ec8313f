// Each call of the header through msg_runtime.hpp, each kind of fault, moves, and threads beside changes.
#include <msg_runtime.hpp>
#include <atomic>
#include <cstdio>
#include <cstdlib>
#include <thread>
#include <type_traits>
#include <vector>

static void check(bool holds, int line)
{
    if (holds) return;
    std::fprintf(stderr, "test.cpp:%d doesn't hold\n", line);
    std::exit(1);
}
#define CHECK(...) check((__VA_ARGS__), __LINE__)

template <class Work> static std::uint32_t fault_of(Work work)
{
    try {
        work();
    } catch (const msg::fault &fault) {
        return fault.number();
    }
    return MSG_DONE;
}
#define FAULT(number, ...) CHECK(fault_of([&] { __VA_ARGS__; }) == (number))

enum { ROOT, CHILD, OTHER, LATER };
enum { VALUE = 1, NAME, NEW, TAKE };
constexpr auto root = msg::instances_of(ROOT), child = msg::instances_of(CHILD), child_itself = msg::class_itself(CHILD);

static_assert(!std::is_copy_constructible_v<msg::runtime> && std::is_nothrow_move_constructible_v<msg::runtime>);
static_assert(!std::is_copy_constructible_v<msg::sender> && std::is_nothrow_move_constructible_v<msg::sender>);
static_assert(!std::is_copy_constructible_v<msg::texts> && std::is_nothrow_move_constructible_v<msg::texts>);
static_assert(!std::is_copy_constructible_v<msg::locked> && !std::is_move_constructible_v<msg::locked>);

static msg::runtime opened()
{
    msg::runtime runtime;
    msg::locked now = runtime.lock();
    now.make_root_class(ROOT);
    now.make_class(CHILD, ROOT);
    now.attach(ROOT, {{VALUE, 1}, {NAME, 2}}, {{NEW, 4}});
    now.add(child, NAME, 3);
    return runtime;
}

static void questions()
{
    msg::runtime runtime = opened();
    msg::locked now = runtime.lock();
    CHECK(now.class_count() == 16384 && now.change_count() == 4);
    CHECK(now.lookup(child, VALUE) == 1 && now.lookup(child, NAME) == 3 && now.lookup(root, NAME) == 2);
    CHECK(now.lookup(child_itself, NEW) == 4 && now.lookup(child_itself, VALUE) == 1 && now.lookup(child, TAKE) == 0);
    CHECK(now.superclass(child) == root && !now.superclass(root) && now.superclass(msg::class_itself(ROOT)) == root);
    CHECK(now.holder(child, VALUE) == root && now.holder(child_itself, NEW) == msg::class_itself(ROOT));
    CHECK(!now.holder(child, TAKE) && !now.superclass(msg::instances_of(OTHER)));
    CHECK(now.lookup(msg::instances_of(OTHER), VALUE) == 0);
    CHECK(now.methods(child).size() == 1 && now.methods(child)[0].imp == 3 && now.methods(child_itself).empty());
    CHECK(now.classes() == (std::vector<std::uint32_t>{ROOT, CHILD}));
    CHECK(now.classes_below(ROOT) == std::vector<std::uint32_t>{CHILD} && now.classes_below(OTHER).empty());
    FAULT(MSG_NO_CLASS, now.methods(msg::instances_of(16384)));
    FAULT(MSG_NO_CLASS, now.lookup(msg::instances_of(16384), VALUE));
    FAULT(MSG_NO_SELECTOR, now.lookup(child, 0));
    msg_report_row report = now.report();
    CHECK(report.fills == 0 && report.no_array[8] == 0 && report.refused_senders == 0);
}

static void changes()
{
    msg::runtime runtime = opened();
    msg::locked now = runtime.lock();
    now.replace(child, VALUE, 5);
    now.set_imp(child, NAME, 6);
    CHECK(now.lookup(child, VALUE) == 5 && now.lookup(child, NAME) == 6);
    now.exchange(child, VALUE, root, NAME);
    CHECK(now.lookup(child, VALUE) == 2 && now.lookup(root, NAME) == 5);
    std::vector<msg_method> methods{{TAKE, 7}};
    now.attach(CHILD, methods);
    now.attach(CHILD, methods, methods);
    now.attach(CHILD, std::vector<msg_method>());
    CHECK(now.lookup(child, TAKE) == 7 && now.lookup(child_itself, TAKE) == 7);
    std::uint64_t count = now.change_count();
    FAULT(MSG_NO_SUCH_CLASS, now.add(msg::instances_of(OTHER), VALUE, 1));
    FAULT(MSG_NO_SUCH_CLASS, now.make_class(OTHER, LATER));
    FAULT(MSG_NO_SUCH_IMP, now.replace(child, VALUE, 0));
    FAULT(MSG_NO_SUCH_IMP, now.attach(CHILD, {{VALUE, 0}}));
    FAULT(MSG_METHOD_PRESENT, now.add(child, NAME, 1));
    FAULT(MSG_NO_METHOD, now.set_imp(child, 99, 1));
    FAULT(MSG_DUPLICATE_CLASS, now.make_root_class(ROOT));
    CHECK(now.change_count() == count);
}

static void lists_of_changes()
{
    namespace change = msg::change;
    msg::runtime runtime = opened();
    msg::sender sender(runtime);
    constexpr auto other = msg::instances_of(OTHER);
    CHECK(sender.find(child, VALUE) == 1);
    runtime.lock().change_all({change::make_class(OTHER, CHILD), change::add(other, TAKE, 7),
                               change::replace(child, VALUE, 5), change::set_imp(root, NAME, 6),
                               change::exchange(child, NAME, child_itself, NEW), change::make_root_class(LATER)});
    CHECK(runtime.lock().change_count() == 5);
    CHECK(sender.find(other, TAKE) == 7 && sender.find(child, VALUE) == 5 && sender.find(root, NAME) == 6);
    CHECK(sender.find(child, NAME) == 4 && sender.find(child_itself, NEW) == 3);
    std::vector<msg_change> changes;
    runtime.lock().change_all(changes);
    CHECK(runtime.lock().change_count() == 5 && sender.recall(child, VALUE, 5) == 5 && sender.find(child, VALUE) == 5);
    changes = {change::replace(child, VALUE, 8), change::set_imp(child, 99, 8), change::replace(child, NAME, 8)};
    auto refused = [&](std::uint32_t number, std::size_t place) {
        try {
            runtime.lock().change_all(changes);
        } catch (const msg::fault &fault) {
            return fault.number() == number && fault.place() == place;
        }
        return false;
    };
    CHECK(refused(MSG_NO_METHOD, 1));
    changes[2].kind = MSG_COVERS + 1; // found before any is made
    CHECK(refused(MSG_BAD_CHANGE, 2));
    CHECK(runtime.lock().change_count() == 5 && sender.recall(child, VALUE, 5) == 5 && sender.find(child, VALUE) == 5);
    CHECK(runtime.lock().reach({change::replace(child, VALUE, 8)}) == std::vector<msg::class_ref>({child, other}));
    auto undo = runtime.lock().change_all_with_undo({change::replace(child, VALUE, 8), change::set_imp(root, NAME, 9)});
    CHECK(sender.find(other, VALUE) == 8 && sender.find(child, VALUE) == 8 && undo.size() == 2);
    runtime.lock().change_all(undo);
    CHECK(sender.find(child, VALUE) == 5);
    CHECK(runtime.lock().change_count() == 7);
    undo = runtime.lock().change_all_with_undo({change::add(other, 99, 8)});
    CHECK(undo.size() == 1 && undo[0].kind == MSG_REMOVES);
    FAULT(MSG_CLASS_IN_USE, runtime.lock().dispose_class(CHILD));
    for (std::uint32_t selector = 100; selector < 105; selector++) runtime.lock().add(other, selector, 8);
    undo = runtime.lock().change_all_with_undo({change::dispose_class(OTHER)});
    CHECK(undo.size() == 8 && undo[0].kind == MSG_MAKES_CLASS && sender.find(other, TAKE) == 0);
    runtime.lock().change_all(undo);
    CHECK(sender.find(other, TAKE) == 7 && sender.find(other, 104) == 8);
    runtime.lock().change_all({change::cover(other, TAKE, 9)});
    CHECK(sender.find(other, TAKE) == 9);
    runtime.lock().remove(other, TAKE);
    CHECK(sender.find(other, TAKE) == 7);
    runtime.lock().change_all({change::remove(other, TAKE)});
    CHECK(sender.find(other, TAKE) == 0);
    runtime.close();
    FAULT(MSG_CLOSED, runtime.lock().change_all({change::replace(child, VALUE, 8)}));
    FAULT(MSG_CLOSED, runtime.lock().change_all({}));
}

static void configs()
{
    msg_config config{};
    config.classes = 10;
    config.senders = 2;
    msg::runtime runtime(config);
    CHECK(runtime.lock().class_count() == 10);
    msg::sender one(runtime), two(runtime);
    FAULT(MSG_NO_SENDER, msg::sender three(runtime));
    CHECK(runtime.lock().report().refused_senders == 1);
    two.close();
    msg::sender three(runtime);
    config.classes = 2000000;
    FAULT(MSG_BAD_CONFIG, msg::runtime other(config));
}

static void senders()
{
    msg::runtime runtime = opened(), other = opened();
    msg::sender sender(runtime);
    CHECK(sizeof(msg_sender) == msg_sender_size() && msg_version() == MSG_VERSION_NUMBER);
    CHECK(!sender.probe(root, VALUE) && sender.recall(child, VALUE, 4) == 0);
    CHECK(runtime.lock().fill(sender, child, VALUE) == 1);
    CHECK(sender.probe(child, VALUE) == 1u && sender.recall(child, VALUE, 4) == 1);
    CHECK(sender.recall_key(msg::sender::key_of(child, VALUE)) == 1);
    CHECK(sender.find(child, VALUE) == 1 && sender.find(child_itself, NEW) == 4 && sender.find(child, TAKE) == 0);
    runtime.lock().replace(child, VALUE, 5);
    CHECK(sender.recall_key(msg::sender::key_of(child, VALUE)) == 0);
    CHECK(sender.find(child, VALUE) == 5 && sender.find_called(child, VALUE) == 5);
    CHECK(sender.recall_key(msg::sender::key_of(child_itself, NEW)) == 4 && sender.recalls_none(child, TAKE) == false);
    CHECK(sender.find(child, TAKE) == 0 && sender.recalls_none(child, TAKE));
    runtime.lock().replace(child, VALUE, 6);
    CHECK(sender.refresh() == 6 && sender.find_called(child, VALUE) == 6);
    runtime.lock().meet(sender);
    CHECK(runtime.lock().seen_by_all() == 4); // a meeting is no rest
    runtime.lock().rest(sender);
    CHECK(runtime.lock().seen_by_all() == 6);
    FAULT(MSG_NO_CLASS, sender.find(msg::instances_of(16384), VALUE));
    FAULT(MSG_NO_CLASS, sender.find(msg::instances_of(UINT32_C(1) << 31 | CHILD), VALUE));
    FAULT(MSG_NO_SELECTOR, sender.probe(child, 0));
    bool refused = false;
    try {
        other.lock().fill(sender, child, VALUE);
    } catch (const std::invalid_argument &) {
        refused = true;
    }
    CHECK(refused);
}

static void a_refused_change_is_no_change()
{
    msg::runtime runtime = opened();
    msg::sender sender(runtime);
    CHECK(sender.find(child, VALUE) == 1);
    FAULT(MSG_DUPLICATE_CLASS, runtime.lock().make_root_class(ROOT));
    CHECK(sender.recall(child, VALUE, runtime.lock().change_count()) == 1 && sender.find(child, VALUE) == 1);
}

static void moves_and_closes()
{
    msg::runtime first = opened();
    msg::sender sender(first);
    msg::runtime second = std::move(first);
    CHECK(sender.find(child, VALUE) == 1);
    FAULT(MSG_CLOSED, first.lock());
    msg::sender moved = std::move(sender);
    FAULT(MSG_CLOSED, sender.find(child, VALUE));
    CHECK(moved.find(child, VALUE) == 1);
    second.close();
    FAULT(MSG_CLOSED, second.lock().lookup(child, VALUE));
    FAULT(MSG_CLOSED, second.lock().make_root_class(LATER));
    FAULT(MSG_CLOSED, msg::sender another(second));
    CHECK(moved.find(child, VALUE) == 1);
    FAULT(MSG_CLOSED, moved.find(child, TAKE));
    moved.close();
    FAULT(MSG_CLOSED, moved.refresh());
    second = opened();
    CHECK(second.lookup(child, NAME) == 3);
}

static void several_as_one()
{
    msg::runtime runtime = opened();
    msg::sender sender(runtime);
    using imps = std::vector<std::uint32_t>;
    const std::vector<msg_lookup_row> three = {msg::lookup(child, NAME), msg::lookup(msg::class_itself(child.number), NEW),
                                               msg::lookup(child, TAKE)};
    CHECK(sender.find_all(three) == imps({3, 4, 0}) && sender.find_all(three) == imps({3, 4, 0}));
    runtime.lock().replace(child, NAME, 8);
    CHECK(sender.find_all(three) == imps({8, 4, 0}) && sender.find_all({}).empty());
    try {
        sender.find_all({msg::lookup(child, NAME), msg::lookup(child, 0)});
        CHECK(false);
    } catch (const msg::fault &fault) {
        CHECK(fault.number() == MSG_NO_SELECTOR && fault.place() == 1u);
    }
}

static void threads_beside_changes()
{
    msg::runtime runtime = opened();
    std::atomic<bool> over{false};
    std::atomic<int> began{0};
    std::vector<std::thread> threads;
    for (int i = 0; i < 3; i++) {
        threads.emplace_back([&] {
            msg::sender sender(runtime);
            began++;
            do {
                std::uint32_t imp = sender.find(child, NAME);
                CHECK(imp == 3 || imp == 8);
            } while (!over);
            CHECK(sender.find(child, NAME) == 8);
        });
    }
    while (began < 3) std::this_thread::yield();
    for (int i = 0; i < 1001; i++) runtime.lock().replace(child, NAME, i % 2 ? 3 : 8);
    over = true;
    for (auto &thread : threads) thread.join();
}

static void texts()
{
    msg::texts texts;
    CHECK(texts.intern("value") == 1 && texts.intern("setValue:forKey:") == 2 && texts.intern({}) == 3);
    CHECK(texts.intern("value") == 1 && texts.find("setValue:forKey:") == 2u && texts.find("") == 3u);
    CHECK(!texts.find("valu") && texts.text(2) == "setValue:forKey:" && texts.text(3) == "");
    CHECK(texts.colons(1) == 0u && texts.colons(2) == 2u && !texts.colons(4) && !texts.text(0));
    msg::texts moved = std::move(texts);
    FAULT(MSG_CLOSED, texts.intern("value"));
    CHECK(moved.find("value") == 1u);
    texts = std::move(moved);
    CHECK(texts.text(1) == "value");
    texts.close();
    FAULT(MSG_CLOSED, texts.text(1));
}

static void types()
{
    auto type = msg::first_type("{inner=cs}8@0");
    CHECK(type.size == 4 && type.align == 2 && type.end == 10 && msg::first_type({}).end == 0);
    auto member = msg::next_member("\"s\"s}", 8);
    CHECK(member && member->begin == 3 && member->end == 4 && member->first == 16 && member->last == 32);
    CHECK(member->align == 2 && !msg::next_member("}", 8));
}

int main()
{
    questions();
    changes();
    lists_of_changes();
    configs();
    senders();
    a_refused_change_is_no_change();
    moves_and_closes();
    several_as_one();
    threads_beside_changes();
    texts();
    types();
    std::puts("11 tests passed");
    return 0;
}
