// C++17 over msg_runtime.h: handles that close themselves and are moved but never copied, a lock that unlocks itself,
// and faults that are thrown. What is proved, and what a host is trusted with, stands in msg_runtime.h.
#ifndef MSG_RUNTIME_HPP
#define MSG_RUNTIME_HPP

#include "msg_runtime.h"
#include <cstddef>
#include <cstdint>
#include <initializer_list>
#include <iterator>
#include <memory>
#include <mutex>
#include <optional>
#include <stdexcept>
#include <string>
#include <string_view>
#include <utility>
#include <vector>

namespace msg {

// What a call returned that isn't MSG_DONE. Nothing has changed by it.
class fault : public std::runtime_error {
public:
    explicit fault(std::uint32_t number, std::optional<std::size_t> place = {})
        : std::runtime_error(msg_fault_text(number)), number_(number), place_(place)
    {
    }
    std::uint32_t number() const noexcept { return number_; }
    // Of a list of changes or of lookups: which of them is refused, from 0.
    std::optional<std::size_t> place() const noexcept { return place_; }

private:
    std::uint32_t number_;
    std::optional<std::size_t> place_;
};

inline void must(std::uint32_t answer)
{
    if (answer != MSG_DONE) throw fault(answer);
}

// A class, as its instances find methods; or its metaclass, as the class itself finds them.
struct class_ref {
    std::uint32_t number;
    bool meta;
    constexpr std::size_t slot() const noexcept { return 2 * std::size_t(number) + meta; }
    // Whether the slot has 32 bits, as that of each class that is made.
    constexpr bool has_slot() const noexcept { return slot() < MSG_SLOTS; }
};
constexpr class_ref instances_of(std::uint32_t number) noexcept { return {number, false}; }
constexpr class_ref class_itself(std::uint32_t number) noexcept { return {number, true}; }
constexpr bool operator==(class_ref one, class_ref other) noexcept { return one.slot() == other.slot(); }
constexpr bool operator!=(class_ref one, class_ref other) noexcept { return !(one == other); }

// A lookup, as one of those that sender::find_all finds as one.
constexpr msg_lookup_row lookup(class_ref of, std::uint32_t selector) noexcept
{
    return {of.number, of.meta, selector};
}

// The entries of a list for locked::change_all. Each does what the call of its name does.
namespace change {
constexpr msg_change add(class_ref to, std::uint32_t selector, std::uint32_t imp) noexcept
{
    return {MSG_ADDS, to.number, to.meta, selector, imp, 0, 0, 0};
}
constexpr msg_change replace(class_ref in, std::uint32_t selector, std::uint32_t imp) noexcept
{
    return {MSG_REPLACES, in.number, in.meta, selector, imp, 0, 0, 0};
}
constexpr msg_change set_imp(class_ref of, std::uint32_t selector, std::uint32_t imp) noexcept
{
    return {MSG_SETS_IMP, of.number, of.meta, selector, imp, 0, 0, 0};
}
constexpr msg_change exchange(class_ref of, std::uint32_t selector, class_ref other,
                              std::uint32_t other_selector) noexcept
{
    return {MSG_EXCHANGES, of.number, of.meta, selector, 0, other.number, other.meta, other_selector};
}
constexpr msg_change make_class(std::uint32_t number, std::uint32_t superclass) noexcept
{
    return {MSG_MAKES_CLASS, number, 0, 0, 0, superclass, 0, 0};
}
constexpr msg_change make_root_class(std::uint32_t number) noexcept
{
    return {MSG_MAKES_ROOT_CLASS, number, 0, 0, 0, 0, 0, 0};
}
constexpr msg_change remove(class_ref of, std::uint32_t selector) noexcept
{
    return {MSG_REMOVES, of.number, of.meta, selector, 0, 0, 0, 0};
}
constexpr msg_change dispose_class(std::uint32_t number) noexcept
{
    return {MSG_DISPOSES_CLASS, number, 0, 0, 0, 0, 0, 0};
}
// As attach of one method: it stands before the one that is there.
constexpr msg_change cover(class_ref of, std::uint32_t selector, std::uint32_t imp) noexcept
{
    return {MSG_COVERS, of.number, of.meta, selector, imp, 0, 0, 0};
}
} // namespace change

class sender;

namespace inner {
// What a runtime and its senders share. It is freed with the last of them.
struct shared {
    msg_runtime handle = MSG_RUNTIME_INIT;
    std::mutex lock;
    const std::uint64_t *words = nullptr; // the shared ones
};
} // namespace inner

// The runtime lock, held: what may be asked and changed under it. A thread that has it calls neither lock, lookup nor
// close of the runtime. Nor does it open or close a sender, or find by one. It would wait for itself. The calls of
// this class are safe.
class locked {
public:
    locked(const locked &) = delete;
    locked &operator=(const locked &) = delete;

    std::uint32_t class_count() { return told<std::uint32_t>(msg_class_count); }
    std::uint64_t change_count() { return told<std::uint64_t>(msg_change_count); }
    // A count of changes: as many as every open sender had seen when it rested last, or was opened; all if none is
    // open. Code that the first so many changes took out can be freed. You see to four things. A thread that rests keeps
    // nothing that it found. No later change puts the code back. No thread calls what lookup or methods returned
    // before: that isn't counted. And none calls what sender::recall returned with a `since` below this count.
    std::uint64_t seen_by_all() { return told<std::uint64_t>(msg_seen_by_all); }
    msg_report_row report()
    {
        msg_report_row row{};
        must(msg_report(&at->handle, &row));
        return row;
    }
    // 0 is forwarding.
    std::uint32_t lookup(class_ref of, std::uint32_t selector)
    {
        std::uint32_t imp = 0;
        must(msg_lookup(&at->handle, of.number, of.meta, selector, &imp));
        return imp;
    }
    std::optional<class_ref> superclass(class_ref of)
    {
        msg_class above{};
        return there(msg_superclass(&at->handle, of.number, of.meta, &above), above);
    }
    std::optional<class_ref> holder(class_ref of, std::uint32_t selector)
    {
        msg_class where{};
        return there(msg_holder(&at->handle, of.number, of.meta, selector, &where), where);
    }
    // The methods that the class or metaclass has itself, the newest first: of those of one selector a lookup finds
    // the first.
    std::vector<msg_method> methods(class_ref of)
    {
        return shown<msg_method>([&](msg_method *room, std::size_t places, std::size_t *count) {
            return msg_methods(&at->handle, of.number, of.meta, room, places, count);
        });
    }
    // The classes that are made, each after its superclass.
    std::vector<std::uint32_t> classes()
    {
        return shown<std::uint32_t>([&](std::uint32_t *room, std::size_t places, std::size_t *count) {
            return msg_classes(&at->handle, room, places, count);
        });
    }
    // The subclasses, theirs, and so on.
    std::vector<std::uint32_t> classes_below(std::uint32_t number)
    {
        return shown<std::uint32_t>([&](std::uint32_t *room, std::size_t places, std::size_t *count) {
            return msg_classes_below(&at->handle, number, room, places, count);
        });
    }

    void make_root_class(std::uint32_t number)
    {
        must(msg_make_root_class(&at->handle, number));
    }
    void make_class(std::uint32_t number, std::uint32_t superclass)
    {
        must(msg_make_class(&at->handle, number, superclass));
    }
    void add(class_ref to, std::uint32_t selector, std::uint32_t imp)
    {
        must(msg_add(&at->handle, to.number, to.meta, selector, imp));
    }
    void replace(class_ref in, std::uint32_t selector, std::uint32_t imp)
    {
        must(msg_replace(&at->handle, in.number, in.meta, selector, imp));
    }
    void set_imp(class_ref of, std::uint32_t selector, std::uint32_t imp)
    {
        must(msg_set_imp(&at->handle, of.number, of.meta, selector, imp));
    }
    void exchange(class_ref of, std::uint32_t selector, class_ref other, std::uint32_t other_selector)
    {
        must(msg_exchange(&at->handle, of.number, of.meta, selector, other.number, other.meta, other_selector));
    }
    // Takes away the method that the class has of its own. One that it hid counts again.
    void remove(class_ref of, std::uint32_t selector)
    {
        must(msg_remove(&at->handle, of.number, of.meta, selector));
    }
    // Takes a class away that no class is below, with its metaclass and the methods of both.
    void dispose_class(std::uint32_t number)
    {
        must(msg_dispose_class(&at->handle, number));
    }
    // Lists of msg_method that lie in one piece: an array, a std::vector, an initializer list.
    template <class Methods, class ClassMethods>
    void attach(std::uint32_t number, const Methods &methods, const ClassMethods &class_methods)
    {
        must(msg_attach(&at->handle, number, pointer<msg_method>(methods), std::size(methods),
                        pointer<msg_method>(class_methods), std::size(class_methods)));
    }
    template <class Methods> void attach(std::uint32_t number, const Methods &methods)
    {
        attach(number, methods, std::initializer_list<msg_method>());
    }
    void attach(std::uint32_t number, std::initializer_list<msg_method> methods,
                std::initializer_list<msg_method> class_methods = {})
    {
        attach<std::initializer_list<msg_method>, std::initializer_list<msg_method>>(number, methods, class_methods);
    }

    // Several as one: each lookup finds what was before all of them, or what is after. If one is refused nothing has
    // changed, and the fault that is thrown has its place. The list lies in one piece, as those of attach.
    template <class Changes> void change_all(const Changes &changes)
    {
        std::size_t place = 0;
        auto answer = msg_change_all(&at->handle, pointer<msg_change>(changes), std::size(changes), &place);
        listed(answer, place); // which is written by now
    }
    void change_all(std::initializer_list<msg_change> changes)
    {
        change_all<std::initializer_list<msg_change>>(changes);
    }
    // The same, and the list that undoes these changes. Make it before any other change to the same methods or classes.
    // Later it may be refused, or it is accepted and overwrites or removes what others put there.
    template <class Changes> std::vector<msg_change> change_all_with_undo(const Changes &changes)
    {
        std::vector<msg_change> undo(2 * std::size(changes) + 1);
        std::size_t place = 0, undone = 0;
        auto make = [&] {
            return msg_change_all_with_undo(&at->handle, pointer<msg_change>(changes), std::size(changes), undo.data(),
                                            undo.size(), &undone, &place);
        };
        std::uint32_t answer = make();
        if (answer == MSG_NO_ROOM) { // and nothing was made
            undo.resize(undone);
            answer = make();
        }
        listed(answer, place);
        undo.resize(undone);
        return undo;
    }
    std::vector<msg_change> change_all_with_undo(std::initializer_list<msg_change> changes)
    {
        return change_all_with_undo<std::initializer_list<msg_change>>(changes);
    }
    // Which lookups change_all may alter, without making it: those of what is returned. All others stay as they are. If
    // change_all would throw, so does this. It takes memory for all class numbers.
    template <class Changes> std::vector<class_ref> reach(const Changes &changes)
    {
        std::size_t room = 2 * std::size_t{class_count()}, place = 0;
        std::unique_ptr<bool[]> reached(new bool[room]());
        std::uint32_t answer =
            msg_reach(&at->handle, pointer<msg_change>(changes), std::size(changes), reached.get(), room, &place);
        listed(answer, place);
        std::vector<class_ref> found;
        for (std::size_t slot = 0; slot < room; slot++)
            if (reached[slot]) found.push_back({static_cast<std::uint32_t>(slot / 2), slot % 2 == 1});
        return found;
    }
    std::vector<class_ref> reach(std::initializer_list<msg_change> changes)
    {
        return reach<std::initializer_list<msg_change>>(changes);
    }

    // The lookup after all changes, which the sender has then seen, and notes. The sender is of this runtime.
    std::uint32_t fill(sender &of, class_ref receiver, std::uint32_t selector);
    // The sender has then seen all changes.
    void meet(sender &of);
    // As meet. By calling it you promise that the sender's thread runs, and keeps, nothing it found before.
    void rest(sender &of);

private:
    friend class runtime;
    friend class sender;
    explicit locked(std::shared_ptr<inner::shared> of) : at(std::move(of)), held(at->lock) {}

    static void listed(std::uint32_t answer, std::size_t place)
    {
        if (answer == MSG_CLOSED) throw fault(answer);
        if (answer != MSG_DONE) throw fault(answer, place);
    }
    template <class Number> Number told(std::uint32_t (*call)(msg_runtime *, Number *))
    {
        Number number = 0;
        must(call(&at->handle, &number));
        return number;
    }
    // All that a call writes, in an array as long as the call asks for.
    template <class Row, class Call> static std::vector<Row> shown(Call call)
    {
        std::vector<Row> rows;
        std::size_t count = 0;
        while (true) {
            std::uint32_t answer = call(rows.data(), rows.size(), &count);
            if (answer == MSG_NO_ROOM) {
                rows.resize(count); // nothing was written
                continue;
            }
            must(answer);
            return rows;
        }
    }
    // By reference: the call whose answer this is writes what it finds.
    static std::optional<class_ref> there(std::uint32_t answer, const msg_class &found)
    {
        if (answer == MSG_NONE) return std::nullopt;
        must(answer);
        return class_ref{found.number, found.meta};
    }
    // Never NULL, also of an empty list.
    template <class Row, class Rows> static const Row *pointer(const Rows &rows)
    {
        static const Row none{};
        return std::size(rows) ? std::data(rows) : &none;
    }

    std::shared_ptr<inner::shared> at;
    std::unique_lock<std::mutex> held;
};

// A runtime. `runtime.lock()` gives what may be asked and changed; it may be called by any thread.
class runtime {
public:
    explicit runtime(const msg_config &config = {}) : at(std::make_shared<inner::shared>())
    {
        must(msg_open(&at->handle, &config));
        must(msg_words(&at->handle, &at->words));
    }
    ~runtime() { close(); }
    runtime(runtime &&) noexcept = default;
    runtime &operator=(runtime &&other) noexcept
    {
        if (this != &other) close();
        at = std::move(other.at);
        return *this;
    }

    locked lock() { return locked(mine()); }
    // What is found after all changes; notes nothing. 0 is forwarding.
    std::uint32_t lookup(class_ref of, std::uint32_t selector) { return lock().lookup(of, selector); }
    // Closed: its memory goes with its last sender. Its senders find what they have noted, and else throw.
    void close() noexcept
    {
        if (!at) return;
        std::lock_guard<std::mutex> held(at->lock);
        msg_close(&at->handle);
    }

private:
    friend class sender;
    const std::shared_ptr<inner::shared> &mine() const
    {
        if (!at) throw fault(MSG_CLOSED); // moved from
        return at;
    }
    std::shared_ptr<inner::shared> at;
};

// What one thread looks methods up by. It notes what it finds in a cache of its own; what is cached lies in the cache
// that all senders share. It may be moved to another thread; two threads are never in one at a time.
class sender {
public:
    explicit sender(const runtime &of) : at(of.mine()), own(new msg_sender())
    {
        std::lock_guard<std::mutex> held(at->lock);
        must(msg_sender_open(&at->handle, own.get()));
    }
    ~sender() { close(); }
    sender(sender &&) noexcept = default;
    sender &operator=(sender &&other) noexcept
    {
        if (this != &other) close();
        at = std::move(other.at);
        own = std::move(other.own);
        return *this;
    }

    // Returns the implementation of a method, or 0 if there is none. It sees every change that had returned when the
    // call began.
    std::uint32_t find(class_ref of, std::uint32_t selector)
    {
        std::uint32_t slot = static_cast<std::uint32_t>(of.slot());
        std::uint32_t noted = is_open() ? msg_recall_inline(own.get(), at->words, slot, selector) : 0;
        return noted && of.has_slot() ? noted : find_called(of, selector);
    }
    // The same by calls, as msg_find: a probe, and after a miss a fill under the lock.
    std::uint32_t find_called(class_ref of, std::uint32_t selector)
    {
        std::uint32_t imp = 0;
        shared();
        std::uint32_t answer = msg_probe(own.get(), of.number, of.meta, selector, &imp);
        if (answer == MSG_MISSED) {
            std::lock_guard<std::mutex> held(at->lock);
            answer = msg_fill(&at->handle, own.get(), of.number, of.meta, selector, &imp);
        }
        must(answer);
        return imp;
    }
    // Several as one, as msg_find_all: all at one version, which the sender has then seen. A fault has the place of
    // the lookup that isn't asked.
    template <class Lookups> std::vector<std::uint32_t> find_all(const Lookups &lookups)
    {
        std::size_t count = std::size(lookups), place = 0;
        std::vector<std::uint32_t> imps(count + 1); // never NULL
        const msg_lookup_row *rows = locked::pointer<msg_lookup_row>(lookups);
        shared();
        std::uint32_t answer = msg_probe_all(own.get(), rows, count, imps.data(), count, &place);
        if (answer == MSG_MISSED) {
            std::lock_guard<std::mutex> held(at->lock);
            answer = msg_fill_all(&at->handle, own.get(), rows, count, imps.data(), count, &place);
        }
        locked::listed(answer, place);
        imps.resize(count);
        return imps;
    }
    std::vector<std::uint32_t> find_all(std::initializer_list<msg_lookup_row> lookups)
    {
        return find_all<std::initializer_list<msg_lookup_row>>(lookups);
    }
    // Noted or cached, at what the sender has then seen; or nothing, and then ask locked::fill.
    std::optional<std::uint32_t> probe(class_ref of, std::uint32_t selector)
    {
        std::uint32_t imp = 0;
        shared();
        std::uint32_t answer = msg_probe(own.get(), of.number, of.meta, selector, &imp);
        if (answer == MSG_MISSED) return std::nullopt;
        must(answer);
        return imp;
    }
    // Returns what was noted after `since` changes or more: 0 if nothing was, or for forwarding.
    std::uint32_t recall(class_ref of, std::uint32_t selector, std::uint64_t since) const
    {
        return own ? static_cast<std::uint32_t>(msg_recall(own.get(), of.slot(), selector, since)) : 0;
    }
    // What the first note at the place of a key_of says since the stamp of its class, without a call: 0 if it says
    // nothing, or for forwarding. Then the second one may say it, which find looks at, too.
    std::uint32_t recall_key(std::uint64_t key) const
    {
        return is_open() ? msg_recall_key(own.get(), at->words, key) : 0;
    }
    // Whether that note says that no method is found.
    bool recalls_none(class_ref of, std::uint32_t selector) const
    {
        return is_open() && of.has_slot() && msg_recall_none_key(own.get(), at->words, key_of(of, selector));
    }
    static std::uint64_t key_of(class_ref of, std::uint32_t selector)
    {
        return of.has_slot() ? msg_key(static_cast<std::uint32_t>(of.slot()), selector) : 0;
    }
    // How many changes there are, which the sender has then seen.
    std::uint64_t refresh()
    {
        std::uint64_t count = 0;
        shared();
        must(msg_refresh(own.get(), &count));
        return count;
    }
    // No change after so many has affected the class reference. From a change of it until its next fill (a find that
    // misses makes one) it is 2^64 - 1: then nothing noted counts. The sender has then seen all changes.
    std::uint64_t stamp(class_ref of)
    {
        std::uint64_t count = 0;
        shared();
        must(msg_stamp(own.get(), of.number, of.meta, &count));
        return count;
    }
    void close() noexcept
    {
        if (!own) return;
        std::lock_guard<std::mutex> held(at->lock);
        msg_sender_close(&at->handle, own.get());
    }

private:
    friend class locked;
    bool is_open() const { return own && own->open; } // and then the words are there
    inner::shared &shared() const
    {
        if (!own) throw fault(MSG_CLOSED); // moved from
        return *at;
    }
    std::shared_ptr<inner::shared> at;
    std::unique_ptr<msg_sender> own;
};

inline std::uint32_t locked::fill(sender &of, class_ref receiver, std::uint32_t selector)
{
    if (of.at != at) throw std::invalid_argument("the sender is of another runtime");
    std::uint32_t imp = 0;
    must(msg_fill(&at->handle, of.own.get(), receiver.number, receiver.meta, selector, &imp));
    return imp;
}

inline void locked::meet(sender &of)
{
    if (of.at != at) throw std::invalid_argument("the sender is of another runtime");
    must(msg_meet(&at->handle, of.own.get()));
}

inline void locked::rest(sender &of)
{
    if (of.at != at) throw std::invalid_argument("the sender is of another runtime");
    must(msg_rest(&at->handle, of.own.get()));
}

// Texts of any bytes with numbers, from 1 in the order in which they first came. As a container of the standard library:
// one thread at a time.
class texts {
public:
    texts() { must(msg_texts_open(&handle)); }
    ~texts() { close(); }
    texts(texts &&other) noexcept : handle(std::exchange(other.handle, none)) {}
    texts &operator=(texts &&other) noexcept
    {
        std::swap(handle, other.handle);
        return *this;
    }

    // Its number: of a text that is new the next.
    std::uint32_t intern(std::string_view text)
    {
        std::uint32_t number = 0;
        must(msg_texts_intern(&handle, bytes(text), text.size(), &number));
        return number;
    }
    std::optional<std::uint32_t> find(std::string_view text)
    {
        std::uint32_t number = 0;
        return there(msg_texts_find(&handle, bytes(text), text.size(), &number), number);
    }
    std::optional<std::string> text(std::uint32_t number)
    {
        std::size_t length = 0;
        std::string found(1, 0); // never without a place
        if (!there(msg_texts_text(&handle, number, place(found), 0, &length), number)) return std::nullopt;
        found.resize(length + 1);
        must(msg_texts_text(&handle, number, place(found), length, &length));
        found.resize(length);
        return found;
    }
    // How many arguments a selector takes that is named so.
    std::optional<std::size_t> colons(std::uint32_t number)
    {
        std::size_t count = 0;
        return there(msg_texts_colons(&handle, number, &count), count);
    }
    void close() noexcept { msg_texts_close(&handle); }

private:
    static constexpr msg_texts none = MSG_TEXTS_INIT;
    template <class Found> static std::optional<Found> there(std::uint32_t answer, const Found &found)
    {
        if (answer == MSG_NONE) return std::nullopt;
        must(answer);
        return found;
    }
    static std::uint8_t *place(std::string &text) { return reinterpret_cast<std::uint8_t *>(text.data()); }
    // Never NULL, also of no text.
    static const std::uint8_t *bytes(std::string_view text)
    {
        return reinterpret_cast<const std::uint8_t *>(text.empty() ? "" : text.data());
    }
    msg_texts handle = MSG_TEXTS_INIT;
};

// Of the first type of a text, as GCC's @encode spells types: its size and alignment in bytes, and the place behind it.
struct encoded_type { std::uint64_t size, align; std::size_t end; };

inline encoded_type first_type(std::string_view text) noexcept
{
    encoded_type it{};
    auto bytes = reinterpret_cast<const std::uint8_t *>(text.data());
    it.end = msg_type_first(bytes, text.size(), &it.size, &it.align);
    return it;
}

// A member of a structure: where its type is in the text, and its bits from the first to before the last.
struct encoded_member { std::size_t begin, end; std::uint64_t first, last, align; };

// Returns the first member of a text. `before` is the bit at which the members before it end, and 0
// for a union.
inline std::optional<encoded_member> next_member(std::string_view text, std::uint64_t before) noexcept
{
    encoded_member it{};
    auto bytes = reinterpret_cast<const std::uint8_t *>(text.data());
    auto answer = msg_type_member(bytes, text.size(), before, &it.begin, &it.end, &it.first, &it.last, &it.align);
    return answer ? std::nullopt : std::optional(it);
}

} // namespace msg

#endif
