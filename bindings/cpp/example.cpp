// Two classes, two threads that send, and a method that is swapped beside them.
//
//     c++ -std=c++17 example.cpp $(pkg-config --cflags --libs yeldrost) -o example && ./example
#include <msg_runtime.hpp>
#include <atomic>
#include <cstdio>
#include <thread>

enum { SHAPE, SQUARE };         // my classes, from 0
enum { AREA = 1, SIDES };       // my selectors, from 1
using method = int (*)(int side);
static int forward(int) { return -1; } // what is found where nobody has the method
static int four(int) { return 4; }
static int square(int side) { return side * side; }
static int doubled(int side) { return 2 * side * side; }
static constexpr method methods[] = {forward, four, square, doubled}; // my implementations, from 1

int main()
{
    msg::runtime runtime;
    {
        msg::locked now = runtime.lock();
        now.make_root_class(SHAPE);
        now.make_class(SQUARE, SHAPE);
        now.add(msg::instances_of(SHAPE), SIDES, 1);
        now.add(msg::instances_of(SQUARE), AREA, 2);
    }
    msg::sender sender(runtime);
    auto send = [](msg::sender &by, std::uint32_t selector, int side) {
        return methods[by.find(msg::instances_of(SQUARE), selector)](side);
    };
    std::printf("area %d, sides %d\n", send(sender, AREA, 3), send(sender, SIDES, 3));

    std::atomic<bool> swapped{false};
    auto work = [&] {
        msg::sender own(runtime); // one for each thread
        while (!swapped) {
            int area = send(own, AREA, 3);
            if (area != 9 && area != 18) std::abort();
        }
        if (send(own, AREA, 3) != 18) std::abort(); // the swap had returned
    };
    std::thread one(work), two(work);
    runtime.lock().replace(msg::instances_of(SQUARE), AREA, 3);
    swapped = true;
    one.join();
    two.join();
    std::printf("area %d after the swap, in each thread\n", send(sender, AREA, 3));
    try {
        runtime.lock().make_root_class(SQUARE);
    } catch (const msg::fault &fault) {
        std::printf("fault %u: %s\n", fault.number(), fault.what());
    }
    return 0;
}
