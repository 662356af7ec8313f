"""Two classes, two threads that send, and a method that is swapped beside them."""
import threading

import yeldrost

SHAPE, SQUARE = 0, 1  # my classes, from 0
AREA, SIDES = 1, 2  # my selectors, from 1
SQUARES = yeldrost.instances_of(SQUARE)
# My implementations, from 1; the first is what is called if nobody has the method.
BODIES = [lambda side: None, lambda side: 4, lambda side: side * side, lambda side: 2 * side * side]


def send(sender, selector, side):
    return BODIES[sender.find(SQUARES, selector) or 0](side)


def work(runtime, swapped):
    with runtime.sender() as sender:  # one for each thread
        while not swapped.is_set():
            assert send(sender, AREA, 3) in (9, 18)
        assert send(sender, AREA, 3) == 18  # the swap had returned


def main():
    with yeldrost.Runtime() as runtime:
        runtime.make_root_class(SHAPE)
        runtime.make_class(SQUARE, SHAPE)
        runtime.add(yeldrost.instances_of(SHAPE), SIDES, 1)
        runtime.add(SQUARES, AREA, 2)
        with runtime.sender() as sender:
            print(f"area {send(sender, AREA, 3)}, sides {send(sender, SIDES, 3)}")
            swapped = threading.Event()
            threads = [threading.Thread(target=work, args=(runtime, swapped)) for _ in range(2)]
            for it in threads:
                it.start()
            runtime.replace(SQUARES, AREA, 3)
            swapped.set()
            for it in threads:
                it.join()
            print(f"area {send(sender, AREA, 3)} after the swap, in each thread")
        try:
            runtime.make_root_class(SQUARE)
        except yeldrost.DuplicateClassError as error:
            print(f"fault {error.number}: {error}")


main()
