"""Each call of the header through the package, each kind of fault, and threads beside changes, with
and without the interpreter's lock held in calls."""
import _thread
import contextlib
import gc
import signal
import subprocess
import sys
import threading
import time
import unittest
from unittest import mock

import yeldrost
from yeldrost import MISSED, Change, class_itself, instances_of

ROOT, CHILD, OTHER, LATER = range(4)
VALUE, NAME, NEW, TAKE = range(1, 5)
ROOTS, CHILDREN, CHILD_ITSELF = instances_of(ROOT), instances_of(CHILD), class_itself(CHILD)


def run(work):
    """Does it in a thread, to its end."""
    thread = threading.Thread(target=work)
    thread.start()
    thread.join()


# A daemon thread has the lock, or is in a call, as the interpreter ends.
ENDING = """
import threading, time, yeldrost
runtime = yeldrost.Runtime(holds_gil={})
sender = runtime.sender()
def stay():
    with runtime.held():
        held.set()
        time.sleep(100)
held = threading.Event()
threading.Thread(target=stay, daemon=True).start()
held.wait()
"""


@contextlib.contextmanager
def interrupted(handler):
    """A handler of a signal runs again and again meanwhile."""
    before = signal.signal(signal.SIGALRM, lambda *_: handler())
    signal.setitimer(signal.ITIMER_REAL, 0.0001, 0.0001)
    try:
        yield
    finally:
        signal.setitimer(signal.ITIMER_REAL, 0)
        signal.signal(signal.SIGALRM, before)


class Calls(unittest.TestCase):
    holds_gil = True

    def opened(self, **config):
        runtime = yeldrost.Runtime(holds_gil=self.holds_gil, **config)
        runtime.make_root_class(ROOT)
        runtime.make_class(CHILD, ROOT)
        runtime.attach(ROOT, [(VALUE, 1), (NAME, 2)], [(NEW, 4)])
        runtime.add(CHILDREN, NAME, 3)
        return runtime

    def test_questions(self):
        with self.opened() as runtime:
            self.assertEqual((16384, 4), (runtime.class_count, runtime.change_count))
            found = [
                (CHILDREN, VALUE, 1),
                (CHILDREN, NAME, 3),
                (ROOTS, NAME, 2),
                (CHILD_ITSELF, NEW, 4),
            ]
            found += [
                (CHILD_ITSELF, VALUE, 1),
                (CHILDREN, TAKE, None),
                (instances_of(OTHER), VALUE, None),
            ]
            for of, selector, imp in found:
                self.assertEqual(imp, runtime.lookup(of, selector))
            self.assertEqual(
                (ROOTS, None), (runtime.superclass(CHILDREN), runtime.superclass(ROOTS))
            )
            self.assertEqual(ROOTS, runtime.superclass(class_itself(ROOT)))
            self.assertEqual(
                (ROOTS, None), (runtime.holder(CHILDREN, VALUE), runtime.holder(CHILDREN, TAKE))
            )
            self.assertEqual(
                ([(NAME, 3)], []), (runtime.methods(CHILDREN), runtime.methods(CHILD_ITSELF))
            )
            self.assertEqual([ROOT, CHILD], runtime.classes())
            self.assertEqual(
                ([CHILD], []), (runtime.classes_below(ROOT), runtime.classes_below(OTHER))
            )
            self.assertRaises(yeldrost.NoClassError, runtime.methods, instances_of(16384))
            report = runtime.report()
            self.assertEqual(
                (0, [0] * 9, 0), (report["fills"], report["no_array"], report["refused_senders"])
            )
            self.assertRaises(yeldrost.NoClassError, runtime.lookup, instances_of(16384), VALUE)
            self.assertRaises(yeldrost.NoSelectorError, runtime.lookup, CHILDREN, 0)
            self.assertRaises(yeldrost.OutOfRangeError, runtime.lookup, CHILDREN, 2**32 + 1)
            self.assertRaises(OverflowError, runtime.add, instances_of(-1), VALUE, 1)
            with runtime.sender() as sender:
                self.assertIs(MISSED, sender.recall(CHILDREN, VALUE, 2**64 - 1))
                for count in (2**64, -1):
                    self.assertRaisesRegex(
                        yeldrost.OutOfRangeError, "64", sender.recall, CHILDREN, VALUE, count
                    )

    def test_changes(self):
        with self.opened() as runtime:
            runtime.replace(CHILDREN, VALUE, 5)
            runtime.set_imp(CHILDREN, NAME, 6)
            runtime.exchange(CHILDREN, VALUE, ROOTS, NAME)
            self.assertEqual((2, 5), (runtime.lookup(CHILDREN, VALUE), runtime.lookup(ROOTS, NAME)))
            runtime.attach(CHILD)
            runtime.attach(CHILD, class_methods=[(TAKE, 7)])
            self.assertEqual(7, runtime.lookup(CHILD_ITSELF, TAKE))
            with runtime.held():
                count = runtime.change_count
                self.assertRaises(
                    yeldrost.NoSuchClassError, runtime.add, instances_of(OTHER), VALUE, 1
                )
                self.assertRaises(yeldrost.NoSuchClassError, runtime.make_class, OTHER, LATER)
                self.assertRaises(yeldrost.NoSuchImpError, runtime.replace, CHILDREN, VALUE, 0)
                self.assertRaises(yeldrost.NoSuchImpError, runtime.attach, CHILD, [(VALUE, 0)])
                self.assertRaises(yeldrost.MethodPresentError, runtime.add, CHILDREN, NAME, 1)
                self.assertRaises(yeldrost.NoMethodError, runtime.set_imp, CHILDREN, 99, 1)
                self.assertRaises(yeldrost.DuplicateClassError, runtime.make_root_class, ROOT)
                self.assertEqual(count, runtime.change_count)

    def test_lists_of_changes(self):
        others = instances_of(OTHER)
        changes = [
            Change.make_class(OTHER, CHILD),
            Change.add(others, TAKE, 7),
            Change.replace(CHILDREN, VALUE, 5),
            Change.set_imp(ROOTS, NAME, 6),
        ]
        changes += [
            Change.exchange(CHILDREN, NAME, CHILD_ITSELF, NEW),
            Change.make_root_class(LATER),
        ]
        with self.opened() as runtime, runtime.sender() as sender:
            self.assertEqual(1, sender.find(CHILDREN, VALUE))
            runtime.change_all(changes)
            found = [
                (others, TAKE, 7),
                (CHILDREN, VALUE, 5),
                (ROOTS, NAME, 6),
                (CHILDREN, NAME, 4),
                (CHILD_ITSELF, NEW, 3),
            ]
            for of, selector, imp in found:
                self.assertEqual(imp, sender.find(of, selector))
            runtime.change_all([])
            self.assertEqual(
                (5, 5, 5),
                (
                    runtime.change_count,
                    sender.find(CHILDREN, VALUE),
                    sender.recall(CHILDREN, VALUE, 5),
                ),
            )

    def test_the_way_back(self):
        with self.opened() as runtime, runtime.sender() as sender:
            changes = [Change.set_imp(CHILDREN, VALUE, 5), Change.replace(CHILDREN, NAME, 6)]
            before = [sender.find(CHILDREN, VALUE), sender.find(CHILDREN, NAME)]
            back = runtime.change_all_with_undo(changes)
            self.assertEqual([5, 6], [sender.find(CHILDREN, VALUE), sender.find(CHILDREN, NAME)])
            runtime.change_all(back)
            self.assertEqual(before, [sender.find(CHILDREN, VALUE), sender.find(CHILDREN, NAME)])
            self.assertEqual(
                [Change.remove(CHILDREN, 99)],
                runtime.change_all_with_undo([Change.add(CHILDREN, 99, 5)]),
            )
            self.assertEqual([], runtime.change_all_with_undo([]))

    def test_a_class_that_comes_and_goes(self):
        others = instances_of(OTHER)
        with self.opened() as runtime, runtime.sender() as sender:
            runtime.make_class(OTHER, CHILD)
            runtime.attach(OTHER, [(selector, 7) for selector in range(90, 99)])
            self.assertRaises(yeldrost.ClassInUseError, runtime.dispose_class, CHILD)
            back = runtime.change_all_with_undo([Change.dispose_class(OTHER)])
            self.assertEqual((10, Change.make_class(OTHER, CHILD)), (len(back), back[0]))
            self.assertIsNone(sender.find(others, 95))
            runtime.change_all(back)
            self.assertEqual(7, sender.find(others, 95))
            runtime.change_all([Change.cover(others, 95, 8)])
            self.assertEqual(8, sender.find(others, 95))
            runtime.remove(others, 95)
            self.assertEqual(7, sender.find(others, 95))
            runtime.dispose_class(OTHER)
            self.assertRaises(yeldrost.NoSuchClassError, runtime.add, others, 95, 7)

    def test_what_is_reached(self):
        with self.opened() as runtime:
            count = runtime.change_count
            self.assertEqual([CHILDREN], runtime.reach([Change.replace(CHILDREN, VALUE, 5)]))
            self.assertEqual(
                [CHILDREN, instances_of(OTHER), class_itself(OTHER)],
                runtime.reach([Change.make_class(OTHER, CHILD), Change.add(CHILDREN, 99, 5)]),
            )
            with self.assertRaises(yeldrost.NoMethodError) as caught:
                runtime.reach([Change.replace(CHILDREN, VALUE, 5), Change.set_imp(CHILDREN, 99, 5)])
            self.assertEqual((1, count), (caught.exception.place, runtime.change_count))

    def test_a_refused_list_changes_nothing(self):
        first = Change.replace(CHILDREN, VALUE, 5)
        refused = [
            (yeldrost.NoSuchClassError, 1, [first, Change.replace(instances_of(LATER), NAME, 5)]),
            (yeldrost.BadChangeError, 2, [first, first, Change(10, CHILD)]),
            (yeldrost.NoSelectorError, 0, [Change.add(CHILDREN, 0, 5)]),
        ]
        with self.opened() as runtime, runtime.sender() as sender:
            sender.find(CHILDREN, VALUE)
            for kind, place, changes in refused:
                with self.assertRaises(kind) as caught:
                    runtime.change_all(changes)
                self.assertEqual(place, caught.exception.place)
            self.assertRaises(
                OverflowError, runtime.change_all, [first, Change.add(CHILDREN, TAKE, 2**32)]
            )
            self.assertEqual(
                (4, 1, 1),
                (
                    runtime.change_count,
                    sender.find(CHILDREN, VALUE),
                    sender.recall(CHILDREN, VALUE, 4),
                ),
            )
            runtime.close()
            for changes in ([first], []):
                with self.assertRaises(yeldrost.ClosedError) as caught:
                    runtime.change_all(changes)
                self.assertIsNone(caught.exception.place)

    def test_faults(self):
        with self.opened() as runtime:
            with self.assertRaises(yeldrost.Error) as caught:
                runtime.make_root_class(ROOT)
        self.assertEqual(
            (8, "the class is made already"), (caught.exception.number, str(caught.exception))
        )
        for number, text in yeldrost._header.FAULTS.values():
            error = yeldrost._errors.of(number)
            self.assertEqual((number, text), (error.number, str(error)))
            self.assertIsInstance(error, yeldrost.Error)

    def test_what_is_no_class(self):
        with self.opened() as runtime, runtime.sender() as sender:
            for of in ("Png", (1,), 1, None):
                self.assertRaisesRegex(TypeError, "a ClassRef, or a pair", sender.find, of, VALUE)
                self.assertRaisesRegex(TypeError, "a ClassRef, or a pair", runtime.add, of, TAKE, 1)
            self.assertRaises(TypeError, sender.find, CHILDREN, "area")
            self.assertEqual(3, sender.find((CHILD, False), NAME))
            sender.find(class_itself(OTHER), NEW)
            for recalled in (MISSED, 4):  # as of a metaclass, and not of another class's slot
                self.assertEqual(recalled, sender.recall((CHILD, 3), NEW, 0))
                self.assertEqual(4, sender.find((CHILD, 3), NEW))

    def test_what_is_shown(self):
        with self.opened() as runtime, runtime.sender() as sender:
            self.assertEqual("<yeldrost.Runtime of 2 classes, after 4 changes>", repr(runtime))
            self.assertNotIn("closed", repr(sender))
        self.assertEqual(
            ("<yeldrost.Runtime, closed>", True), (repr(runtime), "closed" in repr(sender))
        )

    def test_configs(self):
        with self.opened(classes=10, senders=2) as runtime:
            self.assertEqual(10, runtime.class_count)
            with runtime.sender(), runtime.sender():
                self.assertRaises(yeldrost.NoSenderError, runtime.sender)
                self.assertEqual(1, runtime.report()["refused_senders"])
            with runtime.sender():
                pass
        self.assertRaises(yeldrost.BadConfigError, yeldrost.Runtime, classes=2_000_000)
        self.assertRaises(TypeError, yeldrost.Runtime, arrays=(1, 2, 3))

    def test_senders(self):
        with self.opened() as runtime, runtime.sender() as sender:
            self.assertEqual(
                (MISSED, MISSED), (sender.probe(ROOTS, VALUE), sender.recall(CHILDREN, VALUE, 4))
            )
            self.assertEqual(1, sender.fill(CHILDREN, VALUE))
            self.assertEqual(
                (1, 1), (sender.probe(CHILDREN, VALUE), sender.recall(CHILDREN, VALUE, 4))
            )
            self.assertEqual(
                (4, None), (sender.find(CHILD_ITSELF, NEW), sender.find(CHILDREN, TAKE))
            )
            self.assertEqual(
                (None, None), (sender.probe(CHILDREN, TAKE), sender.recall(CHILDREN, TAKE, 4))
            )
            runtime.replace(CHILDREN, VALUE, 5)
            self.assertIs(MISSED, sender.recall(CHILDREN, VALUE, sender.stamp(CHILDREN)))
            self.assertEqual(5, sender.find(CHILDREN, VALUE))
            runtime.replace(CHILDREN, VALUE, 6)
            self.assertEqual((6, 6), (sender.refresh(), sender.find(CHILDREN, VALUE)))
            sender.meet()
            self.assertEqual(4, runtime.seen_by_all(), "a meeting is no rest")
            sender.rest()
            self.assertEqual(6, runtime.seen_by_all())
            self.assertRaises(yeldrost.NoClassError, sender.find, instances_of(2**32 - 1), VALUE)
            self.assertRaises(yeldrost.NoSelectorError, sender.find, CHILDREN, 0)
            self.assertRaises(yeldrost.DuplicateClassError, runtime.make_root_class, ROOT)
            self.assertEqual(6, sender.recall(CHILDREN, VALUE, 6), "a refused change is no change")

    def test_several_as_one(self):
        with self.opened() as runtime, runtime.sender() as sender:
            three = [(CHILDREN, NAME), (CHILD_ITSELF, NEW), (CHILDREN, TAKE)]
            self.assertEqual(
                ([3, 4, None], [3, 4, None]), (sender.find_all(three), sender.find_all(three))
            )
            runtime.replace(CHILDREN, NAME, 8)
            self.assertEqual(([8, 4, None], []), (sender.find_all(three), sender.find_all([])))
            with self.assertRaises(yeldrost.NoSelectorError) as refused:
                sender.find_all([(CHILDREN, NAME), (CHILDREN, 0)])
            self.assertEqual(1, refused.exception.place)

    def test_closing(self):
        runtime = self.opened()
        sender = runtime.sender()
        sender.find(CHILDREN, VALUE)
        runtime.close()
        self.assertRaises(yeldrost.ClosedError, runtime.close)
        self.assertRaises(yeldrost.ClosedError, runtime.lookup, CHILDREN, VALUE)
        self.assertRaises(yeldrost.ClosedError, runtime.sender)
        self.assertEqual(1, sender.find(CHILDREN, VALUE))
        self.assertRaises(yeldrost.ClosedError, sender.find, CHILDREN, TAKE)
        sender.close()
        self.assertRaises(yeldrost.ClosedError, sender.close)
        self.assertRaises(yeldrost.ClosedError, sender.refresh)

    def test_senders_that_are_dropped_give_their_number_back(self):
        with self.opened(senders=1) as runtime:
            for _ in range(3):
                sender = runtime.sender()
                sender.find(CHILDREN, VALUE)
                del sender
                gc.collect()

    def test_another_thread(self):
        with self.opened() as runtime:
            sender, found = runtime.sender(), []

            def other():
                try:
                    sender.find(CHILDREN, VALUE)
                except RuntimeError:
                    sender.adopt()
                    found.append(sender.find(CHILDREN, VALUE))

            thread = threading.Thread(target=other)
            thread.start()
            thread.join()
            self.assertEqual([1], found)
            self.assertRaises(yeldrost.WrongThreadError, sender.find, CHILDREN, VALUE)

    def test_a_later_thread_of_the_same_ident(self):
        opened, idents, found = [], set(), []

        def open_one():
            opened.extend((runtime.sender(), threading.get_ident()))

        def other():
            idents.add(threading.get_ident())
            with self.assertRaises(yeldrost.WrongThreadError):
                opened[0].find(CHILDREN, VALUE)
            found.append("refused")
            together.wait()  # so that they have each stack that was left

        together = threading.Barrier(20)
        others = [threading.Thread(target=other) for _ in range(20)]
        with self.opened() as runtime:
            run(open_one)
            for it in others:
                it.start()
            for it in others:
                it.join()
        self.assertIn(opened[1], idents, "no ident was used again")
        self.assertEqual(["refused"] * 20, found)

    def test_who_closes_a_sender(self):
        def leave():
            with self.assertRaises(yeldrost.WrongThreadError):
                sender.__exit__(None, None, None)
            found.append(sender._finalizer.alive)

        def close():
            sender.adopt()
            sender.close()

        with self.opened(senders=1) as runtime:
            found = []
            with runtime.sender() as sender:
                run(leave)
                self.assertEqual(([True], 1), (found, sender.find(CHILDREN, VALUE)))
                run(close)
            with runtime.held(), runtime.sender() as sender:
                sender.close()

    def test_a_sender_that_its_thread_closes_as_it_ends(self):
        class Holder:
            def __init__(self):
                self.sender = runtime.sender()

            def __del__(self):
                imp = self.sender.find(CHILDREN, VALUE)
                self.sender.close()
                found.append(imp)

        def work():
            own.holder = Holder()

        with self.opened(senders=1) as runtime:
            own, found = threading.local(), []
            run(work)
            self.assertEqual([1], found)
            runtime.sender().close()

    def test_a_thread_that_threading_did_not_start(self):
        ended = threading.Event()

        def work():
            with runtime.sender() as sender:
                found.append(sender.find(CHILDREN, VALUE))
            ended.set()

        with self.opened(senders=1) as runtime:
            found = []
            _thread.start_new_thread(work, ())
            self.assertTrue(ended.wait(60))
            self.assertEqual([1], found)

    def test_threads_beside_changes(self):
        over, wrong, all_began = threading.Event(), [], threading.Barrier(4)

        def work():
            with runtime.sender() as sender:
                all_began.wait()
                while not over.is_set():
                    if sender.find(CHILDREN, NAME) not in (3, 8):
                        wrong.append("between")
                if sender.find(CHILDREN, NAME) != 8:
                    wrong.append("after")

        with self.opened() as runtime:
            threads = [threading.Thread(target=work) for _ in range(3)]
            for it in threads:
                it.start()
            all_began.wait()
            for at in range(1001):
                runtime.replace(CHILDREN, NAME, 3 if at % 2 else 8)
            over.set()
            for it in threads:
                it.join()
        self.assertEqual([], wrong)

    def test_handlers_of_signals(self):
        with self.opened() as runtime, runtime.sender() as sender:
            with interrupted(lambda: sender.find(CHILDREN, NAME)):
                end = time.monotonic() + 0.5
                while time.monotonic() < end:
                    self.assertEqual(1, sender.find(CHILDREN, VALUE))
                    self.assertEqual(1, sender.fill(CHILDREN, VALUE))
        texts = yeldrost.Texts(self.holds_gil)
        with interrupted(lambda: texts.find(b"value")):
            for _ in range(20_000):
                self.assertEqual(1, texts.intern(b"value"))

    def test_a_close_that_a_handler_ends(self):
        def raises(*_):
            raise KeyboardInterrupt

        with self.opened(senders=1) as runtime:
            sender, closes = runtime.sender(), yeldrost._close_sender
            yeldrost._close_sender = raises
            try:
                self.assertRaises(KeyboardInterrupt, sender.close)
            finally:
                yeldrost._close_sender = closes
            sender.close()
            runtime.sender().close()

    def test_an_open_that_a_handler_ends(self):
        def raises(*_):
            raise KeyboardInterrupt

        def noting(of, call, *words):
            return at_collection(of, lambda: closed.append(call(*words)))

        closed, at_collection = [], yeldrost._at_collection
        ended = mock.patch.object(yeldrost._errors, "must", raises)
        noted = mock.patch.object(yeldrost, "_at_collection", noting)
        with ended, noted:
            for opens in (yeldrost.Runtime, yeldrost.Texts):
                self.assertRaises(KeyboardInterrupt, opens, holds_gil=self.holds_gil)
                gc.collect()
        self.assertEqual([0, 0], closed, "each was open, and is closed")

    def test_the_end_of_the_interpreter(self):
        program = ENDING.format(self.holds_gil)
        self.assertEqual(0, subprocess.run([sys.executable, "-c", program], timeout=60).returncode)

    def test_texts(self):
        with yeldrost.Texts(self.holds_gil) as texts:
            for text, number in [(b"value", 1), (b"setValue:forKey:", 2), (b"", 3), (b"value", 1)]:
                self.assertEqual(
                    (number, number, text),
                    (texts.intern(text), texts.find(text), texts.text(number)),
                )
            self.assertEqual(
                (None, None, None), (texts.find(b"valu"), texts.text(0), texts.text(4))
            )
            self.assertEqual((0, 2, None), (texts.colons(1), texts.colons(2), texts.colons(4)))
        self.assertRaises(yeldrost.ClosedError, texts.intern, b"value")

    def test_types(self):
        self.assertEqual((4, 2, 10), yeldrost.first_type(b"{inner=cs}8@0"))
        self.assertEqual((0, 1, 0), yeldrost.first_type(b""))
        self.assertEqual((3, 4, 16, 32, 2), yeldrost.next_member(b'"s"s}', 8))
        self.assertIsNone(yeldrost.next_member(b"}", 8))
        for bit in (2**64 + 8, -1):
            self.assertRaises(yeldrost.OutOfRangeError, yeldrost.next_member, b'"s"s}', bit)


class WithoutTheLock(Calls):
    holds_gil = False


if __name__ == "__main__":
    unittest.main()
