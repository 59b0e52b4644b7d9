"""What is promised of threads: calls on one Store are carried out whole, one after the other; different Stores run at the same
time, without the interpreter's lock; and calls on one buffer that nobody orders do nothing worse than to lose changes."""
import os
import signal
import threading
import time
import unittest
from unittest import mock

from dossier import Group, Measure, MigrationAnswer, Path, Refused, Store, Text, raw
from support import GROUP, label, sent_group

# How many threads insert.
THREADS = 8


def together(functions):
    """Runs functions in threads that begin at once, and waits for all: the errors that they raised."""
    gate, errors = threading.Barrier(len(functions)), []

    def begin(function):
        """Waits for the others, and keeps an error."""
        gate.wait()
        try:
            function()
        except BaseException as error:
            errors.append(error)

    threads = [threading.Thread(target=begin, args=[function]) for function in functions]
    for thread in threads:
        thread.start()
    for thread in threads:
        thread.join()
    return errors


class OneStore(unittest.TestCase):
    """Calls of many threads on one Store."""

    def inserting(self, store, turn):
        """Inserts four elements of each label, names of its own."""
        for number in range(32):
            for name in range(4 * turn + 1, 4 * turn + 5):
                store.insert(label(number), Path.root().child(name, label(number)), Measure(name))

    def viewing(self, store, lengths, is_done):
        """Views until all is inserted, and keeps how many lines there were."""
        while not is_done.is_set():
            view = store.view(label(31))
            assert [line.value for line in view] == [Measure(line.name) for line in view]
            lengths.append(len(view))

    def test_nothing_is_lost(self):
        store, is_done, lengths = Store(), threading.Event(), []
        watching = [threading.Thread(target=self.viewing, args=[store, lengths, is_done]) for _ in range(2)]
        for thread in watching:
            thread.start()
        errors = together([lambda turn=turn: self.inserting(store, turn) for turn in range(THREADS)])
        is_done.set()
        for thread in watching:
            thread.join()
        self.assertEqual(errors, [])
        self.assertEqual(len(store.view(label(31))), 1024)
        self.assertTrue(lengths)
        self.assertLessEqual(max(lengths), 1024)

    def test_each_call_is_whole(self):
        store, steps, counts = Store(), Path.parse("1:0/2:0/3:0/4:0/5:0/6:0"), []

        def changing():
            """Inserts an element with five missing groups and deletes all of them, and counts what is seen."""
            for _ in range(50):
                for call, arguments in (store.insert, (steps, Group())), (store.delete, (steps.prefix(1),)):
                    try:
                        call(label(0), *arguments)
                    except Refused:
                        pass
                counts.append(len(store.view(label(0))))

        self.assertEqual(together([changing] * 4), [])
        self.assertLessEqual(set(counts), {0, 6})

    def test_each_call_waits(self):
        store, ten = Store(), Path.parse("10:0")
        calls = [
            lambda: store.view(label(0)), lambda: store.view_xml(label(0)), lambda: store.insert(label(0), ten, Group()),
            lambda: store.update(label(0), ten, Group()), lambda: store.grade(label(0), ten, ten, 1),
            lambda: store.delete(label(0), ten), lambda: store.insert_xml(label(0), ten, ""), store.migrate,
            lambda: bytes(store),
        ]
        for call in calls:
            ended = threading.Event()
            thread = threading.Thread(target=lambda: (together([call]), ended.set()))
            with store._turns.taken():
                thread.start()
                self.assertFalse(ended.wait(0.02))
            thread.join()
            self.assertTrue(ended.is_set())

    def test_call_within_a_call(self):
        store, steps = Store(), Path.parse("10:0")
        with mock.patch("dossier.raw.migrate", side_effect=lambda buffer: store.view(label(0))):
            self.assertRaisesRegex(RuntimeError, "is within a call on this store already", store.migrate)

        class Text17(Text):
            """A text that looks at the store when it is asked for its bytes."""

            def to_bytes(self):
                """The text's bytes."""
                return store.view(label(0)).listing[:4]

        class Sizes:
            """A number of sizes that looks at the store."""

            def __index__(self):
                """How many lines 0 sees."""
                return len(store.view(label(0)))

        store.insert(label(0), steps, Text17("-"))
        self.assertEqual(store.view(label(0))[0].value, Text("VIEW"))
        store.update(label(0), steps, Measure(7))
        self.assertEqual(store.grade(label(0), steps, steps, Sizes()), (0, 0))

    def test_forked_within_a_call(self):
        store, is_within, may_end = Store(), threading.Event(), threading.Event()

        def waiting(buffer):
            """Stands for a call that takes long."""
            is_within.set()
            may_end.wait()
            return MigrationAnswer(0, 0)

        with mock.patch("dossier.raw.migrate", side_effect=waiting):
            thread = threading.Thread(target=store.migrate)
            thread.start()
            is_within.wait()
            child = os.fork()
            if child == 0:
                signal.alarm(20)
                os._exit(len(store.view(label(0))))
            self.addCleanup(thread.join)
            self.addCleanup(may_end.set)
            self.assertEqual(os.waitpid(child, 0), (child, 0))
            self.assertFalse(may_end.is_set())


class DifferentStores(unittest.TestCase):
    """Calls on different Stores run at the same time."""

    def test_without_the_interpreters_lock(self):
        text = sent_group(1, 0, *range(1, 65536))
        span, ends = [], []

        def taking():
            """Takes in a style that has no room, which takes long, and keeps when that began and ended."""
            span.append(time.monotonic())
            with self.assertRaises(Refused):
                Store().insert_xml(label(0), Path.root(), text)
            span.append(time.monotonic())

        long_call = threading.Thread(target=taking)
        long_call.start()
        store = Store()
        while long_call.is_alive():
            store.view(label(0))
            ends.append(time.monotonic())
        begin, end = span
        self.assertGreater(end - begin, 0.1)
        quarter = (end - begin) / 4
        self.assertGreater(sum(begin + quarter < moment < end - quarter for moment in ends), 10)


class OneBuffer(unittest.TestCase):
    """Calls on one buffer that nobody orders: changes may be lost, and a call may see a store that is half changed, no more."""

    def test_nothing_worse(self):
        buffer, numbers = bytearray(raw.STORE_BYTES), []

        def changing():
            """Inserts and deletes."""
            for turn in range(300):
                numbers.append(raw.insert(buffer, 0, bytes([turn % 40 + 1, 0, 0]), *GROUP).number)
                numbers.append(raw.delete(buffer, 0, bytes([turn % 7 + 1, 0, 0])).number)

        def viewing():
            """Views."""
            room = bytearray(raw.LISTING_BYTES_MAX)
            for _ in range(300):
                numbers.append(raw.view(buffer, 0, b"", room).number)

        self.assertEqual(together([changing] * 4 + [viewing] * 2), [])
        self.assertLessEqual(set(numbers), set(range(15)))
        self.assertEqual(len(buffer), raw.STORE_BYTES)
        self.assertEqual(buffer[raw.PARTITION_BYTES :], bytes(31 * raw.PARTITION_BYTES))


if __name__ == "__main__":
    unittest.main()
