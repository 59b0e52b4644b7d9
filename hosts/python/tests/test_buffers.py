"""What is lent: buffers of any type and length, what of them is written, and that each loan ends with the call, so that an
error that is kept blocks nobody."""
import array
import ctypes
import mmap
import tempfile
import unittest

from dossier import Answer, GradeAnswer, Group, Label, Measure, MigrationAnswer, Path, Refused, Store, raw
from dossier.lent import change
from support import GROUP, LISTING, P10, P10_30, SENT, example, kept, label, output, path

# Each call on bytes, with what it is given beside the store; the buffers among it are lent anew each time.
CALLS = {
    raw.view: (16, b"", output()),
    raw.view_xml: (16, b"", output()),
    raw.insert: (0, P10_30, 2, b"SLEEVE"),
    raw.update: (0, P10, 2, b"SLEEVE"),
    raw.delete: (0, P10),
    raw.grade: (16, P10, P10_30, 3),
    raw.insert_xml: (0, P10, SENT),
    raw.migrate: (),
}


def mapped(contents):
    """An mmap with these bytes."""
    lent = mmap.mmap(-1, len(contents) or 1)
    lent[: len(contents)] = contents
    return lent


def pinned(contents):
    """A memoryview of these bytes."""
    return memoryview(bytearray(contents))


def given_up(lent):
    """Ends what a buffer is: BufferError if somebody still has it lent."""
    if isinstance(lent, mmap.mmap):
        lent.close()
    elif isinstance(lent, memoryview):
        lent.release()
    else:
        lent.append(0)


class Loans(unittest.TestCase):
    """Each loan ends with the call, whatever comes of it."""

    def lent_anew(self, make, arguments):
        """The arguments of a call, with the buffers among them lent anew."""
        return [make(one) if isinstance(one, (bytes, bytearray)) else one for one in arguments]

    def test_refused(self):
        for make in bytearray, mapped, pinned:
            for call, arguments in CALLS.items():
                lent = make(b"\xff" * raw.STORE_BYTES)
                others = self.lent_anew(make, arguments)
                if call is raw.migrate:
                    lent = make(b"\xff")
                error = kept(lambda: call(lent, *others).outcome())
                self.assertIsInstance(error, Refused)
                for one in [lent, *others]:
                    if not isinstance(one, int):
                        given_up(one)
                self.assertIsNotNone(error.__traceback__)

    def test_refused_by_a_typed_call(self):
        for make in bytearray, mapped, pinned:
            lent, room = make(b"\xff" * raw.STORE_BYTES), make(output())
            store, ten = Store(lent), Path.parse("10:0")
            errors = [
                kept(store.view, label(0), ten, room), kept(store.view_xml, label(0), ten, room),
                kept(store.insert, label(0), ten, Group()), kept(store.update, label(0), ten, Group()),
                kept(store.delete, label(0), ten), kept(store.grade, label(0), ten, ten, 3),
                kept(store.insert_xml, label(0), ten, ""), kept(store.view, label(0), ten, b""),
            ]
            given_up(lent)
            given_up(room)
            self.assertEqual({type(error) for error in errors}, {Refused, TypeError})

    def test_wrong_numbers(self):
        for make in bytearray, mapped, pinned:
            for call, arguments in CALLS.items():
                for number, expected in (7.5, TypeError), (2**32, ValueError):
                    numbers = [at for at, one in enumerate(arguments) if isinstance(one, int)]
                    for at in numbers:
                        lent, others = make(bytes(raw.STORE_BYTES)), self.lent_anew(make, arguments)
                        others[at] = number
                        error = kept(call, lent, *others)
                        self.assertIs(type(error), expected)
                        for one in [lent, *others]:
                            if one is not number and not isinstance(one, int):
                                given_up(one)

    def test_wrong_buffers(self):
        for make in bytearray, mapped, pinned:
            for call, arguments in CALLS.items():
                for at in [at for at, one in enumerate(arguments) if not isinstance(one, int)]:
                    for wrong, expected in ("text", TypeError), (memoryview(b"12345678")[::2], ValueError):
                        lent, others = make(bytes(raw.STORE_BYTES)), self.lent_anew(make, arguments)
                        others[at] = wrong
                        error = kept(call, lent, *others)
                        self.assertIs(type(error), expected)
                        for one in [lent, *others]:
                            if one is not wrong and not isinstance(one, int):
                                given_up(one)

    def test_buffers_that_are_not_taken(self):
        for store, words in (lambda lent: lent[::2], "is in pieces"), (lambda lent: lent.toreadonly(), "cannot be written"):
            for call, arguments in CALLS.items():
                buffer = bytearray(raw.STORE_BYTES)
                whole = memoryview(buffer)
                lent = store(whole)
                if words == "is in pieces" or call not in (raw.view, raw.view_xml, raw.grade):
                    error = kept(call, lent, *arguments)
                    self.assertIn(words, str(error))
                lent.release()
                whole.release()
                given_up(buffer)

    def test_overlap(self):
        for call, arguments in CALLS.items():
            for at in [at for at, one in enumerate(arguments) if isinstance(one, (bytes, bytearray)) and call is not raw.grade]:
                lent, others = bytearray(raw.STORE_BYTES), list(arguments)
                inside = memoryview(lent)
                others[at] = inside[4:7]
                is_read_alone = call in (raw.view, raw.view_xml) and at != 2
                if not is_read_alone:
                    error = kept(call, lent, *others)
                    self.assertIn("overlaps another buffer of the call", str(error))
                others[at].release()
                inside.release()
                given_up(lent)


class Types(unittest.TestCase):
    """Buffers of any type of items."""

    def test_stores(self):
        store = bytes(example().buffer)
        words = array.array("I", store)
        rows = memoryview(bytearray(store)).cast("B", [32, raw.PARTITION_BYTES])
        bare = (ctypes.c_uint8 * len(store)).from_buffer_copy(store)
        for lent in words, rows, bare, mapped(store), memoryview(words):
            self.assertEqual(raw.insert(lent, 0, P10_30, *GROUP), Answer(0, 1))
            self.assertEqual(raw.delete(lent, 0, P10), Answer(0, 2))
            self.assertEqual(bytes(Store(lent)), store)
            self.assertEqual(Store(lent).view(label(16)).listing, LISTING)

    def test_outputs(self):
        for room in array.array("I", bytes(64)), (ctypes.c_uint16 * 32)(), memoryview(bytearray(64)).cast("B", [8, 8]):
            self.assertEqual(example().view(label(16), output=room).listing, LISTING)
            self.assertEqual(memoryview(room).tobytes(), LISTING + bytes(24))

    def test_buffers_in_pieces(self):
        pieces = memoryview(bytearray(2 * raw.STORE_BYTES))[::2]
        for call, arguments in CALLS.items():
            with self.assertRaisesRegex(ValueError, "the store is in pieces"):
                call(pieces, *arguments)
        with self.assertRaisesRegex(ValueError, "the buffer is in pieces"):
            Store(pieces)
        with self.assertRaisesRegex(ValueError, "the output is in pieces"):
            raw.view(bytes(raw.STORE_BYTES), 0, b"", memoryview(bytearray(64))[::2])

    def test_empty_buffers(self):
        for call, arguments in CALLS.items():
            answer = call(bytearray(), *arguments)
            self.assertEqual(answer.number, 1)
        self.assertEqual(raw.insert(bytearray(raw.STORE_BYTES), 0, bytearray(), 0, bytearray()), Answer(4, 0))
        self.assertEqual(raw.view(bytes(raw.STORE_BYTES), 0, bytearray(), bytearray()), Answer(10, 0))


class ReadOnly(unittest.TestCase):
    """A buffer that is read-only is a store that can be viewed and graded."""

    def test_views(self):
        store = bytes(example().buffer)
        for lent in store, memoryview(bytearray(store)).toreadonly():
            read = Store(lent)
            self.assertEqual(read.view(label(16)).listing, LISTING)
            self.assertEqual(read.view_xml(label(0)), '<dossier subject="0"></dossier>')
            sleeve = path((10, 0), (20, 16))
            self.assertEqual(read.grade(label(16), sleeve, sleeve, 3), (0, 0))

    def test_what_writes(self):
        store, ten = Store(bytes(raw.STORE_BYTES)), Path.parse("10:0")
        calls = [
            lambda: store.insert(label(0), ten, Group()), lambda: store.update(label(0), ten, Group()),
            lambda: store.delete(label(0), ten), lambda: store.insert_xml(label(0), ten, ""), store.migrate,
        ]
        for call in calls:
            with self.assertRaisesRegex(TypeError, "^the store cannot be written: it is bytes, which is read-only$"):
                call()
        for call in store.view, store.view_xml:
            with self.assertRaisesRegex(TypeError, "^the output cannot be written: it is bytes, which is read-only$"):
                call(label(0), output=bytes(64))

    def test_read_only_view_of_the_store(self):
        store = Store()
        store.insert(label(0), path((10, 0)), Group())
        inside = memoryview(store.buffer).toreadonly()
        self.assertEqual(raw.delete(store.buffer, 0, inside[5:8]), Answer(0, 1))


class Lengths(unittest.TestCase):
    """What of a buffer is copied and written."""

    def test_huge_store_is_not_copied(self):
        with tempfile.TemporaryFile() as file:
            file.truncate(2**36)
            for access in mmap.ACCESS_READ, mmap.ACCESS_WRITE:
                with mmap.mmap(file.fileno(), 2**36, access=access) as lent:
                    self.assertEqual(raw.view(lent, 0, b"", bytearray(64)), Answer(1, 0))
                    self.assertEqual(raw.grade(lent, 0, b"", b"", 1), GradeAnswer(1, 0, 0))
            with mmap.mmap(file.fileno(), 2**36) as lent:
                self.assertEqual(raw.insert(lent, 0, P10, *GROUP), Answer(1, 0))
                self.assertEqual(raw.migrate(lent), MigrationAnswer(1, 0))

    def test_long_output(self):
        for call, most in (raw.view, raw.LISTING_BYTES_MAX), (raw.view_xml, raw.XML_BYTES_MAX):
            for length in most - 1, most, most + 1, 2 * most:
                room, short = output(length), output(64)
                self.assertEqual(call(bytes(raw.STORE_BYTES), 0, b"", room), call(bytes(raw.STORE_BYTES), 0, b"", short))
                self.assertEqual(room, short + output(length - 64))

    def test_the_subjects_partition_alone_is_written(self):
        def scribble(copy, length, subject):
            """A call that is done, or refused for subject 9, and writes where none does."""
            ctypes.memset(copy, 7, length)
            return Answer(subject // 9, 0)

        for subject, written in (3, [3]), (9, []), (0, [0]):
            lent = bytearray(raw.STORE_BYTES)
            with memoryview(lent) as view:
                change(scribble, view, subject)
            parts = [lent[at : at + raw.PARTITION_BYTES] for at in range(0, raw.STORE_BYTES, raw.PARTITION_BYTES)]
            self.assertEqual([number for number, part in enumerate(parts) if part != bytes(raw.PARTITION_BYTES)], written)
            self.assertTrue(all(parts[number] == b"\x07" * raw.PARTITION_BYTES for number in written))

    def test_full_views(self):
        store = Store()
        for number in range(32):
            for name in range(1, 33):
                store.insert(Label.from_number(number), path((name, number)), Measure(-(2**31)))
        self.assertEqual((len(store.view(label(31))), store.view_xml(label(31)).count("<e")), (1024, 1024))


if __name__ == "__main__":
    unittest.main()
