"""The calls through the module: document 01's example, every refusal, what is left untouched, what an update keeps, XML read
back, grades, styles taken in as XML, missing groups, the order of versions, and the migration of stores written before.
hosts/python/run runs it.
"""
import copy
import doctest
import errno
import multiprocessing
import pickle
import subprocess
import sys
import unittest
import xml.etree.ElementTree
from decimal import Decimal
from fractions import Fraction

import dossier
from dossier import raw
from dossier import Answer, Compartment, Grade, GradeAnswer, Group, Kind, Label, Level, Line, Mask, Measure, MigrationAnswer
from dossier import NotAStore, Path, Refusal, Refused, Step, Store, StoreChanged, StoreFileError, StoreInUse, StoreNotSynced
from dossier import Text, UnexpectedAnswer, Unreadable, View
from dossier.listing import read_ascii
from support import GROUP, LISTING, P10, P10_16, P10_20, P10_30, ROOT, SENT, example, label, output, path, sent, sent_group

# Texts that are not in form; @ stands for what is between a name and a kind: label 16 and PRESENT.
NOT_IN_FORM = [
    '<e3@"G"><e1@"G"></e1><e1@"G"></e1></e3>',
    '<e3@"G"><e1@"G"></e1><e2@"G"></e2><e1@"M">7</e1></e3>',
    '<e3 label="16" preserve="REMOVED" kind="G"></e3>',
    '<e3 label="16" preserve="REMOVED" kind="-">x</e3>',
    '<e3@"-"></e3>',
    '<e3 label="32" preserve="PRESENT" kind="G"></e3>',
    '<e0@"G"></e0>',
    '<e65536@"G"></e65536>',
    '<e03@"G"></e03>',
    '<e3 label="016" preserve="PRESENT" kind="G"></e3>',
    '<e3@"M"></e3>',
    '<e3@"M">-0</e3>',
    '<e3@"M">+5</e3>',
    '<e3@"M">007</e3>',
    '<e3@"M">2147483648</e3>',
    '<e3@"M">-2147483649</e3>',
    '<e4@"T"></e4>',
    '<e4@"T">a>b</e4>',
    '<e4@"T">&quot;</e4>',
    '<e4@"T">&#65;</e4>',
    '<e4@"T">SEVENTEEN LETTERS</e4>',
    '<e4@"T"><![CDATA[a]]></e4>',
    '<e4@"T">\t</e4>',
    '<e4@"T">ä</e4>',
    '<e4@"G">x</e4>',
    '<e4@"G"><e1@"G"></e1>x</e4>',
    '<e4@"G"></e4>\n',
    ' <e4@"G"></e4>',
    '<e4@"G"/>',
    "<e4@'G'></e4>",
    '<e4@"G" ></e4>',
    '<e4@"G"></e4 >',
    '<e4  label="16" preserve="PRESENT" kind="G"></e4>',
    '<e4 preserve="PRESENT" label="16" kind="G"></e4>',
    '<e4@"G"></e5>',
    '<e4@"G"></e04>',
    '<e4@"G"></e4',
    '<!-- --><e4@"G"></e4>',
    '<?xml version="1.0"?><e4@"G"></e4>',
    '<dossier subject="16"><e4@"G"></e4></dossier>',
    "",
    '<e4@"G"></e4><e5@"G"></e5>',
    '<e60 label="0" preserve="PRESENT" kind="G"></e60> ',
]

# Texts in form with another label than 16, or with an element that is removed.
NOT_OWN = [
    '<e3@"G"><e1@"G"></e1><e1 label="17" preserve="PRESENT" kind="G"></e1></e3>',
    '<e3@"G"><e1 label="16" preserve="REMOVED" kind="-"></e1></e3>',
    '<e3 label="0" preserve="PRESENT" kind="G"></e3>',
    '<e60@"G"><e61 label="0" preserve="PRESENT" kind="G"></e61></e60>',
    '<e60 label="16" preserve="REMOVED" kind="-"></e60>',
    '<e60 label="16" preserve="REMOVED" kind="-"><e61@"M">7</e61></e60>',
]

# A store file that was written before the path order changed, and what the reference in tools makes of it.
BEFORE = (ROOT / "tests" / "before-order.store").read_bytes()
AFTER = (ROOT / "tests" / "after-order.store").read_bytes()

# The partitions of that file that hold versions of one name at two levels.
MOVED = [9, 16, 24, 31]

# What is no whole number, though some of it equals one or could be cut to one.
NOT_WHOLE = [7.5, 1.0, float("nan"), Decimal(1), Fraction(1), 1j, "1", b"1", None]


def worked():
    """The store of the worked examples of XML: 10:0 and below it 7:0 and 20:16, 5:16 below 20:16, and 11:16; 0 deletes 10:0."""
    store = Store()
    store.insert(label(0), path((10, 0)), Group())
    store.insert(label(16), path((10, 0), (20, 16)), Measure(-150))
    store.insert(label(16), path((10, 0), (20, 16), (5, 16)), Text('a<b & "c">d'))
    store.insert(label(16), path((11, 16)), Text("&"))
    store.insert(label(0), path((10, 0), (7, 0)), Text("SLEEVE"))
    store.delete(label(0), path((10, 0)))
    return store


def nested(*values):
    """A store with 10:0, 10:0/20:0 and 10:0/20:0/30:0 of these values, and 10:0/20:0/25:16, a measure."""
    store = Store()
    steps = path((10, 0), (20, 0), (30, 0))
    for depth, value in enumerate(values, 1):
        store.insert(label(0), steps[:depth], value)
    store.insert(label(16), path((10, 0), (20, 0), (25, 16)), Measure(-150))
    return store


def measured():
    """The store of the worked examples of grades: seven measures, the group 6:0, the removed 8:0 and the text 10:0."""
    store = Store()
    for name, number in enumerate((1000, 1025, 990, -(2**31), 2**31 - 1), 1):
        store.insert(label(0), path((name, 0)), Measure(number))
    store.insert(label(0), path((6, 0)), Group())
    store.insert(label(16), path((7, 16)), Measure(5))
    store.insert(label(0), path((8, 0)), Group())
    store.insert(label(16), path((8, 0), (9, 16)), Measure(6))
    store.delete(label(0), path((8, 0)))
    store.insert(label(0), path((10, 0)), Text("SLEEVE"))
    return store


def partition(*paths):
    """The bytes of a partition with texts at these paths, in the order in which they are given."""
    slots = []
    for steps in paths:
        slot = bytearray(40)
        slot[0] = len(steps)
        for at, (name, number) in enumerate(steps):
            slot[1 + 2 * at : 3 + 2 * at] = name.to_bytes(2, "little")
            slot[13 + at] = number
        slot[19:23] = b"\2\2ab"
        slots.append(bytes(slot))
    return (bytes([len(paths), 0, 0, 0]) + b"".join(slots)).ljust(raw.PARTITION_BYTES, b"\0")


def part(buffer, number):
    """The bytes of a label's partition in a store."""
    return bytes(buffer[raw.PARTITION_BYTES * number : raw.PARTITION_BYTES * (number + 1)])


def written_before():
    """The store of the worked example of the migration, written before; partition 5 is broken."""
    parts = {0: [[(10, 0)], [(11, 0)]], 8: [[(10, 8)]]}
    parts[9] = [[(10, 0), (1, 9)], [(10, 8), (1, 9)], [(10, 9)], [(10, 9), (1, 9)]]
    store = Store(bytearray(b"".join(partition(*parts.get(number, [])) for number in range(32))))
    store.buffer[raw.PARTITION_BYTES * 5 + 2] = 1
    return store


def mixed():
    """A store with every character in texts, versions of one name, and six steps of which the first four are removed."""
    store = worked()
    characters = "".join(map(chr, range(32, 127)))
    for at in range(0, len(characters), 16):
        store.insert(label(0), path((1 + at, 0)), Text(characters[at : at + 16]))
    for number in range(32):
        store.insert(label(number), path((7, number)), Measure(number - 2**31))
    deep = [(65535, 0), (65534, 0), (3, 8), (4, 8), (5, 24), (6, 31)]
    for depth, (_, number) in enumerate(deep, 1):
        store.insert(label(number), path(*deep[:depth]), Text("&<>&<>&<>&<>&<>&"))
    store.delete(label(0), path(*deep[:1]))
    store.delete(label(8), path(*deep[:3]))
    return store


def with_style():
    """A store with 10:0, a group."""
    store = Store()
    store.insert(label(0), path((10, 0)), Group())
    return store


def delete_absent(name):
    """A delete that is refused by 7, for another process."""
    return Store().delete(label(0), path((name, 0)))


def unexpected(number):
    """An answer that no call gives, for another process."""
    return Answer(number, 1).outcome()


def copies(value):
    """What comes of a value, pickled by each protocol from 2 on, or copied."""
    pickled = [pickle.loads(pickle.dumps(value, protocol)) for protocol in range(2, pickle.HIGHEST_PROTOCOL + 1)]
    return pickled + [copy.copy(value), copy.deepcopy(value)]


class Index:
    """A whole number that is no int."""

    def __init__(self, number):
        self.number = number

    def __index__(self):
        """The number."""
        return self.number


class CallTest(unittest.TestCase):
    """Checks that the tests share."""

    def assert_refused(self, number, call, store, *arguments):
        """A call on bytes is refused by a number, with count 0, and leaves the store."""
        before = bytes(store)
        self.assertEqual(call(store, *arguments), Answer(number, 0))
        self.assertEqual(bytes(store), before)

    def assert_view_refused(self, number, store, subject, path, room=64):
        """A view, as lines and as XML, is refused by a number and leaves the store and the output."""
        for call in raw.view, raw.view_xml:
            space = output(room)
            self.assert_refused(number, call, store, subject, path, space)
            self.assertEqual(space, output(room))

    def assert_grade_refused(self, number, store, subject, base, top, n):
        """A grade is refused by a number, with step 0 and remainder 0, and leaves the store."""
        before = bytes(store)
        self.assertEqual(raw.grade(store, subject, base, top, n), GradeAnswer(number, 0, 0))
        self.assertEqual(bytes(store), before)

    def assert_all_refused(self, number, store, subject, path):
        """Each call is refused by a number."""
        self.assert_view_refused(number, store, subject, path)
        self.assert_grade_refused(number, store, subject, path, path, 1)
        self.assert_writers_refused(number, store, subject, path)
        self.assert_refused(number, raw.insert_xml, store, subject, path, SENT)

    def assert_writers_refused(self, number, store, subject, path):
        """Insert, update and delete are refused by a number."""
        self.assert_refused(number, raw.insert, store, subject, path, *GROUP)
        self.assert_refused(number, raw.update, store, subject, path, *GROUP)
        self.assert_refused(number, raw.delete, store, subject, path)

    def assert_intake_refused(self, number, store, subject, parent, text):
        """An XML intake is refused by a number, with count 0, and leaves the store."""
        self.assert_refused(number, raw.insert_xml, store, subject, parent, text.encode())

    def assert_raises_refusal(self, refusal, call, *arguments):
        """A typed call raises a refusal with its number and zeros behind it."""
        with self.assertRaises(Refused) as raised:
            call(*arguments)
        self.assertIs(raised.exception.refusal, refusal)
        answer = raised.exception.answer
        self.assertEqual(answer, type(answer)(int(refusal), *(0 for _ in answer[1:])))


class Done(CallTest):
    """Calls that are done."""

    def test_example_fits_40_bytes(self):
        view = example().view(label(16), output=output(40))
        self.assertEqual(view.listing, LISTING)
        removed = Line(Path(path((10, 0))), None)
        live = Line(Path(path((10, 0), (20, 16))), Measure(-150))
        self.assertEqual(list(view), [removed, live])
        fields = [(line.depth, line.name, line.label, line.live, line.kind) for line in view]
        self.assertEqual(fields, [(1, 10, label(0), False, None), (2, 20, label(16), True, Kind.MEASURE)])

    def test_example_in_39_bytes_is_refused_by_10(self):
        space = output(39)
        self.assert_raises_refusal(Refusal.OUTPUT_SHORT, example().view, label(16), (), space)
        self.assertEqual(space, output(39))

    def test_bytes_behind_a_listing_keep_their_contents(self):
        store = example()
        before = bytes(store.buffer)
        space = output()
        self.assertEqual(store.view(label(0), output=space).listing, b"VIEW\t0\t0\n")
        self.assertEqual(space, b"VIEW\t0\t0\n" + output(55))
        self.assertEqual(bytes(store.buffer), before)

    def test_removed_element_comes_again(self):
        store = example()
        self.assertEqual(store.insert(label(0), path((10, 0)), Text("SLEEVE")), 0)
        values = [line.value for line in store.view(label(16), path((10, 0)))]
        self.assertEqual(values, [Text("SLEEVE"), Measure(-150)])

    def seen(self, store, subject):
        """What a subject sees of all, with a space for a tab and a semicolon for the end of a line."""
        return bytes(store.view(label(subject)).listing).decode().replace("\t", " ").replace("\n", ";")

    def test_insert_makes_the_missing_groups(self):
        store = Store()
        self.assertEqual(store.insert(label(0), path((10, 0), (20, 0), (30, 0)), Measure(1)), 2)
        self.assertEqual(self.seen(store, 0), "VIEW 0 3;1 10 0 P G -;2 20 0 P G -;3 30 0 P M 1;")
        self.assert_raises_refusal(Refusal.LIVE, store.insert, label(0), path((10, 0), (20, 0), (30, 0)), Measure(1))
        self.assertEqual(store.insert(label(16), path((10, 0), (21, 16), (22, 16), (23, 16)), Measure(1)), 2)
        self.assertEqual(store.insert(label(16), path((12, 16)), Measure(1)), 0)
        six = path((12, 16), (1, 16), (2, 16), (3, 16), (4, 16), (5, 16))
        self.assertEqual(store.insert(label(16), six, Measure(1)), 4)
        self.assertEqual(store.delete(label(16), path((12, 16))), 6)
        self.assertEqual(store.insert(label(16), six, Measure(1)), 5)
        self.assertEqual(store.delete(label(0), path((10, 0))), 3)
        self.assertEqual(store.insert(label(16), path((10, 0), (21, 16), (40, 16)), Measure(1)), 0)
        self.assertEqual(store.insert(label(0), path((10, 0), (50, 0), (51, 0)), Measure(1)), 2)
        self.assertEqual(self.seen(store, 0), "VIEW 0 3;1 10 0 P G -;2 50 0 P G -;3 51 0 P M 1;")

    def test_update_keeps_what_is_below(self):
        store = nested(Group(), Group(), Group())
        self.assertEqual(store.update(label(0), path((10, 0)), Text("PIECE")), 1)
        self.assertEqual(self.seen(store, 0), "VIEW 0 3;1 10 0 P T PIECE;2 20 0 P G -;3 30 0 P G -;")
        self.assertEqual(store.update(label(0), path((10, 0), (20, 0)), Measure(5)), 1)
        self.assertEqual(self.seen(store, 0), "VIEW 0 3;1 10 0 P T PIECE;2 20 0 P M 5;3 30 0 P G -;")
        self.assertEqual(self.seen(store, 16), "VIEW 16 4;1 10 0 P T PIECE;2 20 0 P M 5;3 25 16 P M -150;3 30 0 P G -;")
        self.assertEqual(store.buffer, nested(Text("PIECE"), Measure(5), Group()).buffer)
        self.assert_refused(7, raw.update, store.buffer, 0, b"\x0b\0\0", *GROUP)

    def test_update_leaves_nothing_of_the_old_value(self):
        store = nested(Group(), Group(), Group())
        for value in Text("SIXTEEN LETTERS."), Text("A"), Measure(-(2**31)), Group():
            self.assertEqual(store.update(label(0), path((10, 0), (20, 0)), value), 1)
            self.assertEqual(store.buffer, nested(Group(), value, Group()).buffer)

    def test_counts(self):
        store = nested(Group(), Group(), Group())
        self.assertEqual(store.update(label(0), path((10, 0), (20, 0)), Measure(1)), 1)
        self.assertEqual(store.delete(label(0), path((10, 0))), 3)
        self.assertEqual(self.seen(store, 0), "VIEW 0 0;")
        self.assertEqual(self.seen(store, 16), "VIEW 16 3;1 10 0 R - -;2 20 0 R - -;3 25 16 P M -150;")
        self.assertEqual(store.delete(label(16), path((10, 0), (20, 0), (25, 16))), 1)
        self.assertEqual(store.buffer, Store().buffer)

    def test_lent_buffer_is_written_in_place(self):
        buffer = bytearray(raw.STORE_BYTES + 2)
        example(memoryview(buffer)[1:-1])
        self.assertEqual(buffer, b"\0" + example().buffer + b"\0")

    def test_view_of_bytes(self):
        space = output(40)
        self.assertEqual(raw.view(bytes(example().buffer), 16, b"", space), Answer(0, 40))
        self.assertEqual(space, LISTING)

    def test_smallest_measure(self):
        store = Store()
        store.insert(label(0), path((10, 0)), Measure(-(2**31)))
        view = store.view(label(0))
        self.assertEqual(view.listing, b"VIEW\t0\t1\n1\t10\t0\tP\tM\t-2147483648\n")
        self.assertEqual([line.value for line in view], [Measure(-(2**31))])


class Xml(CallTest):
    """Views as XML."""

    def assert_xml(self, store, subject, steps, elements, length):
        """A view has these elements and this length; an output of that length is enough, and one byte less is not."""
        expected = f'<dossier subject="{subject}">{elements}</dossier>'
        self.assertEqual(len(expected), length)
        self.assertEqual(store.view_xml(label(subject), path(*steps)), expected)
        space = output(length + 9)
        self.assertEqual(store.view_xml(label(subject), path(*steps), space), expected)
        self.assertEqual(space, expected.encode() + output(9))
        self.assertEqual(store.view_xml(label(subject), path(*steps), output(length)), expected)
        space = output(length - 1)
        self.assert_raises_refusal(Refusal.OUTPUT_SHORT, store.view_xml, label(subject), path(*steps), space)
        self.assertEqual(space, output(length - 1))

    def test_worked_examples(self):
        store = worked()
        before = bytes(store.buffer)
        e5 = '<e5 label="16" preserve="PRESENT" kind="T">a&lt;b &amp; "c"&gt;d</e5>'
        e20 = f'<e20 label="16" preserve="PRESENT" kind="M">-150{e5}</e20>'
        e10 = f'<e10 label="0" preserve="REMOVED" kind="-">{e20}</e10>'
        e11 = '<e11 label="16" preserve="PRESENT" kind="T">&amp;</e11>'
        self.assert_xml(store, 0, [], "", 31)
        self.assert_xml(store, 16, [], e10 + e11, 259)
        self.assert_xml(store, 16, [(10, 0)], e10, 204)
        self.assert_xml(store, 16, [(10, 0), (20, 16), (5, 16)], e5, 101)
        self.assert_xml(store, 16, [(11, 16)], e11, 87)
        self.assert_xml(store, 8, [], "", 31)
        self.assert_raises_refusal(Refusal.ABSENT, store.view_xml, label(16), path((9, 0)))
        self.assertEqual(bytes(store.buffer), before)

    def value(self, preserve, kind, text):
        """The value of a live element that was parsed, None for a removed one."""
        if (preserve, kind) == ("PRESENT", "M"):
            return Measure(int(text))
        if (preserve, kind) == ("PRESENT", "T"):
            return Text(text)
        self.assertIsNone(text)
        self.assertIn((preserve, kind), [("PRESENT", "G"), ("REMOVED", "-")])
        return Group() if kind == "G" else None

    def elements(self, inside, above):
        """The elements inside one that was parsed, below a path, in their order, as lines; no text stands behind an element."""
        for element in inside:
            self.assertEqual((list(element.attrib), element.tail), (["label", "preserve", "kind"], None))
            number, preserve, kind = element.attrib.values()
            at = above.child(int(element.tag[1:]), label(int(number)))
            yield Line(at, self.value(preserve, kind, element.text))
            yield from self.elements(element, at)

    def assert_read_back(self, store, subject, *steps):
        """A view's XML, parsed, has the elements of its listing."""
        parsed = xml.etree.ElementTree.fromstring(store.view_xml(label(subject), path(*steps)))
        self.assertEqual((parsed.tag, parsed.attrib, parsed.text), ("dossier", {"subject": str(subject)}, None))
        lines = list(store.view(label(subject), path(*steps)))
        self.assertEqual(list(self.elements(parsed, Path(path(*steps[:-1])))), lines)
        return len(lines)

    def test_read_back(self):
        store = mixed()
        for subject in range(32):
            self.assertGreaterEqual(self.assert_read_back(store, subject), 7)
        self.assertEqual(self.assert_read_back(store, 31, (65535, 0)), 6)
        self.assertEqual(self.assert_read_back(store, 31, (65535, 0), (65534, 0), (3, 8)), 4)
        self.assertEqual(self.assert_read_back(store, 24, (65535, 0), (65534, 0), (3, 8), (4, 8)), 2)
        self.assertEqual(self.assert_read_back(store, 31, (7, 31)), 1)
        self.assertEqual(self.assert_read_back(Store(), 31), 0)

    def test_view_of_bytes(self):
        space = output(40)
        self.assertEqual(raw.view_xml(bytes(example().buffer), 0, b"", space), Answer(0, 31))
        self.assertEqual(space, b'<dossier subject="0"></dossier>' + output(9))


class Grades(CallTest):
    """Even grades."""

    def test_worked_examples(self):
        store = measured()
        before = bytes(store.buffer)
        for subject, base, top, n, step, remainder in (
            (0, [(1, 0)], [(2, 0)], 4, 6, 1),
            (0, [(1, 0)], [(3, 0)], 3, -4, 2),
            (0, [(1, 0)], [(1, 0)], 64, 0, 0),
            (0, [(4, 0)], [(5, 0)], 1, 4294967295, 0),
            (0, [(5, 0)], [(4, 0)], 1, -4294967295, 0),
            (0, [(5, 0)], [(4, 0)], 64, -67108864, 1),
            (16, [(1, 0)], [(7, 16)], 2, -498, 1),
            (16, [(8, 0), (9, 16)], [(1, 0)], 7, 142, 0),
        ):
            grade = store.grade(label(subject), path(*base), path(*top), n)
            self.assertEqual(grade, Grade(step, remainder))
            self.assertEqual((grade.step, grade.remainder), (step, remainder))
        self.assertEqual(bytes(store.buffer), before)

    def test_every_number_of_sizes(self):
        store = Store()
        store.insert(label(0), path((1, 0)), Group())
        store.insert(label(0), path((2, 0)), Group())
        for low, high in (0, 1), (0, -1), (7, 100), (100, -29), (-64, 64), (-(2**31), 2**31 - 1), (2**31 - 1, -(2**31)):
            store.update(label(0), path((1, 0)), Measure(low))
            store.update(label(0), path((2, 0)), Measure(high))
            for n in range(1, 65):
                self.assertEqual(store.grade(label(0), path((1, 0)), path((2, 0)), n), divmod(high - low, n))

    def test_7_and_12(self):
        store = measured()
        absent, no_measure = Refusal.ABSENT, Refusal.NO_MEASURE
        for subject, base, top, refusal in (
            (0, [(1, 0)], [(99, 0)], absent),
            (0, [(6, 0)], [(99, 0)], absent),
            (0, [], [(99, 0)], absent),
            (0, [(1, 0)], [(7, 16)], absent),
            (0, [(1, 0)], [(8, 0)], absent),
            (0, [(1, 0)], [(6, 0)], no_measure),
            (0, [(1, 0)], [(10, 0)], no_measure),
            (0, [], [(1, 0)], no_measure),
            (0, [], [], no_measure),
            (16, [(8, 0)], [(1, 0)], no_measure),
        ):
            for one, two in (base, top), (top, base):
                self.assert_raises_refusal(refusal, store.grade, label(subject), path(*one), path(*two), 2)

    def test_11_sizes_on_all_their_bits(self):
        store = measured().buffer
        for n in 0, 65, 255, 256, 257, 320, 2**32 - 1:
            self.assert_grade_refused(11, store, 0, b"\1\0\0", b"\2\0\0", n)
            self.assert_grade_refused(11, store, 0, b"\1\0\0", b"\x63\0\0", n)
            self.assert_grade_refused(11, store, 0, b"", b"\6\0\0", n)
            self.assert_grade_refused(4, store, 0, b"\1\0\0", b"\1\0\x28", n)
            self.assert_raises_refusal(Refusal.SIZES, Store(store).grade, label(0), path((1, 0)), path((2, 0)), n)

    def test_buffers_that_are_only_read(self):
        store = measured().buffer
        inside = memoryview(store)
        for lent in store, bytes(store), inside:
            self.assertEqual(raw.grade(lent, 0, inside[5:8], inside[45:48], 4), GradeAnswer(0, 6, 1))
            self.assertEqual(raw.grade(lent, 0, inside[5:8], inside[5:8], 4), GradeAnswer(0, 0, 0))


class Intake(CallTest):
    """Styles taken in as XML."""

    def test_worked_examples(self):
        store = with_style()
        style, sleeve = path((10, 0)), path((10, 0), (20, 16), (2, 16))
        e9 = sent('<e9@"G"><e9@"G"><e9@"G"></e9></e9></e9>')
        self.assertEqual(store.insert_xml(label(16), style, sent('<e20@"G"><e3@"M">-150</e3><e2@"T">a &lt; b</e2></e20>')), 3)
        self.assertEqual(store.insert_xml(label(16), (), sent(f'<e1@"T">{"&amp;" * 16}</e1>')), 1)
        self.assertEqual(store.insert_xml(label(16), (), sent('<e3@"M">-2147483648</e3>')), 1)
        self.assertEqual(store.insert_xml(label(16), sleeve, e9), 3)
        self.assertEqual(store.insert_xml(label(17), (), sent_group(50, 17, *range(31, 0, -1))), 32)
        e20 = sent(f'<e20@"G"><e2@"T">a &lt; b{e9}</e2><e3@"M">-150</e3></e20>')
        self.assertEqual(store.view_xml(label(16), path((10, 0), (20, 16))), f'<dossier subject="16">{e20}</dossier>')
        e50 = sent_group(50, 17, *range(1, 32))
        self.assertEqual(store.view_xml(label(17), path((50, 17))), f'<dossier subject="17">{e50}</dossier>')

    def test_worked_refusals(self):
        store = with_style()
        store.insert_xml(label(16), path((10, 0)), sent('<e20@"G"><e2@"G"></e2></e20>'))
        store.insert_xml(label(17), (), sent_group(50, 17, *range(1, 32)))
        e4, six = sent_group(4, 16), path((1, 0), (2, 0), (3, 0), (4, 0), (5, 0), (6, 0))
        e9 = sent('<e9@"G"><e9@"G"><e9@"G"><e9@"G"></e9></e9></e9></e9>')
        for subject, parent, text, refusal in (
            (16, path((10, 0)), sent_group(20, 16), Refusal.LIVE),
            (16, (), sent(f'<e2@"T">{"&amp;" * 17}</e2>'), Refusal.FORM),
            (16, six, e4, Refusal.FORM),
            (16, path((10, 0), (20, 16), (2, 16)), e9, Refusal.FORM),
            (16, path((11, 0)), e4, Refusal.ABSENT),
            (16, path((11, 0)), sent_group(4, 0), Refusal.NOT_OWN),
            (0, path((10, 0), (20, 16)), sent_group(4, 0), Refusal.ABSENT),
            (16, path((0, 0)), "<", Refusal.PATH),
            (16, (), sent_group(50, 16, *range(1, 32)), Refusal.FULL),
            (17, (), sent_group(51, 17), Refusal.FULL),
        ):
            self.assert_raises_refusal(refusal, store.insert_xml, label(subject), parent, text)

    def test_13_what_is_not_in_form(self):
        store = with_style()
        for text in map(sent, NOT_IN_FORM):
            self.assert_intake_refused(13, store.buffer, 16, b"", text)
            self.assert_raises_refusal(Refusal.FORM, store.insert_xml, label(16), path((11, 0)), text)
        self.assert_refused(13, raw.insert_xml, store.buffer, 16, b"", b"<e4\xff")

    def test_14_what_is_not_own(self):
        store = with_style()
        for text in map(sent, NOT_OWN):
            self.assert_intake_refused(14, store.buffer, 16, P10, text)
            self.assert_raises_refusal(Refusal.NOT_OWN, store.insert_xml, label(16), path((11, 0)), text)

    def test_all_or_none(self):
        store = with_style()
        self.assertEqual(store.insert_xml(label(16), path((10, 0)), sent_group(20, 16, *range(1, 31))), 31)
        for number in 33, 600, 1500:
            self.assert_intake_refused(8, store.buffer, 16, P10, sent_group(20, 16, *range(1, number)))
            self.assert_intake_refused(9, store.buffer, 16, P10, sent_group(21, 16, *range(1, number)))
            self.assert_intake_refused(13, store.buffer, 16, P10, sent_group(20, 16, *range(1, number), 1))
        self.assert_intake_refused(9, store.buffer, 16, P10, sent_group(21, 16, 1))
        self.assertEqual(store.insert_xml(label(16), path((10, 0)), sent_group(21, 16)), 1)
        self.assertEqual(store.view_xml(label(0)), f'<dossier subject="0">{sent_group(10, 0)}</dossier>')

    def test_view_is_taken_in_again(self):
        store, other = mixed(), Store()
        for name in range(1, 96, 16):
            viewed = store.view_xml(label(0), path((name, 0)))
            text = viewed.removeprefix('<dossier subject="0">').removesuffix("</dossier>")
            self.assertEqual(other.insert_xml(label(0), (), text), 1)
            self.assertEqual(other.view_xml(label(0), path((name, 0))), viewed)

    def test_example(self):
        examples = ROOT / "examples"
        command = [sys.executable, "-B", examples / "style.py", examples / "style.xml"]
        done = subprocess.run(command, capture_output=True, check=True)
        self.assertEqual(done.stdout, (examples / "style.out").read_bytes())


class Refusals(CallTest):
    """Refusals 1 to 10, on the numbers as they are."""

    def test_1_store_of_another_length(self):
        for length in 0, 1, raw.STORE_BYTES - 1, raw.STORE_BYTES + 1:
            store = bytearray(length)
            self.assert_all_refused(1, store, 40, P10)
            self.assert_raises_refusal(Refusal.STORE_LENGTH, Store(store).view, label(0))
            self.assert_raises_refusal(Refusal.STORE_LENGTH, Store(store).view_xml, label(0))
            self.assert_raises_refusal(Refusal.STORE_LENGTH, Store(store).grade, label(0), path((10, 0)), (), 0)
            self.assert_raises_refusal(Refusal.STORE_LENGTH, Store(store).insert, label(0), path((10, 0)), Group())
            self.assert_raises_refusal(Refusal.STORE_LENGTH, Store(store).update, label(0), path((10, 0)), Group())
            self.assert_raises_refusal(Refusal.STORE_LENGTH, Store(store).delete, label(0), path((10, 0)))
            self.assert_raises_refusal(Refusal.STORE_LENGTH, Store(store).insert_xml, label(0), (), "")

    def test_2_subject_on_all_its_bits(self):
        store = example().buffer
        for subject in 32, 256, 287, 2**32 - 32, 2**32 - 1:
            self.assert_all_refused(2, store, subject, P10)

    def test_3_partition_not_well_formed(self):
        store = Store()
        store.buffer[16 * raw.PARTITION_BYTES] = 33
        for subject in 16, 17, 24, 31:
            self.assert_all_refused(3, store.buffer, subject, P10)
        self.assertEqual(store.view(label(15)).listing, b"VIEW\t15\t0\n")
        self.assertEqual(store.view_xml(label(15)), '<dossier subject="15"></dossier>')
        self.assert_raises_refusal(Refusal.NOT_WELL_FORMED, store.view, label(16))
        self.assert_raises_refusal(Refusal.NOT_WELL_FORMED, store.view_xml, label(16))
        self.assert_raises_refusal(Refusal.NOT_WELL_FORMED, store.grade, label(16), (), (), 1)
        self.assert_raises_refusal(Refusal.NO_MEASURE, store.grade, label(15), (), (), 1)
        self.assert_raises_refusal(Refusal.NOT_WELL_FORMED, store.insert_xml, label(16), (), "")
        self.assert_raises_refusal(Refusal.FORM, store.insert_xml, label(15), (), "")

    def test_4_what_is_no_path(self):
        store = Store()
        for no_path in b"\0\0\0", b"\x0a\0\x20", b"\x0a\0\x10\x14\0\x09", b"\x0a\0", b"\1\0\0" * 7:
            self.assert_all_refused(4, store.buffer, 9, no_path)
            self.assert_grade_refused(4, store.buffer, 9, no_path, P10, 0)
            self.assert_grade_refused(4, store.buffer, 9, P10, no_path, 0)
        self.assert_writers_refused(4, store.buffer, 0, b"")
        self.assert_raises_refusal(Refusal.PATH, store.insert, label(0), path((0, 0)), Group())

    def test_5_kind_on_all_its_bits_and_value(self):
        store = Store()
        store.insert(label(0), path((10, 0)), Group())
        no_values = [(3, b"A"), (256, b""), (257, bytes(4)), (258, b"A"), (2**32 - 1, b""), (0, b"A"), (1, bytes(3))]
        for kind, value in no_values:
            self.assert_refused(5, raw.insert, store.buffer, 0, P10_30, kind, value)
            self.assert_refused(5, raw.update, store.buffer, 0, P10, kind, value)
        for text in "", "SEVENTEEN LETTERS", "\t", "ä":
            self.assert_raises_refusal(Refusal.VALUE, store.update, label(0), path((10, 0)), Text(text))
        self.assertEqual(store.update(label(0), path((10, 0)), Text("SIXTEEN LETTERS.")), 1)

    def test_6_7_and_8_of_the_place(self):
        store = Store()
        self.assert_view_refused(7, store.buffer, 0, P10)
        self.assert_writers_refused(7, store.buffer, 16, P10_20)
        store.insert(label(0), path((10, 0)), Group())
        store.insert(label(16), path((10, 16)), Group())
        self.assert_writers_refused(6, store.buffer, 16, P10)
        self.assert_view_refused(7, store.buffer, 0, P10_16)
        self.assert_refused(7, raw.delete, store.buffer, 16, P10_20)
        self.assert_refused(8, raw.insert, store.buffer, 0, P10, *GROUP)

    def test_9_full_partition(self):
        store = Store()
        for name in range(1, 33):
            self.assertEqual(store.insert(label(0), path((name, 0)), Group()), 0)
        self.assert_refused(9, raw.insert, store.buffer, 0, b"\x21\0\0", *GROUP)
        self.assertEqual(store.insert(label(16), path((33, 16)), Group()), 0)
        self.assertEqual(store.delete(label(0), path((10, 0))), 1)
        self.assertEqual(store.insert(label(0), path((33, 0)), Group()), 0)

    def test_7_missing_step_of_another_label(self):
        store = Store()
        store.insert(label(0), path((10, 0)), Group())
        for steps in (((11, 8), (12, 16)), ((10, 0), (24, 0), (25, 16)), ((10, 0), (24, 0), (25, 16), (26, 16))):
            self.assert_raises_refusal(Refusal.ABSENT, store.insert, label(16), path(*steps), Group())
        self.assert_refused(7, raw.insert, store.buffer, 16, b"\x0b\0\x08\x0c\0\x10", *GROUP)
        self.assert_refused(7, raw.update, store.buffer, 0, P10_30, *GROUP)
        self.assert_refused(7, raw.insert_xml, store.buffer, 0, P10_30, SENT)

    def test_9_missing_groups_without_room(self):
        store = Store()
        for name in range(100, 130):
            self.assertEqual(store.insert(label(16), path((name, 16)), Group()), 0)
        before = bytes(store.buffer)
        self.assert_raises_refusal(Refusal.FULL, store.insert, label(16), path((200, 16), (1, 16), (2, 16)), Group())
        self.assertEqual(bytes(store.buffer), before)
        self.assertEqual(store.delete(label(16), path((129, 16))), 1)
        self.assertEqual(store.insert(label(16), path((203, 16), (1, 16)), Group()), 1)
        self.assertEqual(store.insert(label(16), path((202, 16)), Group()), 0)
        self.assert_raises_refusal(Refusal.FULL, store.insert, label(16), path((201, 16)), Group())

    def test_10_output_too_short(self):
        store = example().buffer
        for room in 0, 1, 39:
            self.assert_view_refused(10, store, 16, b"", room)


class Migration(CallTest):
    """The order of versions, and the migration of stores written before."""

    def test_highest_level_is_on_top(self):
        store = Store()
        for name, number in (10, 0), (10, 8), (10, 9), (10, 16), (10, 24), (10, 1), (9, 31):
            self.assertEqual(store.insert(label(number), path((name, number)), Group()), 0)
        expected = [(9, 31), (10, 24), (10, 16), (10, 8), (10, 9), (10, 0), (10, 1)]
        self.assertEqual([(line.name, line.label.number) for line in store.view(label(31))], expected)
        groups = "".join(sent_group(name, number) for name, number in expected)
        self.assertEqual(store.view_xml(label(31)), f'<dossier subject="31">{groups}</dossier>')

    def test_worked_example(self):
        store = written_before()
        self.assert_all_refused(3, store.buffer, 9, P10)
        self.assertEqual(len(store.view(label(8)).listing), 51)
        before = bytes(store.buffer)
        self.assertEqual(store.migrate(), Mask(1 << 5))
        order = partition([(10, 8), (1, 9)], [(10, 9)], [(10, 9), (1, 9)], [(10, 0), (1, 9)])
        for number in range(32):
            self.assertEqual(part(store.buffer, number), order if number == 9 else part(before, number), number)
        self.assertEqual(len(store.view(label(9)).listing), 104)
        self.assert_all_refused(3, store.buffer, 5, P10)
        after = bytes(store.buffer)
        self.assertEqual(store.migrate().labels(), [label(5), label(9)])
        self.assertEqual(raw.migrate(store.buffer), MigrationAnswer(0, 544))
        self.assertEqual(bytes(store.buffer), after)

    def test_store_of_another_length(self):
        twice = bytes(written_before().buffer) * 2
        for length in 0, 1, raw.PARTITION_BYTES, raw.STORE_BYTES - 1, raw.STORE_BYTES + 1, len(twice):
            buffer = bytearray(twice[:length])
            self.assertEqual(raw.migrate(buffer), MigrationAnswer(1, 0), length)
            self.assertEqual(buffer, twice[:length])
            self.assert_raises_refusal(Refusal.STORE_LENGTH, Store(buffer).migrate)
            self.assertEqual(buffer, twice[:length])
        self.assertEqual(raw.migrate(bytearray(raw.STORE_BYTES)), MigrationAnswer(0, 0))
        self.assertEqual(raw.migrate(bytearray(b"\xff" * raw.STORE_BYTES)), MigrationAnswer(0, 2**32 - 1))

    def test_store_file_of_before(self):
        store = Store(bytearray(BEFORE))
        for number in range(32):
            if any(label(number).dominates(label(moved)) for moved in MOVED):
                self.assert_view_refused(3, store.buffer, number, b"")
                self.assert_writers_refused(3, store.buffer, number, P10)
            else:
                self.assertGreater(len(list(store.view(label(number)))), 0)
        self.assertEqual(bytes(store.buffer), BEFORE)
        self.assertEqual(store.migrate().labels(), [])
        self.assertEqual(bytes(store.buffer), AFTER)
        for number in range(32):
            self.assertGreater(len(list(store.view(label(number)))), 0)
        self.assertEqual(self.versions(store, 9, 10), [8, 9, 0])
        self.assertEqual(self.versions(store, 31, 50), [8 * level + rest for level in (3, 2, 1, 0) for rest in range(8)])
        self.assertEqual(store.migrate().labels(), [label(moved) for moved in MOVED])
        self.assertEqual(bytes(store.buffer), AFTER)
        self.assertEqual(store.insert(label(9), path((10, 0), (2, 9)), Group()), 0)
        self.assertEqual(store.delete(label(31), path((50, 0), (1, 31))), 1)

    def versions(self, store, subject, name):
        """The labels of the lines of one step with this name, in the order in which a subject sees them."""
        lines = store.view(label(subject))
        return [line.label.number for line in lines if (line.depth, line.name) == (1, name)]

    def test_store_that_cannot_be_written(self):
        self.assertRaises(TypeError, raw.migrate, BEFORE)

    def test_masks(self):
        self.assertEqual(Mask(0).labels(), [])
        self.assertEqual(Mask(2**31 + 1).labels(), [label(0), label(31)])
        self.assertEqual(Mask(2**32 - 1).labels(), [label(number) for number in range(32)])
        self.assertEqual([bool(Mask(bits)) for bits in (0, 1, 2**31)], [False, True, True])
        self.assertEqual([Mask(2**31 + 1).has(label(number)) for number in (0, 1, 30, 31)], [True, False, False, True])


class Wrapper(CallTest):
    """What the module refuses itself, with the store untouched."""

    def test_numbers_beyond_32_bits(self):
        store = Store().buffer
        for number in 2**32, 2**32 + 16, 2**64, -1:
            for call, arguments in (
                (raw.view, (number, P10, output())),
                (raw.view_xml, (number, P10, output())),
                (raw.insert, (number, P10, *GROUP)),
                (raw.insert, (0, P10, number, b"")),
                (raw.update, (number, P10, *GROUP)),
                (raw.update, (0, P10, number, b"")),
                (raw.delete, (number, P10)),
                (raw.grade, (number, P10, P10, 1)),
                (raw.grade, (0, P10, P10, number)),
                (raw.insert_xml, (number, P10, SENT)),
            ):
                self.assertRaises(ValueError, call, store, *arguments)
        self.assertEqual(store, Store().buffer)

    def test_numbers_of_the_typed_calls(self):
        for number in 32, 287, -1:
            self.assertRaises(ValueError, Label.from_number, number)
        for number in 65536, -1:
            self.assertRaises(ValueError, Store().insert, label(0), path((number, 0)), Group())
            self.assertRaises(ValueError, Store().insert_xml, label(0), path((number, 0)), "")
        for number in 2**31, -(2**31) - 1:
            self.assertRaises(ValueError, Measure, number)

    def test_buffers_that_overlap(self):
        store = example().buffer
        before = bytes(store)
        inside = memoryview(store)
        self.assertRaises(ValueError, raw.view, store, 16, b"", inside[:64])
        self.assertRaises(ValueError, raw.view_xml, store, 16, b"", inside[:64])
        self.assertRaises(ValueError, raw.insert, store, 0, inside[4:7], *GROUP)
        self.assertRaises(ValueError, raw.update, store, 0, P10, 1, inside[-4:])
        self.assertRaises(ValueError, raw.delete, store, 0, inside[4:7])
        self.assertRaises(ValueError, raw.insert_xml, store, 0, inside[4:7], SENT)
        self.assertRaises(ValueError, raw.insert_xml, store, 0, b"", inside[:64])
        self.assertEqual(bytes(store), before)

    def test_buffers_that_are_neighbours(self):
        buffer = bytearray(P10) + Store().buffer + P10
        inside = memoryview(buffer)
        self.assertEqual(raw.insert(inside[3:-3], 0, inside[:3], *GROUP), Answer(0, 0))
        self.assertEqual(raw.insert_xml(inside[3:-3], 0, inside[-3:], SENT), Answer(0, 1))
        self.assertEqual(raw.delete(inside[3:-3], 0, inside[-3:]), Answer(0, 2))

    def test_store_that_cannot_be_written(self):
        self.assertRaises(TypeError, raw.insert, bytes(raw.STORE_BYTES), 0, P10, *GROUP)
        self.assertRaises(TypeError, raw.insert_xml, bytes(raw.STORE_BYTES), 0, b"", SENT)
        self.assertRaises(TypeError, raw.view, Store().buffer, 0, b"", bytes(64))
        self.assertRaises(TypeError, raw.view_xml, Store().buffer, 0, b"", bytes(64))

    def test_labels(self):
        self.assertEqual(Label(Level.HOUSE, Compartment.SIZING | Compartment.FABRIC), label(19))
        self.assertEqual([label(number).number for number in range(32)], list(range(32)))
        self.assertTrue(label(19).dominates(label(17)))
        self.assertFalse(label(16).dominates(label(9)) or label(9).dominates(label(16)))
        self.assertRaises(ValueError, Label, 4)
        self.assertRaises(ValueError, Label, Level.OPEN, 8)

    def test_answers(self):
        self.assertEqual(Answer(0, 40).outcome(), 40)
        for refusal in Refusal:
            self.assert_raises_refusal(refusal, Answer(int(refusal), 0).outcome)
            self.assert_raises_refusal(refusal, GradeAnswer(int(refusal), 0, 0).outcome)
        self.assertEqual(GradeAnswer(0, -4, 2).outcome(), Grade(-4, 2))
        self.assertEqual(MigrationAnswer(0, 544).outcome(), Mask(544))
        self.assert_raises_refusal(Refusal.STORE_LENGTH, MigrationAnswer(1, 0).outcome)
        unexpected = [Answer(15, 0), Answer(7, 1), GradeAnswer(15, 0, 0), GradeAnswer(7, -1, 0), GradeAnswer(12, 0, 1)]
        unexpected += [MigrationAnswer(1, 1), MigrationAnswer(2, 0), MigrationAnswer(3, 0), MigrationAnswer(15, 0)]
        for answer in unexpected:
            with self.assertRaises(UnexpectedAnswer) as raised:
                answer.outcome()
            self.assertEqual(raised.exception.answer, answer)

    def test_what_is_no_line(self):
        lines = ["", "1\t10\t0\tP\tG", "1\t10\t32\tP\tG\t-", "1\tx\t0\tP\tG\t-", "1\t10\t0\tR\tG\t-", "1\t10\t0\tP\tM\tx"]
        lines += ["1\t10\t0\tP\tG\t-\t7", "1\t10\t0\tQ\tG\t-", "0\t10\t0\tP\tG\t-", "2\t10\t0\tP\tG\t-", "1\t10\t0\tP\tT\tä"]
        for line in lines:
            self.assertRaises(Unreadable, list, View(f"VIEW\t0\t1\n{line}\n".encode()))
        for first in "VIEW\t0\t2", "VIEW\t32\t1", "VIEW\t0", "view\t0\t1", "VIEW\tx\t1", "":
            self.assertRaises(Unreadable, len, View(f"{first}\n1\t10\t0\tP\tG\t-\n".encode()))
        self.assertEqual(len(View(b"VIEW\t0\t1\n1\t10\t0\tP\tG\t-\n")), 1)
        self.assertRaises(Unreadable, list, View(b""))
        self.assertRaises(Unreadable, list, View(b"VIEW\t0\t1\n1\t10\t0\tP\tG\t-"))
        self.assertRaises(Unreadable, read_ascii, b"<dossier \xff")


class WholeNumbers(CallTest):
    """What is no whole number raises TypeError, with the store untouched; nothing is narrowed."""

    def test_labels(self):
        for number in NOT_WHOLE:
            self.assertRaises(TypeError, Label, number)
            self.assertRaises(TypeError, Label, 0, number)
            self.assertRaises(TypeError, Label, Level.HOUSE, number)
            self.assertRaises(TypeError, Label.from_number, number)

    def test_measures(self):
        for number in NOT_WHOLE:
            self.assertRaises(TypeError, Measure, number)

    def test_names(self):
        store = Store()
        for number in NOT_WHOLE:
            steps = path((number, 0))
            self.assertRaises(TypeError, store.view, label(0), steps)
            self.assertRaises(TypeError, store.view_xml, label(0), steps)
            self.assertRaises(TypeError, store.insert, label(0), steps, Group())
            self.assertRaises(TypeError, store.update, label(0), steps, Group())
            self.assertRaises(TypeError, store.delete, label(0), steps)
            self.assertRaises(TypeError, store.grade, label(0), steps, (), 1)
            self.assertRaises(TypeError, store.grade, label(0), (), steps, 1)
            self.assertRaises(TypeError, store.insert_xml, label(0), steps, "")
        self.assertEqual(store.buffer, Store().buffer)

    def test_subjects_kinds_and_sizes(self):
        store = Store().buffer
        for number in NOT_WHOLE:
            self.assertRaises(TypeError, raw.view, store, number, P10, output())
            self.assertRaises(TypeError, raw.view_xml, store, number, P10, output())
            self.assertRaises(TypeError, raw.insert, store, number, P10, *GROUP)
            self.assertRaises(TypeError, raw.insert, store, 0, P10, number, b"")
            self.assertRaises(TypeError, raw.update, store, number, P10, *GROUP)
            self.assertRaises(TypeError, raw.update, store, 0, P10, number, b"")
            self.assertRaises(TypeError, raw.delete, store, number, P10)
            self.assertRaises(TypeError, raw.grade, store, number, P10, P10, 1)
            self.assertRaises(TypeError, raw.grade, store, 0, P10, P10, number)
            self.assertRaises(TypeError, raw.insert_xml, store, number, b"", SENT)
        self.assertEqual(store, Store().buffer)

    def test_lengths(self):
        for number in 7.5, 1.0, 64:
            self.assertRaises(TypeError, Store, number)
            self.assertRaises(TypeError, Store().view, label(0), (), number)
            self.assertRaises(TypeError, Store().view_xml, label(0), (), number)

    def test_what_is_a_whole_number(self):
        self.assertEqual(Label(Index(2), Index(3)), label(19))
        self.assertEqual(repr(Label(2, 3)), repr(label(19)))
        self.assertEqual(Label.from_number(Index(19)), label(19))
        self.assertEqual(Measure(Index(-150)), Measure(-150))
        store = Store()
        store.insert(Label(Index(0)), [Step(Index(10), Label(0))], Measure(Index(-150)))
        self.assertEqual(store.view(label(0)).listing, b"VIEW\t0\t1\n1\t10\t0\tP\tM\t-150\n")
        self.assertEqual(raw.grade(store.buffer, Index(0), P10, P10, Index(64)), GradeAnswer(0, 0, 0))
        self.assertEqual(raw.delete(store.buffer, Index(0), P10), Answer(0, 1))


class Carried(CallTest):
    """What the module hands out, pickled, copied and brought from another process."""

    def assert_carried(self, error):
        """An error is the same one, pickled or copied: its type, answer and text."""
        for carried in copies(error):
            self.assertIs(type(carried), type(error))
            self.assertEqual(vars(carried), vars(error))
            self.assertEqual((str(carried), repr(carried)), (str(error), repr(error)))

    def test_errors(self):
        for refusal in Refusal:
            self.assert_carried(Refused(Answer(int(refusal), 0)))
            self.assert_carried(Refused(GradeAnswer(int(refusal), 0, 0)))
        self.assert_carried(UnexpectedAnswer(Answer(7, 1)))
        self.assert_carried(UnexpectedAnswer(GradeAnswer(7, -1, 2)))
        self.assert_carried(UnexpectedAnswer(MigrationAnswer(3, 4)))
        self.assert_carried(Unreadable(b"1\t10"))
        for kind in StoreFileError, StoreInUse, StoreChanged, NotAStore, StoreNotSynced:
            error = kind("shirts", "is in use")
            self.assertEqual(repr(error), f"{kind.__name__}('shirts', 'is in use')")
            self.assertEqual((error.filename, error.strerror), ("shirts", "is in use"))
            self.assert_carried(error)
        self.assertEqual((StoreInUse("shirts", "is in use").errno, StoreChanged("shirts", "").errno), (errno.EAGAIN, None))

    def test_what_an_error_says(self):
        rows = [row.split("\t") for row in (ROOT / "tests" / "refusals.tsv").read_text().splitlines()]
        self.assertEqual([(str(one.number), one.name, one.cause) for one in Refusal], [tuple(row) for row in rows])
        for number, _, cause in rows:
            words = f"refused by {number}: {cause}"
            self.assertEqual((str(Refusal(int(number))), f"{Refusal(int(number)):>99}"), (words, words.rjust(99)))
            self.assertEqual(str(Refused(Answer(int(number), 0))), f"refused by {number}: {cause}")
            self.assertEqual(str(Refused(GradeAnswer(int(number), 0, 0))), f"refused by {number}: {cause}")
        self.assertEqual(str(UnexpectedAnswer(Answer(11, 2))), "unexpected answer: number 11, count 2")
        unexpected = UnexpectedAnswer(GradeAnswer(7, -1, 2))
        self.assertEqual(str(unexpected), "unexpected answer: number 7, step -1, remainder 2")
        self.assertEqual(str(UnexpectedAnswer(MigrationAnswer(1, 5))), "unexpected answer: number 1, mask 5")
        self.assertEqual(str(Unreadable(b"1\t10")), r"unreadable listing or XML: b'1\t10'")
        self.assertEqual(str(Unreadable(b"=" * 61)), f"unreadable listing or XML: b'{60 * '='}' ...")

    def test_values(self):
        lines = list(example().view(label(16)))
        answers = [Answer(7, 0), GradeAnswer(7, 0, 0), Grade(-4, 2), MigrationAnswer(0, 544), Mask(544)]
        parts = [label(19), Step(10, label(16)), Path(path((10, 0), (20, 16))), Group(), Measure(-150), Text("SLEEVE"), lines]
        for value in answers + parts + [*Level, *Refusal, example().view(label(16), path((10, 0)))]:
            for carried in copies(value):
                self.assertEqual(carried, value)
                self.assertIs(type(carried), type(value))
        for store in copies(example()):
            self.assertEqual(bytes(store), bytes(example()))

    def test_copy_of_a_store_is_its_own(self):
        buffer = bytearray(dossier.STORE_BYTES)
        store = Store(memoryview(buffer))
        for one in copies(store):
            one.insert(label(0), path((10, 0)), Group())
            self.assertEqual(len(one.view(label(0))), 1)
        self.assertEqual(buffer, bytes(dossier.STORE_BYTES))
        self.assertEqual(len(store.view(label(0))), 0)

    def test_errors_of_another_process(self):
        for error, call, argument in (Refused, delete_absent, 10), (UnexpectedAnswer, unexpected, 7):
            with multiprocessing.Pool(1) as pool:
                with self.assertRaises(error) as raised:
                    pool.map_async(call, [argument]).get(timeout=30)
            self.assertEqual(raised.exception.answer.number, 7)


def load_tests(loader, tests, pattern):
    """The tests above and the example in the module's documentation."""
    tests.addTests(doctest.DocTestSuite(dossier))
    return tests


if __name__ == "__main__":
    unittest.main()
