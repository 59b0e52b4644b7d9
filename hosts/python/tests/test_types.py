"""Labels, paths, views, masks and stores as Python has them: read from texts, shown, compared, iterated; the header's lengths;
and wrong types, each told where it is given, with what to give instead."""
import pathlib
import random
import re
import unittest

import dossier
from dossier import STORE_BYTES, Compartment, Group, Kind, Label, Level, Line, Mask, Measure, Path, Step, Store, Text, View, raw
from support import LISTING, P10, ROOT, example, label, path

# The number and the words of some labels.
WORDS = {0: "open", 1: "open+sizing", 10: "trade+fabric", 19: "house+sizing+fabric", 31: "sealed+sizing+fabric+cost"}

# Texts that are no labels.
NO_LABELS = ["", "32", "287", "-1", "+5", "05", "house+", "+house", "house+sizing+sizing", "sizing", "House", "house sizing"]
NO_LABELS += ["7\n", "٣", "12345678901"]

# Texts that are no paths.
NO_PATHS = ["", "10", "10:", ":0", "10:0/", "10:32", "65536:0", "010:0", "10:0//20:0", "10:0 ", "//", "+1:0", "1:0:0"]
NO_PATHS += ["1:٣", "٣:1", "10:0\n", "//10:0", "/10:0/", "/10"]

# Paths in path order.
ORDER = "9:31 10:25 10:16 10:16/1:31 10:16/1:16 10:8 10:9 10:0 10:0/1:24 10:0/1:0 10:0/1:0/1:9 10:0/2:31 10:1 11:0".split()


class Labels(unittest.TestCase):
    """Labels as numbers and words."""

    def test_words(self):
        for number, words in WORDS.items():
            self.assertEqual((label(number).words, str(label(number))), (words, str(number)))
            self.assertEqual(Label.parse(words), label(number))
            self.assertEqual(repr(label(number)), f"Label.parse('{words}')")
        for number in range(32):
            self.assertEqual(Label.parse(label(number).words), label(number))
            self.assertEqual(Label.parse(str(number)), label(number))
        self.assertEqual(Label.parse("sealed+cost+sizing"), label(29))

    def test_parts_in_words(self):
        levels = ["open", "trade", "house", "sealed"]
        self.assertEqual(([str(level) for level in Level], [f"{level}" for level in Level]), (levels, levels))
        some = [Compartment.NONE, Compartment.FABRIC, Compartment.COST | Compartment.SIZING, Compartment(7), Compartment(9)]
        words = ["none", "fabric", "sizing+cost", "sizing+fabric+cost", "sizing+8"]
        self.assertEqual(([str(one) for one in some], [f"{one}" for one in some]), (words, words))
        self.assertEqual((f"{Level.HOUSE:>6}", f"{Compartment.COST:>6}"), (" house", "  cost"))
        self.assertEqual((repr(Level.HOUSE), Level.HOUSE * 8), ("<Level.HOUSE: 2>", 16))

    def test_all(self):
        self.assertEqual([one.number for one in Label.all()], list(range(32)))

    def test_compartments(self):
        self.assertEqual([one.number for one in Label.all() if one.has(Compartment.FABRIC)][:5], [2, 3, 6, 7, 10])
        both = Compartment.SIZING | Compartment.COST
        self.assertEqual([one.number for one in Label.all() if one.has(both)], [5, 7, 13, 15, 21, 23, 29, 31])

    def test_no_order(self):
        self.assertRaises(TypeError, sorted, [label(0), label(1)])

    def test_what_is_no_label(self):
        for text in NO_LABELS:
            with self.assertRaisesRegex(ValueError, "is no label: a label is a number from 0 to 31, or open"):
                Label.parse(text)


class Paths(unittest.TestCase):
    """Paths as tuples of steps, texts and bytes."""

    def test_texts(self):
        for text in "/", "1:0", "10:0/20:16", "0:31", "65535:31/1:31/1:31/1:31/1:31/1:31/1:31":
            self.assertEqual(str(Path.parse(text)), text)
        self.assertEqual(Path.parse("10:open/20:house+sizing"), Path(path((10, 0), (20, 17))))
        self.assertEqual(str(Path.parse("/10:0/20:house")), "10:0/20:16")
        self.assertEqual(repr(Path.parse("10:0/20:16")), "Path.parse('10:0/20:16')")
        self.assertEqual(repr(Path.root()), "Path.root()")

    def test_what_is_no_path(self):
        for text in NO_PATHS:
            with self.assertRaisesRegex(ValueError, "is no path: a path is / or steps NAME:LABEL parted by /"):
                Path.parse(text)

    def test_bytes(self):
        steps = Path.root().child(258, label(0)).child(10, label(16))
        self.assertEqual((steps.to_bytes(), bytes(steps)), (bytes([2, 1, 0, 10, 0, 16]), bytes([2, 1, 0, 10, 0, 16])))
        self.assertEqual(Path.from_bytes(bytes([2, 1, 0, 10, 0, 16])), steps)
        self.assertEqual(Path.from_bytes(b""), Path.root())
        for no_path in b"\2\1", b"\2\1\x20", b"\2\1\0\7", b"\2\1\xff\1\0\0":
            self.assertRaises(ValueError, Path.from_bytes, no_path)

    def test_parts(self):
        steps = Path.parse("10:0/20:16/30:31")
        self.assertEqual((steps.depth, len(steps), Path.root().depth), (3, 3, 0))
        self.assertEqual([str(steps.prefix(depth)) for depth in (-1, 0, 2, 9)], ["/", "/", "10:0/20:16", "10:0/20:16/30:31"])
        self.assertEqual((steps.parent, Path.root().parent), (Path.parse("10:0/20:16"), None))
        self.assertEqual(steps[1], Step(20, label(16)))
        self.assertEqual((hash(steps), steps), (hash(Path(list(steps))), tuple(steps)))

    def test_order(self):
        paths = [Path.parse(text) for text in ORDER]
        for at, one in enumerate(paths):
            places = range(len(paths))
            self.assertEqual([one < other for other in paths], [at < place for place in places])
            self.assertEqual([one <= other for other in paths], [at <= place for place in places])
            self.assertEqual([one > other for other in paths], [at > place for place in places])
            self.assertEqual([one >= other for other in paths], [at >= place for place in places])
        self.assertEqual((min(paths[::-1]), max(paths)), (paths[0], paths[-1]))
        self.assertLess(Path.root(), paths[0])

    def test_order_of_steps(self):
        low, high = Step(10, label(8)), Step(10, label(9))
        self.assertEqual((low < high, low <= high, low > high, low >= high), (True, True, False, False))
        self.assertEqual((low < low, low <= low, low > low, low >= low), (False, True, False, True))
        self.assertEqual((low < (11, label(8)), (9, label(8)) < low), (True, True))

    def test_order_of_a_view(self):
        store = Store()
        for one in Label.all():
            for text in f"7:{one}", f"7:0/3:{one}", f"7:0/3:0/7:{one}", f"7:{one}/7:{one}/2:{one}", f"3:{one}":
                store.insert(one, Path.parse(text), Measure(1))
        view = store.view(label(31))
        paths = [line.path for line in view]
        self.assertEqual((len(paths), max(map(len, paths))), (192, 3))
        shuffled = random.Random(7).sample(list(view), len(view))
        self.assertNotEqual(shuffled, list(view))
        self.assertEqual(sorted(shuffled), list(view))
        self.assertEqual(sorted(line.path for line in shuffled), paths)

    def test_calls_take_any_steps(self):
        store = Store()
        forms = [Path.parse("1:0"), [Step(1, label(0))], ((1, label(0)),), [[1, label(0)]], iter([(1, label(0))])]
        for form in forms:
            self.assertEqual(store.insert(label(0), form, Group()), 0)
            self.assertEqual(store.delete(label(0), Path.parse("1:0")), 1)


class Views(unittest.TestCase):
    """Views as sequences of lines with whole paths."""

    def test_whole_paths(self):
        store = Store()
        inserted = [(0, "10:0/20:0/30:0"), (16, "10:0/20:0/30:16"), (16, "10:0/21:16"), (0, "11:0")]
        for subject, text in inserted:
            store.insert(label(subject), Path.parse(text), Measure(-150))
        store.delete(label(0), Path.parse("10:0"))
        below = ["10:0/20:0 None", "10:0/20:0/30:16 -150"]
        lines = {
            "10:0/20:0": below,
            "10:0/20:0/30:16": below[1:],
            "/": ["10:0 None", *below, "10:0/21:16 -150", "11:0 -150"],
        }
        for text, expected in lines.items():
            listed = [f"{line.path} {line.value and line.value.hundredths}" for line in store.view(label(16), Path.parse(text))]
            self.assertEqual(listed, expected)

    def test_sequence(self):
        view = example().view(label(16))
        last = Line(Path.parse("10:0/20:16"), Measure(-150))
        self.assertEqual((len(view), view[1], view[-1], view[1:]), (2, last, last, (last,)))
        self.assertEqual((view.index(last), last in view, list(reversed(view))[0]), (1, True, last))
        self.assertRaises(IndexError, lambda: view[2])
        self.assertEqual((view.listing, str(view), repr(view)), (LISTING, LISTING.decode(), "<View of 2 lines>"))
        self.assertEqual((view.subject, view.path), (label(16), Path.root()))
        self.assertEqual((bool(view), bool(example().view(label(0)))), (True, False))

    def test_equality(self):
        view = example().view(label(16))
        self.assertEqual((view, hash(view)), (example().view(label(16)), hash(example().view(label(16)))))
        self.assertNotEqual(view, example().view(label(24)))
        self.assertNotEqual(view, View(view.listing, Path.parse("1:0")))
        self.assertEqual(len({view[0], view[1], example().view(label(16))[0]}), 2)


class Forms(unittest.TestCase):
    """What is formatted as its string is, and the lengths that the header has too."""

    def test_formatted(self):
        view = example().view(label(0))
        self.assertEqual(f"{label(9):>5}|{Path.parse('10:0/20:16'):<12}|{Path.root():^3}|", "    9|10:0/20:16  | / |")
        self.assertEqual((f"{view}", f"{view:>11}"), ("VIEW\t0\t0\n", "  VIEW\t0\t0\n"))
        self.assertEqual([f"{kind:.4}" for kind in Kind], ["grou", "meas", "text"])
        self.assertEqual(([str(kind) for kind in Kind], repr(Kind.TEXT)), (["group", "measure", "text"], "<Kind.TEXT: 2>"))

    def test_lengths(self):
        header = (ROOT / "include" / "dossier.h").read_text()
        lengths = dict(re.findall(r"^#define DOSSIER_(\w+_BYTES(?:_MAX)?) ([0-9]+)$", header, re.MULTILINE))
        self.assertEqual({name: str(getattr(dossier, name)) for name in dossier.__all__ if "_BYTES" in name}, lengths)
        self.assertEqual((len(lengths), lengths["PATH_BYTES_MAX"]), (8, "18"))


class Masks(unittest.TestCase):
    """Masks as collections of labels."""

    def test_collection(self):
        mask = Mask(2**31 + 1)
        self.assertEqual((len(mask), list(mask), repr(mask)), (2, [label(0), label(31)], "Mask(bits=2147483649)"))
        self.assertEqual([label(number) in mask for number in (0, 1, 30, 31)], [True, False, False, True])
        self.assertEqual((len(Mask(0)), list(Mask(0)), bool(Mask(0)), len(Mask(2**32 - 1))), (0, [], False, 32))
        self.assertEqual((mask, hash(mask)), (Mask(2**31 + 1), hash(Mask(2**31 + 1))))

    def test_what_is_no_mask(self):
        for bits in -1, 2**32:
            self.assertRaises(ValueError, Mask, bits)
        for bits in 1.0, "1", None:
            self.assertRaises(TypeError, Mask, bits)


class Stores(unittest.TestCase):
    """Stores as objects."""

    def test_shown(self):
        self.assertEqual(repr(Store()), f"<Store of {STORE_BYTES} bytes>")
        self.assertEqual(repr(Store(bytearray(7))), "<Store of 7 bytes>")
        view = memoryview(bytearray(7))
        store = Store(view)
        view.release()
        self.assertEqual(repr(store), "<Store of a buffer that is closed>")

    def test_bytes(self):
        self.assertEqual(bytes(Store()), bytes(STORE_BYTES))
        self.assertEqual(bytes(example()), bytes(example().buffer))

    def test_neither_length_nor_iteration(self):
        self.assertRaises(TypeError, len, Store())
        self.assertRaises(TypeError, iter, Store())
        self.assertNotEqual(Store(), Store())


# What is said where compartments are given wrongly.
JOINED = ": compartments are joined by |, as in Compartment.SIZING | Compartment.COST"

# What is given wrongly, and what is said: a call, its arguments, the words.
WRONG = [
    (Label, ("house",), "the level is no whole number but a str: Label.parse('house') reads words"),
    (Label, (2.0,), "the level is no whole number but a float"),
    (Label, (Level.HOUSE, "cost"), f"the compartments' number is no whole number but a str{JOINED}"),
    (Label, (Level.HOUSE, [Compartment.COST]), f"the compartments' number is no whole number but a list{JOINED}"),
    (Label.from_number, ("16",), "the number of a label is no whole number but a str"),
    (label(16).has, ("cost",), "the compartment is no Compartment but a str: Compartment.SIZING is one"),
    (label(16).has, (4,), "the compartment is no Compartment but an int: Compartment.SIZING is one"),
    (Label.parse, (16,), "the text of a label is no str but an int"),
    (label(16).dominates, (3,), "the other label is no Label but an int: Label.from_number(3) makes one"),
    (Mask(1).has, (3,), "the label is no Label but an int: Label.from_number(3) makes one"),
    (Mask(1).__contains__, (3,), "the label is no Label but an int: Label.from_number(3) makes one"),
    (Measure, (1.5,), "the measure is no whole number but a float"),
    (Text, (b"SLEEVE",), "the text is no str but bytes"),
    (Path.parse, (b"10:0",), "the text of a path is no str but bytes"),
    (Path.from_bytes, ("10:0",), "the path is not in bytes but a str"),
    (Path.root().child, ("10", label(0)), "the name is no whole number but a str"),
    (Path.root().child, (10, 0), "the label of step 1 of the path is no Label but an int: Label.from_number(0) makes one"),
    (Store, (64,), "the buffer is no buffer of bytes but an int"),
    (Store, ("shirts",), "the buffer is no buffer of bytes but a str: Store.open('shirts') opens a file"),
    (Store, (pathlib.Path("a"),), "the buffer is no buffer of bytes but a PosixPath: Store.open('a') opens a file"),
    (Store, (Store(),), "the buffer is no buffer of bytes but a Store: store.buffer is one"),
    (Store.open, (64,), "the path is no name of a file but an int"),
    (Store.read, (None,), "the path is no name of a file but None"),
    (Store.create, (Path.root(),), "the path is no name of a file but a Path"),
    (Store().save_as, (None,), "the path is no name of a file but None"),
    (Store.open, ("none", 5), "wait is True or False and not an int: there is no limit of time"),
    (Store.read, ("none", 0.5), "wait is True or False and not a float: there is no limit of time"),
    (raw.view, ("", 0, b"", bytearray(9)), "the store is no buffer of bytes but a str"),
    (raw.view, (Store(), 0, b"", bytearray(9)), "the store is no buffer of bytes but a Store: store.buffer is one"),
    (raw.migrate, (Store(),), "the store is no buffer of bytes but a Store: store.buffer is one"),
    (raw.view, (b"", 0.5, b"", bytearray(9)), "the subject is no whole number but a float"),
    (raw.view, (b"", 0, "", bytearray(9)), "the path is no buffer of bytes but a str"),
    (raw.insert, (bytearray(9), 0, P10, "G", b""), "the kind is no whole number but a str"),
    (raw.insert, (bytearray(9), 0, P10, 2, "TEXT"), "the value is no buffer of bytes but a str"),
    (raw.grade, (b"", 0, 1, b"", 3), "the base is no buffer of bytes but an int"),
    (raw.grade, (b"", 0, b"", None, 3), "the top is no buffer of bytes but None"),
    (raw.insert_xml, (bytearray(9), 0, [10, 0, 0], b""), "the parent is no buffer of bytes but a list"),
    (raw.insert_xml, (bytearray(9), 0, b"", "<e4"), "the text is no buffer of bytes but a str"),
]

# A call of a store with what is given wrongly for its subject, path or value, and what is said.
SUBJECTS = {
    16: "the subject is no Label but an int: Label.from_number(16) makes one",
    "house": "the subject is no Label but a str: Label.parse('house') makes one",
    Level.HOUSE: "the subject is no Label but a Level: Label(Level.HOUSE) makes one",
    Compartment.COST: "the subject is no Label but a Compartment: Label.from_number(4) makes one",
    None: "the subject is no Label but None: Label.from_number(16) and Label.parse('house') make one",
}
STEPS = [
    ("10:0", " is no path but a str: Path.parse('10:0') reads one"),
    (P10, " is no path but bytes: Path.from_bytes reads one"),
    (Step(10, label(0)), " is no path but a Step: a list of steps, each Step(name, label), makes one"),
    (10, " is no path but an int: a list of steps, each Step(name, label), makes one"),
]
STEP = [
    ([10, label(0)], " is no pair of a name and a label but an int: Step(name, label) makes one"),
    ([(10,)], " is no pair of a name and a label but a tuple: Step(name, label) makes one"),
]
VALUES = [
    (850, "Measure(850) makes one", "an int"),
    ("SLEEVE", "Text('SLEEVE') makes one", "a str"),
    (Group, "Group() makes one", "the class Group"),
    (Text, "Text('SLEEVE') makes one", "the class Text"),
    (Kind.GROUP, "Group() makes one", "a Kind"),
    (Kind.MEASURE, "Measure(850) makes one", "a Kind"),
    (Kind.TEXT, "Text('SLEEVE') makes one", "a Kind"),
    (Level.HOUSE, "Measure(2) makes one", "a Level"),
    (None, "Group(), Measure(850) and Text('SLEEVE') make one", "None"),
]


class WrongTypes(unittest.TestCase):
    """What is of a wrong type raises TypeError, which names it and says what to give instead."""

    def assert_told(self, words, call, *arguments):
        """A call raises TypeError with these words."""
        with self.assertRaises(TypeError) as raised:
            call(*arguments)
        self.assertEqual(str(raised.exception), words)

    def calls(self, store):
        """Each call of a store that takes a subject and a path, with what the path is and what comes behind it."""
        root = (Path.root(), 3)
        return [
            (store.view, "the path", ()), (store.view_xml, "the path", ()), (store.insert, "the path", (Group(),)),
            (store.update, "the path", (Group(),)), (store.delete, "the path", ()), (store.grade, "the base", root),
            (store.insert_xml, "the parent", ("",)),
        ]

    def test_each_alone(self):
        for call, arguments, words in WRONG:
            self.assert_told(words, call, *arguments)

    def test_subjects(self):
        for call, _, rest in self.calls(Store()):
            for subject, words in SUBJECTS.items():
                self.assert_told(words, call, subject, Path.parse("10:0"), *rest)

    def test_paths(self):
        for call, name, rest in self.calls(Store()):
            for steps, words in STEPS:
                self.assert_told(name + words, call, label(0), steps, *rest)
            for steps, words in STEP:
                self.assert_told(f"step 1 of {name}" + words, call, label(0), steps, *rest)
            words = f"the label of step 2 of {name} is no Label but an int: Label.from_number(16) makes one"
            self.assert_told(words, call, label(0), [(10, label(0)), (20, 16)], *rest)
            words = f"the name of step 1 of {name} is no whole number but a str"
            self.assert_told(words, call, label(0), [("10", label(0))], *rest)
        words = "the top is no path but a str: Path.parse('10:0') reads one"
        self.assert_told(words, Store().grade, label(0), Path.root(), "10:0", 3)

    def test_values(self):
        for call in Store().insert, Store().update:
            for value, hint, said in VALUES:
                words = f"the value is no Group, Measure or Text but {said}: {hint}"
                self.assert_told(words, call, label(0), Path.parse("10:0"), value)

    def test_texts_and_sizes(self):
        self.assert_told("the text is no str but bytes", Store().insert_xml, label(0), Path.root(), b"<e4")
        for n, said in (3.0, "a float"), ("3", "a str"), (None, "None"):
            words = f"the number of sizes is no whole number but {said}"
            self.assert_told(words, Store().grade, label(0), Path.root(), Path.root(), n)

    def test_numbers_that_are_no_label(self):
        for number in -1, 32:
            with self.assertRaisesRegex(ValueError, f"^{number} is no label: a label is a number from 0 to 31$"):
                Label.from_number(number)
        with self.assertRaisesRegex(ValueError, "^no label has level 3 and compartments 8$"):
            Label(Level.SEALED, Compartment(8))

    def test_names_that_do_not_fit(self):
        for name in -1, 65536:
            with self.assertRaisesRegex(ValueError, f"the name {name} of step 1 of the path does not fit two bytes"):
                Path.root().child(name, label(0))

    def test_what_no_file_could_hold(self):
        with self.assertRaisesRegex(Exception, "refused by 5: the value is not allowed"):
            Store().insert(label(0), Path.parse("10:0"), Text("\ud800"))
        with self.assertRaisesRegex(Exception, "refused by 13: the XML is not in form"):
            Store().insert_xml(label(0), Path.root(), "\ud800")

    def test_compartments_joined(self):
        self.assertEqual(Label(Level.HOUSE, Compartment.SIZING | Compartment.FABRIC).words, "house+sizing+fabric")


if __name__ == "__main__":
    unittest.main()
