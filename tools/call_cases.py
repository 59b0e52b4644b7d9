#!/usr/bin/env python3
"""Makes the input and the expected output of the program call_cases: crates/call_cases/stdin and crates/call_cases/stdout.

    python3 tools/call_cases.py                          the cases below, and the sequences that stdin has already
    python3 tools/call_cases.py DIR/*.jsonl              the cases below, and the chosen sequences of these files
    python3 tools/call_cases.py --check [FILES]          writes nothing, and fails where a file would be written otherwise

The files are calls-*.jsonl, sequences of document 01's calls, and stage-NN.jsonl, sequences of the calls as they are after
request NN of document 02.

What the calls must give comes from tools/reference.py, documents 01 and 02 as a Python program. Each case also states the
number, the count and the listing or the XML that the documents fix, the number, the step and the remainder, or the number and the
mask, by hand, and the reference is held to them. The sequences of a file bring their own answers, and the reference is held to these too; the SHA-256
of the store at the end of each stands below.

A record of stdin is a head of four bytes, three words and two texts. The head: a letter, the length of the first text, and in two
bytes that of the second. The words: the store's length; a subject or a place; a kind, the output's length or a number of sizes.
Numbers have their lowest byte first. The letters: V, M (the view as XML), I, U and D, calls (texts: path and value); G (the even
grade), a call too (texts: the base's path and the top's); T (the XML intake), a call too (texts: the parent's path and the XML);
O, the migration to the path order of request 7/14 (no texts, no subject); N, a name for what follows (text: a line); Z, every byte
of the store becomes 0; X, bytes come onto the store from a place on (text: the bytes); S, the store is shown.

stdout has for each call a line of its letter, number and count, and behind V and M what was written, up to the last byte of the
output that is not as it was, XML with an end of line behind it; for G a line of its letter, number, step and remainder, the
step with a minus sign where it is negative; for O a line of its letter, number and mask; for each
name a line; for S a line for each partition that is not empty: its number and its bytes, in hexadecimal digits, up to the last
that is not 0.
"""
import base64
import hashlib
import json
import os
import struct
import sys

from reference import PARTITION, SLOT, STORE, Model, migrate, read_slot, slot_bytes

# ---------------------------------------------------------------------------------------------------------------------
# Records, carried out as the program does.

BUFFER = 33 * PARTITION  # what the program keeps: a store, and some bytes behind it

records = []
output = []
answered = {letter: set() for letter in "VMIUDGTO"}
buffer = bytearray(BUFFER)


def record(letter, first=b"", second=b"", subject=0, third=0, size=BUFFER):
    """Keeps a record and carries it out: what the call answers and writes, if it is a call."""
    head = struct.pack("<BBHIII", ord(letter), len(first), len(second), size, subject, third)
    records.append(head + first + second)
    if letter == "N":
        output.append(first)
    elif letter == "Z":
        buffer[:] = bytes(BUFFER)
    elif letter == "X":
        buffer[subject : subject + len(first)] = first
    elif letter == "S":
        show_store()
    elif letter == "G":
        return graded(first, second, subject, third, size)
    elif letter == "T":
        return taken_in(first, second, subject, size)
    elif letter == "O":
        return migrated(size)
    else:
        return call(letter, first, second, subject, third, size)


def call(letter, path, value, subject, third, size):
    """Carries out V, M, I, U or D on the first bytes of the buffer; the third word is the output's length (V, M) or a kind."""
    model = Model(buffer[:size])
    number, count, text = model.call(letter, subject, path, third, value, third)
    buffer[:size] = model.bytes()
    output.append(b"%s %d %d\n" % (letter.encode(), number, count) + text)
    if letter == "M" and number == 0:
        output.append(b"\n")
    answered[letter].add(number)
    return number, count, text


def graded(base, top, subject, n, size):
    """Carries out G on the first bytes of the buffer, which stay as they are."""
    number, step, remainder = Model(buffer[:size]).grade(subject, base, top, n)
    output.append(b"G %d %d %d\n" % (number, step, remainder))
    answered["G"].add(number)
    return number, step, remainder


def taken_in(parent, text, subject, size):
    """Carries out T on the first bytes of the buffer."""
    model = Model(buffer[:size])
    number, count = model.insert_xml(subject, parent, text)
    buffer[:size] = model.bytes()
    output.append(b"T %d %d\n" % (number, count))
    answered["T"].add(number)
    return number, count


def migrated(size):
    """Carries out O on the first bytes of the buffer."""
    number, mask, store = migrate(buffer[:size])
    buffer[:size] = store
    output.append(b"O %d %d\n" % (number, mask))
    answered["O"].add(number)
    return number, mask


def show_store():
    """The lines of S."""
    for n in range(BUFFER // PARTITION):
        used = bytes(buffer[PARTITION * n : PARTITION * (n + 1)]).rstrip(b"\0")
        if used:
            output.append(b"S %d %s\n" % (n, used.hex().encode()))


# ---------------------------------------------------------------------------------------------------------------------
# How a case is written: what it calls, then the number and the count, or the step and the remainder, that the documents fix.

CASES = []
G = (0, b"")


def M(n):
    """A measure."""
    return 1, struct.pack("<i", n)


def T(text):
    """A text."""
    return 2, text.encode("latin-1")


def steps(text):
    """The steps of a path written name:label and parted by /, a lone / being the empty path."""
    return [] if text == "/" else [tuple(map(int, step.split(":"))) for step in text.split("/")]


def path(text):
    """A path as three bytes a step; bytes stay as they are."""
    if isinstance(text, bytes):
        return text
    return b"".join(struct.pack("<HB", name, label) for name, label in steps(text))


def case(name):
    """A case: it has a name, and begins on an empty store."""

    def keep(body):
        CASES.append((name, body))
        return body

    return keep


def then(name):
    """A name for what follows on the same store."""
    record("N", name.encode() + b"\n")


def begin(name):
    """The name of a case or a sequence, and an empty store."""
    then(name)
    record("Z")


def hold(given, fixed):
    """The reference gives what is written in the case."""
    assert given == fixed, (records[-1], given, fixed)


def insert(subject, where, value, number, count=0, size=STORE):
    """An insert; its count is how many groups it makes."""
    hold(record("I", path(where), value[1], subject, value[0], size), (number, count, b""))


def update(subject, where, value, number, count=0, size=STORE):
    """An update."""
    hold(record("U", path(where), value[1], subject, value[0], size), (number, count, b""))


def delete(subject, where, number, count=0, size=STORE):
    """A delete."""
    hold(record("D", path(where), b"", subject, 0, size), (number, count, b""))


def view(subject, where, room, number, count=0, lines=(), size=STORE):
    """A view, and its listing with an arrow for each tab."""
    text = "".join(line.replace("→", "\t") + "\n" for line in lines)
    hold(record("V", path(where), b"", subject, room, size), (number, count, text.encode("latin-1")))


def view_lines(subject, where, lines):
    """A view of which only the first line is written in the case: how many lines follow it."""
    number, count, text = record("V", path(where), b"", subject, 4000, STORE)
    hold((number, text.split(b"\n")[0], text.count(b"\n")), (0, b"VIEW\t%d\t%d" % (subject, lines), lines + 1))


def markup(subject, where, room, number, count=0, text="", size=STORE):
    """A view as XML, and the XML."""
    hold(record("M", path(where), b"", subject, room, size), (number, count, text.encode("latin-1")))


def dossier(subject, *elements):
    """A view's XML, of its elements."""
    return '<dossier subject="%d">' % subject + "".join(elements) + "</dossier>"


def e(name, label, kind, *inside):
    """An element of XML: inside it its value, if it has one, and elements."""
    tag = '<e%d label="%d" preserve="%s" kind="%s">' % (name, label, "REMOVED" if kind == "-" else "PRESENT", kind)
    return tag + "".join(inside) + "</e%d>" % name


def markup_elements(subject, where, elements):
    """A view as XML of which only the number of elements is written in the case."""
    number, count, text = record("M", path(where), b"", subject, 8000, STORE)
    hold((number, text.count(b" label="), text.count(b"</e")), (0, elements, elements))


def markup_of(subject, where, *elements):
    """A view as XML of these elements, into an output of its length."""
    text = dossier(subject, *elements)
    markup(subject, where, len(text), 0, len(text), text)


def grade(subject, base, top, n, number, step=0, remainder=0, size=STORE):
    """An even grade from the base's path to the top's."""
    hold(record("G", path(base), path(top), subject, n, size), (number, step, remainder))


def grade_both(subject, one, other, n, number, size=STORE):
    """The even grades from one path to another and from that to the one are refused with one number."""
    grade(subject, one, other, n, number, 0, 0, size)
    grade(subject, other, one, n, number, 0, 0, size)


def intake(subject, where, text, number, count=0, size=STORE):
    """An XML intake of a text below the parent's path; bytes stay as they are."""
    raw = text if isinstance(text, bytes) else text.encode("latin-1")
    hold(record("T", path(where), raw, subject, 0, size), (number, count))


def read_back(subject, where, top, text, count):
    """An XML intake that is done, of a text with its siblings in path order: the subject's XML of its top element is the text."""
    intake(subject, where, text, 0, count)
    markup_of(subject, top, text)


def migration(number, mask=0, size=STORE):
    """A migration."""
    hold(record("O", size=size), (number, mask))


def migration_keeps(number, mask=0, size=STORE):
    """A migration after which every byte is as it was."""
    before = bytes(buffer)
    migration(number, mask, size)
    hold(bytes(buffer), before)


def in_order(label, *paths):
    """The paths of a partition's slots are these, in this order."""
    at = PARTITION * label
    slots = [bytes(buffer[at + 4 + SLOT * i : at + 4 + SLOT * (i + 1)]) for i in range(buffer[at])]
    hold([list(read_slot(slot)[0]) for slot in slots], [steps(where) for where in paths])


def groups(label, names):
    """Groups of one label, as XML."""
    return [e(name, label, "G") for name in names]


def many(label, n, top=1000):
    """A group with n - 1 groups inside, as XML."""
    return e(top, label, "G", *groups(label, range(1, n)))


def deep(name, label, n):
    """A group in a group, n of them, as XML."""
    return e(name, label, "G", deep(name, label, n - 1)) if n > 0 else ""


def corrupt(offset, raw):
    """Bytes that come onto the store."""
    for i in range(0, len(raw), 255):
        if any(raw[i : i + 255]) or any(buffer[offset + i : offset + i + 255]):
            record("X", raw[i : i + 255], subject=offset + i)


def put(label, *elements):
    """A partition's bytes that come onto the store: its count, and a slot for each path and value, as they are given."""
    slots = b"".join(slot_bytes(steps(where), *value) for where, value in elements)
    corrupt(PARTITION * label, (bytes([len(elements), 0, 0, 0]) + slots).ljust(PARTITION, b"\0"))


def show():
    """The store."""
    record("S")


def every_call(number, subject, where, value=G, size=STORE):
    """All seven calls are refused with one number, one that comes before 8, 12 and 13: of an even grade the other path is the
    root's, and an XML intake, below the path, brings a group of the subject's label."""
    insert(subject, where, value, number, 0, size)
    update(subject, where, value, number, 0, size)
    delete(subject, where, number, 0, size)
    view(subject, where, 100, number, 0, (), size)
    markup(subject, where, 100, number, 0, "", size)
    grade_both(subject, where, "/", 1, number, size)
    intake(subject, where, e(1, subject, "G"), number, 0, size)


# ---------------------------------------------------------------------------------------------------------------------
# Listings: document 01's example and what follows on it; the order of what is listed; which labels a subject sees.


@case("the example")
def example():
    insert(0, "10:0", G, 0)
    insert(16, "10:0/20:16", M(-150), 0)
    delete(0, "10:0", 0, 1)
    view(0, "/", 9, 0, 9, ["VIEW→0→0"])
    example = ["VIEW→16→2", "1→10→0→R→-→-", "2→20→16→P→M→-150"]
    view(16, "/", 16384, 0, 40, example)
    then("its last listing in 40 bytes, in 39 and in none")
    view(16, "/", 40, 0, 40, example)
    view(16, "/", 39, 10)
    view(16, "/", 0, 10)
    view(0, "/", 8, 10)
    then("the removed element inserted again")
    insert(0, "10:0", T("SLEEVE"), 0)
    insert(0, "10:0", T("SLEEVE"), 8)
    view(16, "/", 100, 0, 45, ["VIEW→16→2", "1→10→0→P→T→SLEEVE", "2→20→16→P→M→-150"])
    view(0, "/", 100, 0, 27, ["VIEW→0→1", "1→10→0→P→T→SLEEVE"])
    show()


@case("an empty listing")
def empty_listing():
    view(31, "/", 10, 0, 10, ["VIEW→31→0"])
    view(31, "/", 9, 10)
    view(31, "/", 0, 10)
    view(7, "/", 9, 0, 9, ["VIEW→7→0"])
    show()


@case("views below the root")
def below_the_root():
    insert(0, "10:0", G, 0)
    insert(0, "10:0/20:0", T("BACK"), 0)
    insert(0, "10:0/20:0/30:0", M(7), 0)
    insert(0, "10:0/21:0", T("FRONT"), 0)
    insert(0, "11:0", G, 0)
    view(0, "10:0", 100, 0, 68, ["VIEW→0→4", "1→10→0→P→G→-", "2→20→0→P→T→BACK", "3→30→0→P→M→7", "2→21→0→P→T→FRONT"])
    view(0, "10:0/20:0", 100, 0, 38, ["VIEW→0→2", "2→20→0→P→T→BACK", "3→30→0→P→M→7"])
    view(0, "10:0/20:0/30:0", 22, 0, 22, ["VIEW→0→1", "3→30→0→P→M→7"])
    view(0, "10:0/20:0/30:0", 21, 10)
    view(0, "10:0/22:0", 100, 7)
    view(0, "20:0", 100, 7)
    view(0, "10:16", 100, 7)
    view(16, "10:16", 100, 7)
    view(16, "11:0", 100, 0, 23, ["VIEW→16→1", "1→11→0→P→G→-"])


@case("names 255, 256 and 257 in path order")
def names_in_order():
    insert(0, "257:0", G, 0)
    insert(0, "255:0", G, 0)
    insert(0, "65535:0", G, 0)
    insert(0, "256:0", G, 0)
    insert(0, "1:0", G, 0)
    insert(0, "256:0/1:0", G, 0)
    lines = ["VIEW→0→6", "1→1→0→P→G→-", "1→255→0→P→G→-", "1→256→0→P→G→-", "2→1→0→P→G→-", "1→257→0→P→G→-", "1→65535→0→P→G→-"]
    view(0, "/", 91, 0, 91, lines)
    show()


@case("versions of one name, the highest level first")
def versions():
    insert(0, "10:0", T("a"), 0)
    insert(16, "10:16", T("b"), 0)
    insert(9, "10:9", T("c"), 0)
    insert(16, "10:0/10:16", T("d"), 0)
    insert(9, "10:9/10:9", T("e"), 0)
    lines = ["VIEW→25→5", "1→10→16→P→T→b", "1→10→9→P→T→c", "2→10→9→P→T→e", "1→10→0→P→T→a", "2→10→16→P→T→d"]
    view(25, "/", 100, 0, 77, lines)
    view(16, "/", 100, 0, 51, ["VIEW→16→3", "1→10→16→P→T→b", "1→10→0→P→T→a", "2→10→16→P→T→d"])
    view(9, "/", 100, 0, 48, ["VIEW→9→3", "1→10→9→P→T→c", "2→10→9→P→T→e", "1→10→0→P→T→a"])
    show()


@case("an element of each label, seen by each subject")
def each_label():
    for label in range(32):
        insert(label, "%d:%d" % (100 + label, label), G, 0)
    # how many labels one level's label dominates, by compartments
    below = [1, 2, 2, 4, 2, 4, 4, 8]
    for subject in range(32):
        view_lines(subject, "/", below[subject % 8] * (subject // 8 + 1))
        markup_elements(subject, "/", below[subject % 8] * (subject // 8 + 1))
    view(19, "117:17", 100, 0, 25, ["VIEW→19→1", "1→117→17→P→G→-"])
    view(16, "109:9", 100, 7)
    view(9, "116:16", 100, 7)
    view(16, "108:8", 100, 0, 24, ["VIEW→16→1", "1→108→8→P→G→-"])


# ---------------------------------------------------------------------------------------------------------------------
# Paths by their length, names and labels.


@case("six steps and seven")
def six_and_seven():
    six = "1:0/2:0/3:0/4:0/5:0/6:0"
    for n in range(1, 7):
        insert(0, "/".join(six.split("/")[:n]), G, 0)
    every_call(4, 0, six + "/7:0")
    view(0, six, 100, 0, 21, ["VIEW→0→1", "6→6→0→P→G→-"])
    update(0, six, M(1), 0, 1)
    delete(0, six, 0, 1)
    insert(0, six, T("again"), 0)
    show()
    update(0, "1:0/2:0/3:0", T("three"), 0, 1)
    lines = ["VIEW→0→5", "2→2→0→P→G→-", "3→3→0→P→T→three", "4→4→0→P→G→-", "5→5→0→P→G→-", "6→6→0→P→T→again"]
    view(0, "1:0/2:0", 100, 0, 77, lines)
    show()
    delete(0, "1:0/2:0/3:0", 0, 4)
    delete(0, "1:0", 0, 2)
    show()


@case("paths of 1, 2, 4, 18, 19, 20, 21, 24, 189 and 255 bytes")
def path_lengths():
    steps = path("10:0") * 85
    insert(0, "10:0", G, 0)
    for n in (1, 2, 4, 19, 20, 21, 24, 189, 255):
        every_call(4, 0, steps[:n])
    update(0, steps[:18], G, 7)
    delete(0, steps[:18], 7)
    view(0, steps[:18], 100, 7)
    markup(0, steps[:18], 100, 7)
    insert(0, steps[:18], G, 0, 4)
    delete(0, steps[:6], 0, 5)
    then("no step")
    insert(0, "/", G, 4)
    update(0, "/", G, 4)
    delete(0, "/", 4)
    view(0, "/", 22, 0, 22, ["VIEW→0→1", "1→10→0→P→G→-"])
    markup(0, "/", 80, 0, 80, '<dossier subject="0"><e10 label="0" preserve="PRESENT" kind="G"></e10></dossier>')
    then("name 0, first and last; labels 32 and 255; labels not ascending")
    every_call(4, 0, "0:0")
    every_call(4, 0, "10:0/0:0")
    every_call(4, 31, "10:32")
    every_call(4, 31, "10:255")
    every_call(4, 9, "10:16/20:9")
    every_call(4, 0, "10:16/20:0")
    every_call(4, 16, "10:0/20:17/30:16")
    show()


@case("labels 9 and 16 in one path")
def nine_and_sixteen():
    insert(9, "10:9", G, 0)
    every_call(4, 16, "10:9/20:16")
    every_call(4, 25, "10:9/20:16")
    insert(25, "10:9/20:25", G, 0)
    show()


# ---------------------------------------------------------------------------------------------------------------------
# Kinds and values.


@case("texts of 0, 1, 16 and 17 bytes")
def texts():
    insert(0, "1:0", T(""), 5)
    insert(0, "1:0", T("x"), 0)
    insert(0, "2:0", T("0123456789abcdef"), 0)
    insert(0, "3:0", T("0123456789abcdefg"), 5)
    insert(0, "3:0", T("x" * 255), 5)
    update(0, "1:0", T(""), 5)
    update(0, "1:0", T("0123456789abcdefg"), 5)
    update(0, "1:0", T("y"), 0, 1)
    view(0, "/", 100, 0, 48, ["VIEW→0→2", "1→1→0→P→T→y", "1→2→0→P→T→0123456789abcdef"])
    then("text bytes 31, 32, 126, 127 and 255")
    insert(0, "4:0", T("ab\x1f"), 5)
    insert(0, "4:0", T("\x7fab"), 5)
    insert(0, "4:0", T("a\xffb"), 5)
    insert(0, "4:0", T(" ~"), 0)
    update(0, "4:0", T("\t"), 5)
    view(0, "4:0", 100, 0, 22, ["VIEW→0→1", "1→4→0→P→T→ ~"])
    show()


@case("measures")
def measures():
    for name, n in enumerate([-2147483648, 2147483647, 0, -1, -10, 99], 1):
        insert(0, "%d:0" % name, M(n), 0)
    lines = ["VIEW→0→6", "1→1→0→P→M→-2147483648", "1→2→0→P→M→2147483647", "1→3→0→P→M→0", "1→4→0→P→M→-1", "1→5→0→P→M→-10"]
    view(0, "/", 104, 0, 104, lines + ["1→6→0→P→M→99"])
    view(0, "1:0", 31, 0, 31, ["VIEW→0→1", "1→1→0→P→M→-2147483648"])
    view(0, "1:0", 30, 10)
    show()


@case("measures of 0, 3 and 5 bytes, a group of 1 byte, kinds 3, 256, 257, 258 and 4294967295")
def no_values():
    insert(0, "9:0", G, 0)
    bad = [(1, b""), (1, b"abc"), (1, b"abcde"), (0, b"a"), (3, b""), (3, b"a"), (3, b"abcd")]
    bad += [(256, b""), (257, b"abcd"), (258, b"a"), (4294967295, b""), (4294967295, b"abcd")]
    for value in bad:
        insert(0, "1:0", value, 5)
        update(0, "9:0", value, 5)
    show()


# ---------------------------------------------------------------------------------------------------------------------
# A partition with 32 elements.


@case("the 32nd insert of a label, the 33rd, another label's")
def full():
    for n in range(1, 33):
        insert(0, "%d:0" % n, G, 0)
    insert(0, "33:0", G, 9)
    insert(0, "1:0/1:0", G, 9)
    insert(0, "0:0", G, 4)
    then("full and live, full and the parent not in view")
    insert(0, "32:0", G, 8)
    insert(0, "33:0/1:0", G, 9)
    insert(16, "33:0/1:16", G, 7)
    insert(16, "33:16", G, 0)
    insert(16, "32:0/33:16", G, 0)
    then("an update of one of 32, then a delete and the insert again")
    update(0, "17:0", T("new"), 0, 1)
    insert(0, "33:0", G, 9)
    delete(0, "16:0", 0, 1)
    insert(0, "33:0", M(33), 0)
    insert(0, "34:0", G, 9)
    show()
    then("an update of one of 32 that has others below it")
    delete(0, "1:0", 0, 1)
    delete(0, "2:0", 0, 1)
    insert(0, "17:0/5:0", M(5), 0)
    insert(0, "17:0/5:0/6:0", T("six"), 0)
    insert(16, "17:0/5:0/6:16", G, 0)
    update(0, "17:0", M(17), 0, 1)
    update(0, "17:0/5:0", G, 0, 1)
    insert(0, "34:0", G, 9)
    lines = ["VIEW→16→4", "1→17→0→P→M→17", "2→5→0→P→G→-", "3→6→16→P→G→-", "3→6→0→P→T→six"]
    view(16, "17:0", 100, 0, 63, lines)
    show()
    delete(0, "17:0", 0, 3)
    insert(0, "34:0", G, 0)
    view_lines(0, "/", 30)


@case("removed elements are not counted")
def removed_not_counted():
    for n in range(1, 33):
        insert(0, "%d:0" % n, G, 0)
        insert(16, "%d:0/1:16" % n, G, 0)
    insert(16, "1:16", G, 9)
    insert(0, "33:0", G, 9)
    for n in range(1, 33):
        delete(0, "%d:0" % n, 0, 1)
    view_lines(16, "/", 64)
    view(0, "/", 100, 0, 9, ["VIEW→0→0"])
    for n in range(33, 65):
        insert(0, "%d:0" % n, G, 0)
    insert(0, "65:0", G, 9)
    insert(0, "1:0", G, 9)
    view_lines(16, "/", 96)
    view_lines(0, "/", 32)


# ---------------------------------------------------------------------------------------------------------------------
# Live, removed and gone.


@case("an insert of a lower label where a higher version exists")
def higher_version():
    insert(16, "10:16", T("high"), 0)
    insert(0, "10:0", T("low"), 0)
    insert(24, "10:0/20:24", G, 0)
    insert(0, "10:0/20:0", G, 0)
    insert(16, "10:0/20:16", G, 0)
    view(0, "/", 100, 0, 37, ["VIEW→0→2", "1→10→0→P→T→low", "2→20→0→P→G→-"])
    lines = ["VIEW→24→5", "1→10→16→P→T→high", "1→10→0→P→T→low", "2→20→24→P→G→-", "2→20→16→P→G→-", "2→20→0→P→G→-"]
    view(24, "/", 100, 0, 83, lines)
    insert(16, "10:16/20:16", G, 0)
    insert(24, "10:24/20:24", G, 0, 1)


@case("an update of an element whose parent is removed")
def parent_removed():
    insert(0, "10:0", G, 0)
    insert(16, "10:0/20:16", M(1), 0)
    insert(16, "10:0/20:16/30:16", M(4), 0)
    delete(0, "10:0", 0, 1)
    update(16, "10:0/20:16", M(2), 0, 1)
    insert(16, "10:0/21:16", M(3), 0)
    lines = ["VIEW→16→4", "1→10→0→R→-→-", "2→20→16→P→M→2", "3→30→16→P→M→4", "2→21→16→P→M→3"]
    view(16, "/", 100, 0, 65, lines)
    update(0, "10:0", G, 7)
    delete(0, "10:0", 7)
    insert(0, "10:0/22:0", G, 0, 1)
    delete(0, "10:0", 0, 2)
    then("the mark vanishes with the last live element below it")
    delete(16, "10:0/21:16", 0, 1)
    view(16, "10:0", 100, 0, 51, ["VIEW→16→3", "1→10→0→R→-→-", "2→20→16→P→M→2", "3→30→16→P→M→4"])
    delete(16, "10:0/20:16", 0, 2)
    view(16, "10:0", 100, 7)
    view(16, "/", 100, 0, 10, ["VIEW→16→0"])
    insert(16, "10:0/20:16", M(1), 7)
    show()


@case("deletes take what is below of the same label")
def below_of_one_label():
    insert(0, "10:0", G, 0)
    insert(0, "10:0/20:0", G, 0)
    insert(0, "10:0/20:0/30:0", G, 0)
    insert(0, "10:0/21:0", G, 0)
    insert(0, "11:0", G, 0)
    insert(16, "10:0/20:0/30:16", G, 0)
    insert(16, "10:16", G, 0)
    delete(0, "10:0/20:0", 0, 2)
    lines = ["VIEW→16→6", "1→10→16→P→G→-", "1→10→0→P→G→-", "2→20→0→R→-→-", "3→30→16→P→G→-", "2→21→0→P→G→-", "1→11→0→P→G→-"]
    view(16, "/", 100, 0, 90, lines)
    insert(0, "10:0/20:0", M(5), 0)
    delete(0, "10:0", 0, 3)
    lines = ["VIEW→16→5", "1→10→16→P→G→-", "1→10→0→R→-→-", "2→20→0→R→-→-", "3→30→16→P→G→-", "1→11→0→P→G→-"]
    view(16, "/", 100, 0, 77, lines)
    view(16, "10:0/20:0", 100, 0, 37, ["VIEW→16→2", "2→20→0→R→-→-", "3→30→16→P→G→-"])
    view(0, "/", 100, 0, 22, ["VIEW→0→1", "1→11→0→P→G→-"])
    insert(0, "10:0/20:0", G, 0, 1)
    delete(0, "10:0", 0, 2)
    insert(16, "10:0/20:0/31:16", G, 0)
    delete(16, "10:0/20:0/30:16", 0, 1)
    delete(16, "10:0/20:0/30:16", 7)
    show()


@case("an update keeps what is below")
def update_keeps():
    # document 02's request 2/14
    insert(0, "10:0", G, 0)
    insert(0, "10:0/20:0", G, 0)
    insert(0, "10:0/20:0/30:0", G, 0)
    update(0, "10:0", T("PIECE"), 0, 1)
    view(0, "/", 100, 0, 52, ["VIEW→0→3", "1→10→0→P→T→PIECE", "2→20→0→P→G→-", "3→30→0→P→G→-"])
    show()
    update(0, "10:0/20:0", M(5), 0, 1)
    view(0, "/", 100, 0, 52, ["VIEW→0→3", "1→10→0→P→T→PIECE", "2→20→0→P→M→5", "3→30→0→P→G→-"])
    markup(0, "/", 200, 0, 184, dossier(0, e(10, 0, "T", "PIECE", e(20, 0, "M", "5", e(30, 0, "G")))))
    show()
    update(0, "11:0", G, 7)
    view(0, "/", 100, 0, 52, ["VIEW→0→3", "1→10→0→P→T→PIECE", "2→20→0→P→M→5", "3→30→0→P→G→-"])
    delete(0, "10:0", 0, 3)
    view(0, "/", 100, 0, 9, ["VIEW→0→0"])
    then("an update keeps what is below of its own label and of others")
    insert(0, "10:0", T("SLEEVE LEFT HAND"), 0)
    insert(0, "10:0/20:0", M(1), 0)
    insert(9, "10:0/20:0/30:9", M(2), 0)
    insert(16, "10:0/20:16", T("high"), 0)
    insert(16, "10:0/20:16/40:16", M(3), 0)
    update(0, "10:0", T("CUFF"), 0, 1)
    update(16, "10:0/20:16", G, 0, 1)
    view(0, "/", 100, 0, 38, ["VIEW→0→2", "1→10→0→P→T→CUFF", "2→20→0→P→M→1"])
    high, low = ["2→20→16→P→G→-", "3→40→16→P→M→3"], ["2→20→0→P→M→1", "3→30→9→P→M→2"]
    view(25, "/", 100, 0, 80, ["VIEW→25→5", "1→10→0→P→T→CUFF"] + high + low)
    update(0, "10:0/20:0", M(-1), 0, 1)
    view(25, "10:0/20:0", 100, 0, 37, ["VIEW→25→2", "2→20→0→P→M→-1", "3→30→9→P→M→2"])
    show()


@case("a delete, the same again, and what is left")
def delete_again():
    put(0, ("10:0", G), ("10:0/20:0", G), ("11:0", G))
    view(0, "10:0", 100, 0, 35, ["VIEW→0→2", "1→10→0→P→G→-", "2→20→0→P→G→-"])
    delete(0, "10:0", 0, 2)
    view(0, "/", 100, 0, 22, ["VIEW→0→1", "1→11→0→P→G→-"])
    view(0, "10:0", 100, 7)
    delete(0, "10:0", 7)
    insert(0, "11:0", G, 8)
    show()


@case("names 254 to 258 among 255, 256 and 257")
def names_sought():
    put(0, ("255:0", G), ("256:0", G), ("257:0", G))
    for name, number in ((254, 7), (255, 0), (256, 0), (257, 0), (258, 7)):
        update(0, "%d:0" % name, M(name), number, 1 if number == 0 else 0)
    show()
    for name, number in ((254, 0), (255, 8), (256, 8), (257, 8), (258, 0)):
        insert(0, "%d:0" % name, G, number)
    show()


@case("10:0/20:16 alone, seen by 0, 9, 16 and 31")
def alone():
    put(16, ("10:0/20:16", G))
    view(0, "/", 100, 0, 9, ["VIEW→0→0"])
    view(0, "10:0", 100, 7)
    view(9, "10:0", 100, 7)
    view(16, "10:0", 100, 0, 37, ["VIEW→16→2", "1→10→0→R→-→-", "2→20→16→P→G→-"])
    view(31, "10:0", 100, 0, 37, ["VIEW→31→2", "1→10→0→R→-→-", "2→20→16→P→G→-"])
    view(31, "11:0", 100, 7)


# ---------------------------------------------------------------------------------------------------------------------
# Views as XML: document 02's request 1/14.


@case("XML of a view")
def xml():
    insert(0, "10:0", G, 0)
    insert(16, "10:0/20:16", M(-150), 0)
    insert(16, "10:0/20:16/5:16", T('a<b & "c">d'), 0)
    insert(16, "11:16", T("&"), 0)
    insert(0, "10:0/7:0", T("SLEEVE"), 0)
    delete(0, "10:0", 0, 2)
    e5 = '<e5 label="16" preserve="PRESENT" kind="T">a&lt;b &amp; "c"&gt;d</e5>'
    e20 = '<e20 label="16" preserve="PRESENT" kind="M">-150' + e5 + "</e20>"
    e10 = '<e10 label="0" preserve="REMOVED" kind="-">' + e20 + "</e10>"
    e11 = '<e11 label="16" preserve="PRESENT" kind="T">&amp;</e11>'
    whole = '<dossier subject="16">' + e10 + e11 + "</dossier>"
    markup(0, "/", 1000, 0, 31, '<dossier subject="0"></dossier>')
    markup(8, "/", 1000, 0, 31, '<dossier subject="8"></dossier>')
    markup(16, "/", 1000, 0, 259, whole)
    markup(31, "/", 1000, 0, 259, '<dossier subject="31">' + e10 + e11 + "</dossier>")
    then("XML of a path below the root")
    markup(16, "10:0", 1000, 0, 204, '<dossier subject="16">' + e10 + "</dossier>")
    markup(16, "10:0/20:16", 1000, 0, 155, '<dossier subject="16">' + e20 + "</dossier>")
    markup(16, "10:0/20:16/5:16", 1000, 0, 101, '<dossier subject="16">' + e5 + "</dossier>")
    markup(16, "11:16", 1000, 0, 87, '<dossier subject="16">' + e11 + "</dossier>")
    markup(16, "9:0", 1000, 7)
    markup(16, "10:0/7:0", 1000, 7)
    markup(0, "10:0", 1000, 7)
    markup(9, "11:16", 1000, 7)
    then("XML of 259 bytes, in 259, in 258 and in none")
    markup(16, "/", 259, 0, 259, whole)
    markup(16, "/", 258, 10)
    markup(16, "/", 0, 10)
    markup(16, "9:0", 0, 7)
    then("the same elements in lines and in XML, in 77 bytes")
    lines = ["VIEW→16→4", "1→10→0→R→-→-", "2→20→16→P→M→-150", '3→5→16→P→T→a<b & "c">d', "1→11→16→P→T→&"]
    view(16, "/", 77, 0, 77, lines)
    markup(16, "/", 77, 10)
    show()


@case("an empty view in XML")
def xml_empty():
    for subject, n in ((0, 31), (9, 31), (10, 32), (31, 32)):
        markup(subject, "/", n, 0, n, '<dossier subject="%d"></dossier>' % subject)
        markup(subject, "/", n - 1, 10)


@case("the characters that are escaped")
def xml_escapes():
    insert(0, "1:0", T("&<>"), 0)
    insert(0, "2:0", T("&" * 16), 0)
    insert(0, "3:0", T("<" * 16), 0)
    insert(0, "4:0", T(">" * 16), 0)
    insert(0, "5:0", T("&amp;&lt;&quot;"), 0)
    insert(0, "6:0", T("</e6>]]>"), 0)
    insert(0, "7:0", T("\"it's\" 'so'"), 0)
    markup(0, "1:0", 100, 0, 91, '<dossier subject="0"><e1 label="0" preserve="PRESENT" kind="T">&amp;&lt;&gt;</e1></dossier>')
    markup(0, "3:0", 200, 0, 142, dossier(0, e(3, 0, "T", "&lt;" * 16)))
    markup(0, "4:0", 200, 0, 142, dossier(0, e(4, 0, "T", "&gt;" * 16)))
    markup(0, "5:0", 200, 0, 105, dossier(0, e(5, 0, "T", "&amp;amp;&amp;lt;&amp;quot;")))
    markup(0, "6:0", 200, 0, 95, dossier(0, e(6, 0, "T", "&lt;/e6&gt;]]&gt;")))
    then("a text of sixteen &, in 158 bytes and in 157")
    markup(0, "2:0", 158, 0, 158, dossier(0, e(2, 0, "T", "&amp;" * 16)))
    markup(0, "2:0", 157, 10)
    then("a text with quotes and apostrophes")
    markup(0, "7:0", 100, 0, 89, dossier(0, e(7, 0, "T", "\"it's\" 'so'")))
    show()


@case("every character of a text in XML")
def xml_characters():
    others = ["@ABCDEFGHIJKLMNO", "PQRSTUVWXYZ[\\]^_", "`abcdefghijklmno", "pqrstuvwxyz{|}~"]
    for name, text in enumerate([" !\"#$%&'()*+,-./", "0123456789:;<=>?"] + others, 1):
        insert(0, "%d:0" % name, T(text), 0)
    written = [" !\"#$%&amp;'()*+,-./", "0123456789:;&lt;=&gt;?"] + others
    markup(0, "/", 500, 0, 418, dossier(0, *[e(name, 0, "T", text) for name, text in enumerate(written, 1)]))


@case("measures in XML")
def xml_measures():
    for name, n in enumerate([-2147483648, 2147483647, 0, -1, -10, 99], 1):
        insert(0, "%d:0" % name, M(n), 0)
    least, most = e(1, 0, "M", "-2147483648"), e(2, 0, "M", "2147483647")
    others = [e(3, 0, "M", "0"), e(4, 0, "M", "-1"), e(5, 0, "M", "-10"), e(6, 0, "M", "99")]
    markup(0, "/", 400, 0, 342, dossier(0, least, most, *others))
    markup(0, "1:0", 89, 0, 89, '<dossier subject="0"><e1 label="0" preserve="PRESENT" kind="M">-2147483648</e1></dossier>')
    markup(0, "1:0", 88, 10)


@case("a removed element and an empty group in XML")
def xml_removed():
    insert(0, "10:0", T("PIECE"), 0)
    insert(0, "10:0/20:0", M(5), 0)
    insert(16, "10:0/20:0/30:16", G, 0)
    insert(16, "10:0/21:16", G, 0)
    e20 = e(20, 0, "M", "5", e(30, 16, "G"))
    markup(16, "/", 300, 0, 236, dossier(16, e(10, 0, "T", "PIECE", e20, e(21, 16, "G"))))
    delete(0, "10:0", 0, 2)
    e20 = e(20, 0, "-", e(30, 16, "G"))
    markup(16, "/", 300, 0, 230, dossier(16, e(10, 0, "-", e20, e(21, 16, "G"))))
    markup(16, "10:0/20:0", 300, 0, 131, dossier(16, e20))
    markup(16, "10:0/21:16", 300, 0, 82, '<dossier subject="16"><e21 label="16" preserve="PRESENT" kind="G"></e21></dossier>')
    markup(0, "/", 300, 0, 31, dossier(0))
    then("the removed element inserted again, in XML")
    insert(0, "10:0", G, 0)
    markup(16, "/", 300, 0, 230, dossier(16, e(10, 0, "G", e20, e(21, 16, "G"))))
    markup(0, "/", 300, 0, 80, dossier(0, e(10, 0, "G")))
    then("the mark vanishes in XML with the last live element below it")
    delete(16, "10:0/20:0/30:16", 0, 1)
    markup(16, "/", 300, 0, 131, dossier(16, e(10, 0, "G", e(21, 16, "G"))))
    markup(16, "10:0/20:0", 300, 7)
    show()


@case("versions and names in XML in path order")
def xml_order():
    insert(0, "10:0", T("a"), 0)
    insert(16, "10:16", T("b"), 0)
    insert(9, "10:9", T("c"), 0)
    insert(16, "10:0/10:16", T("d"), 0)
    insert(9, "10:9/10:9", T("e"), 0)
    for where in ("257:0", "255:0", "65535:0", "256:0", "1:0", "256:0/1:0"):
        insert(0, where, G, 0)
    names = [e(255, 0, "G"), e(256, 0, "G", e(1, 0, "G")), e(257, 0, "G"), e(65535, 0, "G")]
    low, nine, high = e(10, 0, "T", "a", e(10, 16, "T", "d")), e(10, 9, "T", "c", e(10, 9, "T", "e")), e(10, 16, "T", "b")
    markup(25, "/", 1000, 0, 586, dossier(25, e(1, 0, "G"), high, nine, low, *names))
    markup(16, "/", 1000, 0, 486, dossier(16, e(1, 0, "G"), high, low, *names))
    markup(9, "/", 1000, 0, 483, dossier(9, e(1, 0, "G"), nine, e(10, 0, "T", "a"), *names))
    markup(25, "10:9", 1000, 0, 132, dossier(25, nine))
    markup(25, "256:0", 1000, 0, 130, dossier(25, names[1]))


@case("XML of 0 and 9 as 16 inserts and deletes and is corrupted")
def xml_lower():
    insert(0, "10:0", T("low"), 0)
    insert(9, "10:0/20:9", M(1), 0)

    def as_it_was():
        """The XML of 0 and the XML of 9."""
        markup(0, "/", 200, 0, 83, dossier(0, e(10, 0, "T", "low")))
        markup(9, "/", 200, 0, 133, dossier(9, e(10, 0, "T", "low", e(20, 9, "M", "1"))))

    as_it_was()
    insert(16, "10:0/20:16", G, 0)
    insert(16, "9:16", T("high"), 0)
    as_it_was()
    delete(16, "9:16", 0, 1)
    as_it_was()
    corrupt(PARTITION * 16 + 2, b"\1")
    as_it_was()
    markup(16, "/", 200, 3)
    show()


@case("six steps deep in XML")
def xml_deep():
    six = "1:0/2:1/3:1/4:3/5:11/6:27"
    for n, label in enumerate((0, 1, 1, 3, 11, 27), 1):
        insert(label, "/".join(six.split("/")[:n]), M(n), 0)
    e3 = e(3, 1, "M", "3", e(4, 3, "M", "4", e(5, 11, "M", "5", e(6, 27, "M", "6"))))
    markup(27, "/", 400, 0, 322, dossier(27, e(1, 0, "M", "1", e(2, 1, "M", "2", e3))))
    markup(27, "1:0/2:1/3:1", 400, 0, 226, dossier(27, e3))
    markup(27, six, 400, 0, 81, dossier(27, e(6, 27, "M", "6")))
    markup(1, "1:0/2:1", 400, 0, 127, dossier(1, e(2, 1, "M", "2", e(3, 1, "M", "3"))))
    then("five of the six removed, in XML")
    delete(0, "1:0", 0, 1)
    delete(1, "1:0/2:1", 0, 2)
    delete(3, "1:0/2:1/3:1/4:3", 0, 1)
    delete(11, "1:0/2:1/3:1/4:3/5:11", 0, 1)
    e3 = e(3, 1, "-", e(4, 3, "-", e(5, 11, "-", e(6, 27, "M", "6"))))
    markup(27, "/", 400, 0, 317, dossier(27, e(1, 0, "-", e(2, 1, "-", e3))))
    markup(11, "/", 400, 0, 32, dossier(11))


@case("siblings in XML after a deep branch")
def xml_siblings():
    # from six steps on to six, five, four, three, two and one, and from three steps to one
    made = set()
    for branch in ("1 2 3 4 5 6", "1 2 3 4 5 7", "1 2 3 4 8 1", "1 2 3 9 1 1", "1 2 10 1 1 1", "1 11 1 1 1 1", "12 1 1", "13"):
        names = branch.split()
        for n in range(1, len(names) + 1):
            where = "/".join(name + ":0" for name in names[:n])
            if where not in made:
                insert(0, where, G, 0)
                made.add(where)

    def group(name, *inside):
        """A group of label 0."""
        return e(name, 0, "G", *inside)

    e4 = group(4, group(5, group(6), group(7)), group(8, group(1)))
    e2 = group(2, group(3, e4, group(9, group(1, group(1)))), group(10, group(1, group(1, group(1)))))
    e11 = group(11, group(1, group(1, group(1, group(1)))))
    e12 = group(12, group(1, group(1)))
    markup(0, "/", 2000, 0, 1214, dossier(0, group(1, e2, e11), e12, group(13)))
    markup(0, "1:0", 2000, 0, 1022, dossier(0, group(1, e2, e11)))
    markup(0, "1:0/2:0", 2000, 0, 738, dossier(0, e2))
    markup(0, "1:0/2:0/3:0/4:0", 2000, 0, 313, dossier(0, e4))
    markup(0, "12:0", 2000, 0, 174, dossier(0, e12))
    markup(0, "13:0", 2000, 0, 80, dossier(0, group(13)))


# ---------------------------------------------------------------------------------------------------------------------
# Even grades: document 02's request 3/14.


@case("even grades")
def grades():
    for name, n in enumerate([1000, 1025, 990, -2147483648, 2147483647], 1):
        insert(0, "%d:0" % name, M(n), 0)
    insert(0, "6:0", G, 0)
    insert(16, "7:16", M(5), 0)
    insert(0, "8:0", G, 0)
    insert(16, "8:0/9:16", M(6), 0)
    delete(0, "8:0", 0, 1)
    insert(0, "10:0", T("SLEEVE"), 0)
    grade(0, "1:0", "2:0", 4, 0, 6, 1)
    grade(0, "1:0", "3:0", 3, 0, -4, 2)
    grade(0, "1:0", "1:0", 64, 0, 0, 0)
    grade(0, "4:0", "5:0", 1, 0, 4294967295, 0)
    grade(0, "5:0", "4:0", 1, 0, -4294967295, 0)
    grade(0, "5:0", "4:0", 64, 0, -67108864, 1)
    grade(0, "1:0", "2:0", 0, 11)
    grade(0, "1:0", "2:0", 65, 11)
    grade(0, "1:0", "99:0", 0, 11)
    grade(0, "1:0", "99:0", 2, 7)
    grade(0, "6:0", "99:0", 2, 7)
    grade(0, "1:0", "6:0", 2, 12)
    grade(0, "/", "1:0", 2, 12)
    grade(0, "1:0", "7:16", 2, 7)
    grade(16, "1:0", "7:16", 2, 0, -498, 1)
    grade(16, "8:0", "1:0", 2, 12)
    grade(16, "8:0/9:16", "1:0", 7, 0, 142, 0)
    grade(0, "1:0", "10:0", 2, 12)
    grade(0, "/", "99:0", 2, 7)
    grade(40, "1:0", "2:0", 4, 2)
    grade(0, "0:0", "1:0", 4, 4)
    grade(0, "1:0", "1:40", 0, 4)
    show()


@case("even grades in 1 to 64 sizes")
def grade_sizes():
    insert(0, "1:0", M(-10), 0)
    insert(0, "2:0", M(990), 0)
    for n, step, remainder in ((1, 1000, 0), (2, 500, 0), (3, 333, 1), (7, 142, 6), (63, 15, 55), (64, 15, 40)):
        grade(0, "1:0", "2:0", n, 0, step, remainder)
    for n, step, remainder in ((1, -1000, 0), (2, -500, 0), (3, -334, 2), (7, -143, 1), (63, -16, 8), (64, -16, 24)):
        grade(0, "2:0", "1:0", n, 0, step, remainder)
    then("even grades in 0, 65, 256, 257, 320, 65540, 4294967232 and 4294967295 sizes")
    for n in (0, 65, 256, 257, 320, 65540, 4294967232, 4294967295):
        grade(0, "1:0", "2:0", n, 11)
    show()


@case("even grades round down, to a top that is greater and to one that is smaller")
def grade_rounding():
    insert(0, "1:0", M(0), 0)
    rows = ((-129, -3, 63), (-128, -2, 0), (-127, -2, 1), (-65, -2, 63), (-64, -1, 0), (-63, -1, 1), (-1, -1, 63))
    rows += ((1, 0, 1), (63, 0, 63), (64, 1, 0), (65, 1, 1), (127, 1, 63), (128, 2, 0), (129, 2, 1))
    for name, (n, step, remainder) in enumerate(rows, 2):
        insert(0, "%d:0" % name, M(n), 0)
        grade(0, "1:0", "%d:0" % name, 64, 0, step, remainder)
    then("a difference of -1 and of 1, by the number of sizes")
    for n in (1, 2, 3, 63):
        grade(0, "1:0", "8:0", n, 0, -1, n - 1)
    grade(0, "8:0", "1:0", 1, 0, 1, 0)
    grade(0, "8:0", "1:0", 2, 0, 0, 1)
    grade(0, "8:0", "1:0", 63, 0, 0, 1)
    then("a base that is negative, and a base and a top that are")
    grade(0, "7:0", "10:0", 63, 0, 2, 0)
    grade(0, "10:0", "7:0", 63, 0, -2, 0)
    grade(0, "2:0", "3:0", 3, 0, 0, 1)
    grade(0, "3:0", "2:0", 3, 0, -1, 2)
    grade(0, "2:0", "8:0", 3, 0, 42, 2)
    grade(0, "8:0", "2:0", 3, 0, -43, 1)


@case("even grades of the least measure and the greatest")
def grade_extremes():
    for name, n in enumerate([-2147483648, 2147483647, 0, -1], 1):
        insert(0, "%d:0" % name, M(n), 0)
    rows = ((1, 4294967295, 0), (2, 2147483647, 1), (3, 1431655765, 0), (63, 68174084, 3), (64, 67108863, 63))
    for n, step, remainder in rows:
        grade(0, "1:0", "2:0", n, 0, step, remainder)
    rows = ((1, -4294967295, 0), (2, -2147483648, 1), (3, -1431655765, 0), (63, -68174085, 60), (64, -67108864, 1))
    for n, step, remainder in rows:
        grade(0, "2:0", "1:0", n, 0, step, remainder)
    then("even grades between these and 0 and -1")
    grade(0, "3:0", "1:0", 1, 0, -2147483648, 0)
    grade(0, "1:0", "3:0", 1, 0, 2147483648, 0)
    grade(0, "2:0", "3:0", 2, 0, -1073741824, 1)
    grade(0, "4:0", "2:0", 64, 0, 33554432, 0)
    grade(0, "2:0", "4:0", 64, 0, -33554432, 0)
    grade(0, "2:0", "4:0", 63, 0, -34087043, 61)
    grade(0, "4:0", "1:0", 3, 0, -715827883, 2)
    grade(0, "1:0", "1:0", 3, 0, 0, 0)
    grade(0, "2:0", "2:0", 64, 0, 0, 0)
    show()


@case("even grades by each byte of a measure")
def grade_bytes():
    insert(0, "1:0", M(1), 0)
    rows = ((128, 127), (32768, 32767), (8388608, 8388607), (16777216, 16777215), (-255, -256), (-16777215, -16777216))
    for name, (n, step) in enumerate(rows, 2):
        insert(0, "%d:0" % name, M(n), 0)
        grade(0, "1:0", "%d:0" % name, 1, 0, step, 0)


@case("even grades of one path twice")
def grade_twice():
    insert(0, "1:0", M(-7), 0)
    insert(0, "2:0", G, 0)
    insert(0, "3:0", T("abcd"), 0)
    insert(0, "4:0", M(9), 0)
    insert(16, "4:0/5:16", M(5), 0)
    delete(0, "4:0", 0, 1)
    for n in (1, 2, 64):
        grade(0, "1:0", "1:0", n, 0, 0, 0)
    grade(16, "4:0/5:16", "4:0/5:16", 64, 0, 0, 0)
    then("one path twice: a group, a text, a removed element, the root; not in view; no path; 0 sizes and 65")
    grade(0, "2:0", "2:0", 1, 12)
    grade(0, "3:0", "3:0", 1, 12)
    grade(16, "4:0", "4:0", 1, 12)
    grade(0, "/", "/", 1, 12)
    grade(0, "4:0", "4:0", 1, 7)
    grade(0, "4:0/5:16", "4:0/5:16", 1, 7)
    grade(9, "4:0/5:16", "4:0/5:16", 1, 7)
    grade(0, "99:0", "99:0", 1, 7)
    grade(0, "0:0", "0:0", 1, 4)
    grade(0, "1:0", "1:0", 0, 11)
    grade(0, "1:0", "1:0", 65, 11)
    show()


@case("12: an even grade of a group, of texts of 4 bytes and of 16, of a removed element, of the root")
def grade_12():
    insert(0, "1:0", M(1), 0)
    insert(0, "2:0", G, 0)
    insert(0, "3:0", T("abcd"), 0)
    insert(0, "4:0", T("0123456789abcdef"), 0)
    insert(0, "5:0", M(5), 0)
    insert(16, "5:0/6:16", M(6), 0)
    delete(0, "5:0", 0, 1)
    for where in ("2:0", "3:0", "4:0", "5:0", "/"):
        grade_both(16, "1:0", where, 2, 12)
    grade_both(16, "2:0", "5:0", 2, 12)
    grade_both(16, "3:0", "/", 2, 12)
    grade(16, "1:0", "5:0/6:16", 2, 0, 2, 1)
    show()


@case("an even grade's 4 before 11, 7 and 12, by either path")
def grade_order():
    insert(0, "1:0", M(1), 0)
    insert(0, "2:0", G, 0)
    # beside bytes that are no path: a measure, an element not in view, a group, the root
    for where in ("1:0", "99:0", "2:0", "/"):
        grade_both(0, "0:0", where, 0, 4)
    grade_both(0, "0:0", "99:0", 2, 4)
    grade_both(0, "0:0", "2:0", 2, 4)
    for bad in (b"\1", b"\1\0", path("1:0") * 6 + b"\1", path("1:0") * 7, "1:16/2:9"):
        grade_both(16, bad, "1:0", 2, 4)
    grade(0, "0:0", b"\1", 65, 4)
    then("11 before 7 and 12, by either path")
    grade_both(0, "1:0", "99:0", 0, 11)
    grade_both(0, "1:0", "2:0", 65, 11)
    grade_both(0, "99:0", "2:0", 256, 11)
    then("7 before 12, by either path")
    grade_both(0, "1:0", "99:0", 64, 7)
    grade_both(0, "2:0", "99:0", 64, 7)
    grade_both(0, "/", "99:0", 64, 7)
    grade(0, "98:0", "99:0", 64, 7)
    show()


@case("1, 2 and 3 of an even grade of two measures")
def grade_barred():
    insert(0, "1:0", M(1), 0)
    insert(0, "2:0", M(8), 0)
    insert(16, "3:16", M(3), 0)
    grade(0, "1:0", "2:0", 2, 1, 0, 0, 41087)
    grade(0, "1:0", "2:0", 2, 1, 0, 0, 41089)
    grade(32, "0:0", "2:0", 0, 1, 0, 0, 41087)
    for subject in (32, 287, 4294967295):
        grade(subject, "1:0", "2:0", 2, 2)
    grade(287, "0:0", "2:0", 0, 2)
    then("a partition that the subject dominates corrupted, and one that he does not")
    corrupt(PARTITION * 16 + 2, b"\1")
    grade(0, "1:0", "2:0", 2, 0, 3, 1)
    grade(9, "2:0", "1:0", 2, 0, -4, 1)
    grade(0, "1:0", "3:16", 2, 7)
    grade(16, "1:0", "2:0", 2, 3)
    grade(31, "1:0", "2:0", 2, 3)
    grade(16, "0:0", "/", 0, 3)
    grade(32, "1:0", "2:0", 2, 2)
    show()
    corrupt(PARTITION * 16 + 2, b"\0")
    grade(16, "2:0", "3:16", 2, 0, -3, 1)
    corrupt(1283, b"\1")
    grade(0, "1:0", "2:0", 2, 3)
    grade(9, "1:0", "2:0", 2, 3)
    show()


@case("even grades of 0 and 9 as 16 inserts and is corrupted")
def grade_lower():
    insert(0, "1:0", M(1000), 0)
    insert(9, "2:9", M(1025), 0)

    def as_it_was():
        """What 0 and 9 are answered of their measures and of those of 16."""
        grade(9, "1:0", "2:9", 4, 0, 6, 1)
        grade_both(0, "1:0", "3:16", 2, 7)
        grade_both(9, "1:0", "4:0", 2, 7)
        grade(9, "4:0/5:16", "4:0/5:16", 2, 7)
        grade(0, "1:0", "3:16", 65, 11)

    as_it_was()
    show()
    insert(16, "3:16", M(5), 0)
    insert(0, "4:0", M(4), 0)
    insert(16, "4:0/5:16", M(6), 0)
    delete(0, "4:0", 0, 1)
    as_it_was()
    grade(16, "1:0", "3:16", 2, 0, -498, 1)
    grade(16, "4:0/5:16", "3:16", 2, 0, -1, 1)
    grade(16, "4:0", "1:0", 2, 12)
    grade(16, "1:0", "2:9", 2, 7)
    grade(25, "2:9", "4:0/5:16", 64, 0, -16, 5)
    show()
    corrupt(PARTITION * 16, b"\41")
    as_it_was()
    grade(16, "1:0", "3:16", 2, 3)
    show()


@case("even grades after updates, deletes and inserts")
def grade_after():
    insert(0, "1:0", M(100), 0)
    insert(0, "2:0", M(200), 0)
    insert(16, "2:0/3:16", M(300), 0)
    grade(0, "1:0", "2:0", 10, 0, 10, 0)
    update(0, "2:0", M(149), 0, 1)
    grade(0, "1:0", "2:0", 10, 0, 4, 9)
    grade(16, "2:0/3:16", "2:0", 10, 0, -16, 9)
    update(0, "1:0", M(-1), 0, 1)
    grade(16, "1:0", "2:0", 10, 0, 15, 0)
    update(0, "2:0", T("SIZE"), 0, 1)
    grade(0, "1:0", "2:0", 10, 12)
    grade(16, "1:0", "2:0/3:16", 10, 0, 30, 1)
    update(0, "2:0", M(-2), 0, 1)
    grade(0, "1:0", "2:0", 10, 0, -1, 9)
    then("an even grade of a deleted measure with a live one below it, and without")
    delete(0, "2:0", 0, 1)
    grade(0, "1:0", "2:0", 10, 7)
    grade(16, "1:0", "2:0", 10, 12)
    grade(16, "1:0", "2:0/3:16", 10, 0, 30, 1)
    insert(0, "2:0", M(9), 0)
    grade(0, "1:0", "2:0", 10, 0, 1, 0)
    grade(16, "1:0", "2:0", 10, 0, 1, 0)
    delete(0, "2:0", 0, 1)
    delete(16, "2:0/3:16", 0, 1)
    grade(16, "1:0", "2:0", 10, 7)
    grade(16, "1:0", "2:0/3:16", 10, 7)
    show()


@case("even grades of six steps")
def grade_deep():
    six = "1:0/2:1/3:1/4:3/5:11/6:27"
    for n, label in enumerate((0, 1, 1, 3, 11, 27), 1):
        insert(label, "/".join(six.split("/")[:n]), M(10 * n), 0)
    other = "1:0/2:1/3:1/4:3/5:11/7:27"
    insert(27, other, M(-60), 0)
    grade(27, six, other, 7, 0, -18, 6)
    grade(27, other, six, 7, 0, 17, 1)
    grade(27, "1:0", six, 6, 0, 8, 2)
    grade(27, six, "1:0/2:1", 6, 0, -7, 2)
    grade(27, "1:0/2:1/3:1", "1:0/2:1/3:1/4:3/5:11", 6, 0, 3, 2)
    grade(31, six, six, 6, 0, 0, 0)
    grade_both(11, "1:0", six, 6, 7)
    grade_both(27, six, six + "/7:27", 6, 4)
    grade_both(27, six, "1:0/2:1/3:1/4:3/5:11/8:27", 6, 7)
    then("even grades of six steps, five of them removed")
    delete(0, "1:0", 0, 1)
    delete(1, "1:0/2:1", 0, 2)
    delete(3, "1:0/2:1/3:1/4:3", 0, 1)
    delete(11, "1:0/2:1/3:1/4:3/5:11", 0, 1)
    grade(27, six, other, 7, 0, -18, 6)
    grade_both(27, "1:0/2:1/3:1/4:3/5:11", six, 7, 12)
    grade(27, six, "1:0", 7, 12)
    grade(11, "1:0", "1:0", 7, 7)
    show()


@case("even grades between versions of one name, and of 32 elements of a label")
def grade_versions():
    insert(0, "10:0", M(1), 0)
    insert(16, "10:16", M(2), 0)
    insert(9, "10:9", M(4), 0)
    insert(16, "10:0/10:16", M(8), 0)
    grade(25, "10:0", "10:9", 2, 0, 1, 1)
    grade(25, "10:9", "10:16", 2, 0, -1, 0)
    grade(25, "10:16", "10:0/10:16", 5, 0, 1, 1)
    grade(16, "10:0", "10:16", 2, 0, 0, 1)
    grade(16, "10:0", "10:9", 2, 7)
    grade(9, "10:0", "10:16", 2, 7)
    grade(25, "10:0", "10:8", 2, 7)
    grade(25, "10:0", "10:24", 2, 7)
    put(0, *[("%d:0" % (250 + n), M(100 * n)) for n in range(32)])
    grade(0, "250:0", "281:0", 31, 0, 100, 0)
    grade(0, "281:0", "250:0", 32, 0, -97, 4)
    grade(0, "255:0", "256:0", 64, 0, 1, 36)
    grade(16, "281:0", "10:16", 3, 0, -1033, 1)
    grade_both(0, "249:0", "250:0", 2, 7)
    grade_both(0, "282:0", "281:0", 2, 7)


@case("an even grade of labels 9 and 16, by subjects that see one of them, both and neither")
def grade_subjects():
    insert(9, "10:9", M(9), 0)
    insert(16, "10:16", M(16), 0)
    for subject in (0, 8, 9, 15, 16, 18, 24, 30):
        grade(subject, "10:9", "10:16", 4, 7)
    for subject in (17, 19, 21, 25, 31):
        grade(subject, "10:9", "10:16", 4, 0, 1, 3)


# ---------------------------------------------------------------------------------------------------------------------
# XML intakes: document 02's request 5/14.


@case("XML intakes")
def intakes():
    insert(0, "10:0", G, 0)
    intake(16, "10:0", e(20, 16, "G", e(3, 16, "M", "-150"), e(2, 16, "T", "a &lt; b")), 0, 3)
    intake(16, "10:0", e(20, 16, "G"), 8)
    intake(16, "/", e(1, 16, "T", "&amp;" * 16), 0, 1)
    intake(16, "/", e(2, 16, "T", "&amp;" * 17), 13)
    intake(16, "/", e(3, 16, "G", e(1, 16, "G"), e(1, 16, "G")), 13)
    intake(16, "/", e(3, 16, "G", e(1, 16, "G"), e(1, 17, "G")), 14)
    intake(16, "/", e(3, 16, "G", e(1, 16, "-")), 14)
    intake(16, "/", '<e3 label="16" preserve="REMOVED" kind="G"></e3>', 13)
    intake(16, "/", '<e3 label="16" preserve="REMOVED" kind="-">x</e3>', 13)
    intake(16, "/", '<e3 label="16" preserve="PRESENT" kind="-"></e3>', 13)
    intake(16, "/", e(3, 32, "G"), 13)
    intake(16, "/", e(3, 0, "G"), 14)
    intake(16, "/", e(0, 16, "G"), 13)
    intake(16, "/", e(65536, 16, "G"), 13)
    intake(16, "/", '<e03 label="16" preserve="PRESENT" kind="G"></e03>', 13)
    intake(16, "/", '<e3 label="016" preserve="PRESENT" kind="G"></e3>', 13)
    intake(16, "/", e(3, 16, "M"), 13)
    intake(16, "/", e(3, 16, "M", "-0"), 13)
    intake(16, "/", e(3, 16, "M", "2147483648"), 13)
    intake(16, "/", e(3, 16, "M", "-2147483648"), 0, 1)
    intake(16, "/", e(4, 16, "T"), 13)
    intake(16, "/", e(4, 16, "T", "a>b"), 13)
    intake(16, "/", e(4, 16, "T", "&quot;"), 13)
    intake(16, "/", e(4, 16, "G", "x"), 13)
    intake(16, "/", e(4, 16, "G", e(1, 16, "G"), "x"), 13)
    intake(16, "/", e(4, 16, "G") + "\n", 13)
    intake(16, "/", '<e4 label="16" preserve="PRESENT" kind="G"/>', 13)
    intake(16, "/", '<e4  label="16" preserve="PRESENT" kind="G"></e4>', 13)
    intake(16, "/", '<e4 preserve="PRESENT" label="16" kind="G"></e4>', 13)
    intake(16, "/", '<e4 label="16" preserve="PRESENT" kind="G"></e5>', 13)
    intake(16, "/", dossier(16, e(4, 16, "G")), 13)
    intake(16, "/", "", 13)
    intake(16, "/", e(4, 16, "G") + e(5, 16, "G"), 13)
    intake(16, "/", e(60, 0, "G") + " ", 13)
    intake(16, "/", e(60, 16, "G", e(61, 0, "G")), 14)
    intake(16, "/", e(60, 16, "-"), 14)
    intake(16, "/", e(60, 16, "-", e(61, 16, "M", "7")), 14)
    intake(40, "/", e(4, 16, "G"), 2)
    intake(16, "1:0/2:0/3:0/4:0/5:0/6:0", e(4, 16, "G"), 13)
    intake(16, "11:0", e(4, 16, "G"), 7)
    intake(16, "11:0", e(4, 0, "G"), 14)
    intake(16, "0:0", "<", 4)
    intake(0, "10:0/20:16", e(4, 0, "G"), 7)
    intake(16, "10:0/20:16/2:16", deep(9, 16, 4), 13)
    intake(16, "10:0/20:16/2:16", deep(9, 16, 3), 0, 3)
    intake(16, "/", e(50, 16, "G", *groups(16, range(1, 32))), 9)
    intake(17, "/", e(50, 17, "G", *groups(17, range(31, 0, -1))), 0, 32)
    intake(17, "/", e(51, 17, "G"), 9)
    e2 = e(2, 16, "T", "a &lt; b", deep(9, 16, 3))
    markup(16, "10:0/20:16", 400, 0, 334, dossier(16, e(20, 16, "G", e2, e(3, 16, "M", "-150"))))
    show()


@case("an XML intake reads back as it was sent")
def intake_read_back():
    read_back(0, "/", "1:0", e(1, 0, "G"), 1)
    read_back(0, "/", "2:0", e(2, 0, "M", "0", e(1, 0, "T", "SLEEVE", e(1, 0, "G"), e(2, 0, "M", "-7")), e(2, 0, "G")), 5)
    read_back(0, "1:0", "1:0/5:0", e(5, 0, "T", "x", e(1, 0, "G"), e(300, 0, "G", e(1, 0, "M", "1"))), 4)
    read_back(31, "1:0/5:0/300:0", "1:0/5:0/300:0/7:31", e(7, 31, "G", e(65535, 31, "T", "~")), 2)
    lines = ["VIEW→31→7", "1→1→0→P→G→-", "2→5→0→P→T→x", "3→1→0→P→G→-", "3→300→0→P→G→-", "4→1→0→P→M→1"]
    view(31, "1:0", 200, 0, 102, lines + ["4→7→31→P→G→-", "5→65535→31→P→T→~"])
    show()


@case("XML intakes of the least and the greatest name, label and measure")
def intake_ranges():
    read_back(31, "/", "1:31", e(1, 31, "M", "-2147483648"), 1)
    read_back(0, "/", "65535:0", e(65535, 0, "M", "2147483647"), 1)
    read_back(9, "/", "10000:9", e(10000, 9, "M", "0", e(9999, 9, "M", "-1"), e(59999, 9, "M", "10")), 3)
    show()
    then("13: names of 0, over 65535 and with other digits, and an end tag with another name")
    for name in ("0", "00", "01", "007", "65536", "65537", "99999", "100000", "131073", "4294967297", "18446744073709551617"):
        intake(0, "/", '<e%s label="0" preserve="PRESENT" kind="G"></e%s>' % (name, name), 13)
    for name in ("", "-1", "+1", "1.0", "x", "1" * 300, "0" * 300 + "1", "\xb2"):
        intake(0, "/", '<e%s label="0" preserve="PRESENT" kind="G"></e%s>' % (name, name), 13)
    for name in ("", "0", "1", "2", "11", "122", "012", "12 ", "65548", "13"):
        intake(0, "/", '<e12 label="0" preserve="PRESENT" kind="G"></e%s>' % name, 13)
    intake(0, "/", e(12, 0, "G", e(13, 0, "G")).replace("</e13></e12>", "</e12></e13>"), 13)
    then("13: labels over 31 and with other digits")
    for label in ("32", "40", "99", "100", "255", "256", "272", "65552", "4294967312", "18446744073709551632"):
        intake(16, "/", '<e1 label="%s" preserve="PRESENT" kind="G"></e1>' % label, 13)
    for label in ("", "00", "016", "+16", "-16", "-0", "16.0", "1 6", "x", "1" * 300, "0" * 300 + "16"):
        intake(16, "/", '<e1 label="%s" preserve="PRESENT" kind="G"></e1>' % label, 13)
    then("13: measures out of range and with other digits")
    for n in ("2147483648", "-2147483649", "4294967295", "4294967296", "9999999999", "-9999999999", "18446744073709551616"):
        intake(0, "/", e(1, 0, "M", n), 13)
    for n in ("", "-", "--1", "+1", "01", "-01", "00", "-0", " 1", "1 ", "1.0", "1e3", "a", "1&amp;", "1" * 300, "0" * 300):
        intake(0, "/", e(1, 0, "M", n), 13)
    show()


# a style to which slips are made
STYLE = e(4, 16, "G", e(5, 16, "T", "a&amp;b"), e(6, 16, "M", "-10"))


def slip(old, *wrong):
    """XML intakes of the style with other characters at the first place of some, refused with 13."""
    for new in wrong:
        assert old in STYLE and old != new
        intake(16, "/", STYLE.replace(old, new, 1), 13)


@case("13: white space in the XML of a style")
def intake_spaces():
    slip(" label", "  label", "\tlabel", "\nlabel", "label")
    slip(" preserve", "  preserve", "preserve")
    slip(" kind", "  kind", "kind")
    slip("=", " =", "= ")
    slip('"16"', '" 16"', '"16 "')
    slip('"G">', '"G" >', '"G"> ', '"G">\n')
    slip("<e4", " <e4", "\n<e4", "< e4")
    slip("</e4>", " </e4>", "</ e4>", "</e4 >", "</e4> ", "</e4>\n", "\n</e4>")
    slip("</e5>", "</e5> ", "</e5>\n")
    slip("-10", " -10", "- 10", "-10 ", "-10\n")
    intake(16, "/", STYLE, 0, 3)


@case("13: other attributes in the XML of a style")
def intake_attributes():
    slip(' label="16"', "", ' label="16" label="16"', " label='16'", " label=16", " label", ' Label="16"', ' labels="16"')
    slip(' preserve="PRESENT"', "", ' PRESERVE="PRESENT"', ' preserve="present"', ' preserve=""', ' preserve="LIVE"')
    slip("PRESENT", "PRESENTED", "PRESEN", "REMOVED", "PRESENT REMOVED")
    slip(' kind="G"', "", ' kind="G" season="1"', ' kind="G" kind="G"', " kind='G'", " kind=G", ' type="G"')
    slip('"G"', '"g"', '""', '"GG"', '"P"', '"R"', '"0"', '"M"', '"T"', '"-"')
    slip('"T"', '"G"', '"M"', '"-"')
    slip('"M"', '"G"', '"-"')
    slip('label="16" preserve="PRESENT"', 'preserve="PRESENT" label="16"')
    slip('preserve="PRESENT" kind="G"', 'kind="G" preserve="PRESENT"')
    intake(16, "/", STYLE, 0, 3)


@case("13: other tags in the XML of a style, and what stands around them")
def intake_tags():
    slip("<e4", "e4", "<E4", "<f4", "<4", "<x:e4", "<<e4", "<e", "<e 4", "<e4.0")
    slip('"G">', '"G"', '"G">>', '"G"/>', '"G"?>')
    slip("</e4>", "", "</e4", "<e4>", "</E4>", "</f4>", "<//e4>", "</e4/>", "</e4></e4>", "</e5>", "</e>", "</e44>", "</e04>")
    slip("</e5>", "", "</e4>", "</e6>", "</e5></e5>")
    slip("<e6", "")
    slip("<e4", '<?xml version="1.0"?><e4', "<!-- a --><e4", "\xef\xbb\xbf<e4", "x<e4", "\0<e4")
    slip("</e4>", "</e4>x", "</e4>\0", "</e4><!-- a -->", "</e4><e7>", "x</e4>", "</e4>" + e(4, 16, "G"), "</e4>" + e(7, 16, "G"))
    slip("<e5", "x<e5", "<!-- a --><e5", "<![CDATA[]]><e5")
    slip("</e5>", "</e5>x", "</e5>&amp;")
    slip("</e6>", "</e6>-10")
    for text in ("<", "x", "\0", "<e", "</e4>", "<e4>", "<e4></e4>", dossier(16), dossier(16, STYLE)):
        intake(16, "/", text, 13)
    intake(16, "/", '<e4 label="16" preserve="PRESENT" kind="G"/>', 13)
    show()
    read_back(16, "/", "4:16", STYLE, 3)


@case("13: an XML intake of a text cut off at each place, and with one byte changed, added and left out at each place")
def intake_bytes():
    style = e(5, 16, "T", "x", e(6, 16, "G"))
    for n in range(len(style)):
        intake(16, "/", style[:n], 13)
    style = e(5, 16, "T", "x")
    value, label = style.index("x"), style.index("16")
    for i in range(len(style)):
        if i != value:
            intake(16, "/", style[:i] + "~" + style[i + 1 :], 13)
            intake(16, "/", style[:i] + style[i + 1 :], 14 if i in (label, label + 1) else 13)
    for i in range(len(style) + 1):
        if i not in (value, value + 1):
            intake(16, "/", style[:i] + " " + style[i:], 13)
    show()
    intake(16, "/", style.replace("x", " x"), 0, 1)
    show()


@case("the texts of an XML intake, by their length with their escapes undone")
def intake_texts():
    read_back(0, "/", "1:0", e(1, 0, "T", "x"), 1)
    read_back(0, "/", "2:0", e(2, 0, "T", "0123456789abcdef"), 1)
    for name, escape in ((3, "&amp;"), (4, "&lt;"), (5, "&gt;")):
        read_back(0, "/", "%d:0" % name, e(name, 0, "T", escape * 16), 1)
    read_back(0, "/", "6:0", e(6, 0, "T", "&amp;&lt;&gt;0123456789abc"), 1)
    read_back(0, "/", "7:0", e(7, 0, "T", "0123456789abc&amp;&lt;&gt;"), 1)
    read_back(0, "/", "8:0", e(8, 0, "T", " " * 16), 1)
    read_back(0, "/", "9:0", e(9, 0, "T", " "), 1)
    show()
    then("13: texts of 0 characters and of 17")
    for text in ("", "&amp;" * 17, "&lt;" * 17, "&gt;" * 17, "x" * 17, "x" * 16 + "&amp;", "&gt;" + "x" * 16, " " * 17):
        intake(0, "/", e(10, 0, "T", text), 13)
    then("13: characters that are not allowed, and others that are not so escaped")
    for x in (0, 9, 10, 13, 31, 127, 128, 255):
        intake(0, "/", e(10, 0, "T", "ab" + chr(x)), 13)
    for text in (">", "a>b", "&", "&&amp;", "&amp", "&amp&amp;", "&amp ;", "& amp;", "&AMP;", "&ampx;", "&lt", "&gt", "&;", "&a"):
        intake(0, "/", e(10, 0, "T", text), 13)
    for text in ("&quot;", "&apos;", "&#38;", "&#x26;", "&#65;", "&nbsp;", "<![CDATA[a]]>", "<!-- a -->", "<a", "a<b", "<"):
        intake(0, "/", e(10, 0, "T", text), 13)
    show()


@case("every character of a text in an XML intake")
def intake_characters():
    others = ["@ABCDEFGHIJKLMNO", "PQRSTUVWXYZ[\\]^_", "`abcdefghijklmno", "pqrstuvwxyz{|}~"]
    written = [" !\"#$%&amp;'()*+,-./", "0123456789:;&lt;=&gt;?"] + others
    style = e(1, 0, "T", "&amp;amp;&amp;lt;&amp;#", *[e(name, 0, "T", text) for name, text in enumerate(written, 1)])
    read_back(0, "/", "1:0", style, 7)
    plain = [" !\"#$%&'()*+,-./", "0123456789:;<=>?"] + others
    lines = ["2→%d→0→P→T→%s" % (name, text) for name, text in enumerate(plain, 1)]
    view(0, "/", 300, 0, 192, ["VIEW→0→7", "1→1→0→P→T→&amp;&lt;&#"] + lines)
    show()


@case("13: a value of another kind, PRESENT with -, REMOVED with G, M and T and with a value")
def intake_kinds():
    for kind, value in (("G", "x"), ("G", "0"), ("G", " "), ("G", "&amp;"), ("M", "x"), ("M", ""), ("T", "")):
        intake(0, "/", e(1, 0, kind, value), 13)
    for kind, value in (("G", ""), ("M", ""), ("M", "1"), ("T", ""), ("T", "x"), ("-", "x"), ("-", "0"), ("-", "-"), ("-", " ")):
        intake(0, "/", '<e1 label="0" preserve="REMOVED" kind="%s">%s</e1>' % (kind, value), 13)
    for value in ("", "x", "1", "-"):
        intake(0, "/", '<e1 label="0" preserve="PRESENT" kind="-">%s</e1>' % value, 13)
    intake(0, "/", e(1, 0, "G", '<e2 label="0" preserve="PRESENT" kind="-"></e2>'), 13)
    intake(0, "/", e(1, 0, "G", '<e2 label="0" preserve="REMOVED" kind="G"></e2>'), 13)
    then("14: REMOVED with - and no value, with elements inside and without, at the top and inside")
    intake(0, "/", e(1, 0, "-"), 14)
    intake(0, "/", e(1, 0, "-", e(2, 0, "G")), 14)
    intake(0, "/", e(1, 0, "-", e(2, 0, "-"), e(3, 0, "-", e(4, 0, "M", "1"))), 14)
    intake(0, "/", e(1, 0, "G", e(2, 0, "T", "x", e(3, 0, "-"))), 14)
    intake(0, "/", e(1, 0, "M", "1", e(2, 0, "G"), e(3, 0, "-")), 14)
    intake(0, "/", e(1, 16, "-"), 14)
    then("14: another label, above, below and beside, at the top and inside")
    for label in (0, 8, 9, 17, 24, 31):
        intake(16, "/", e(1, label, "G"), 14)
        intake(16, "/", e(1, 16, "G", e(2, 16, "G", e(3, label, "G"))), 14)
        intake(16, "/", e(1, 16, "G", e(2, 16, "G"), e(3, label, "M", "1")), 14)
    then("14: labels that are not ascending, and labels that are")
    intake(16, "/", e(1, 16, "G", e(2, 0, "G")), 14)
    intake(0, "/", e(1, 16, "G", e(2, 0, "G")), 14)
    intake(16, "/", e(1, 0, "G", e(2, 16, "G")), 14)
    intake(16, "/", e(1, 9, "G", e(2, 16, "G")), 14)
    show()


@case("13 before 14: a slip at the end behind another label and behind a REMOVED mark")
def intake_13_14():
    ends = ["x", " ", e(2, 16, "G"), "<", "</e1>"]
    for style in (e(1, 0, "G"), e(1, 16, "-"), e(1, 0, "-"), e(1, 16, "G", e(2, 0, "G")), e(1, 16, "G", e(2, 16, "-"))):
        intake(16, "/", style, 14)
        for end in ends:
            intake(16, "/", style + end, 13)
        intake(16, "/", style[:-1], 13)
        intake(16, "/", style.replace("</e1>", "</e2>"), 13)
        intake(16, "/", style.replace("</e1>", "x</e1>"), 13)
    then("a wrong label or mark first, and then a name, a label, a value, equal siblings and a seventh step")
    for slip in (e(0, 16, "G"), e(3, 32, "G"), e(3, 16, "M"), e(3, 16, "T", "&amp;" * 17), e(3, 16, "G", "x"), e(2, 0, "G")):
        intake(16, "/", e(1, 0, "G", e(2, 0, "G"), slip), 13)
        intake(16, "/", e(1, 0, "-", e(2, 0, "-"), slip), 13)
    intake(16, "/", e(1, 0, "G", deep(2, 16, 6)), 13)
    intake(16, "/", e(1, 0, "-", deep(2, 0, 5), deep(3, 0, 6)), 13)
    then("the same slip before them")
    intake(16, "/", e(1, 16, "G", e(3, 16, "M"), e(2, 0, "G")), 13)
    intake(16, "/", e(1, 16, "G", e(3, 32, "G"), e(2, 16, "-")), 13)
    show()


@case("the order of an XML intake's refusals")
def intake_order():
    insert(0, "10:0", G, 0)
    insert(9, "10:9", G, 0)
    insert(16, "20:16", G, 0)
    then("4 before 13, 14 and 7")
    for where in ("0:0", "10:32", "10:16/20:9", path("10:0") * 7, b"\1", path("10:0") + b"\1\1"):
        for text in ("", "x", e(1, 0, "G"), e(1, 16, "-"), e(1, 16, "G")):
            intake(16, where, text, 4)
    then("13 before 7, 8 and 9; 14 before them")
    intake(16, "11:0", e(1, 16, "G") + "x", 13)
    intake(16, "11:0", e(1, 16, "-"), 14)
    intake(16, "11:0", e(1, 0, "G"), 14)
    intake(16, "10:9", e(1, 9, "G"), 14)
    intake(16, "/", e(20, 16, "G") + "x", 13)
    intake(16, "/", e(20, 16, "G", e(1, 0, "G")), 14)
    intake(16, "/", e(20, 16, "G", e(1, 16, "-")), 14)
    then("7: a parent that is not there, and of a label that is above, and beside")
    intake(16, "11:0", e(1, 16, "G"), 7)
    intake(16, "11:0/12:16", e(1, 16, "G"), 7)
    intake(16, "10:9", e(1, 16, "G"), 7)
    intake(0, "20:16", e(1, 0, "G"), 7)
    intake(9, "20:16", e(1, 9, "G"), 7)
    then("8 for the top element alone")
    intake(16, "/", e(20, 16, "G"), 8)
    intake(16, "/", e(20, 16, "T", "x", e(1, 16, "G")), 8)
    intake(16, "10:0", e(20, 16, "G", e(20, 16, "G")), 0, 2)
    intake(16, "10:0/20:16", e(20, 16, "G"), 8)
    show()
    then("7 before 9, 8 before 9, and 9 with each of 13 and 14")
    intake(16, "11:0", many(16, 33), 7)
    intake(16, "/", many(16, 33, 20), 8)
    intake(16, "/", many(16, 33), 9)
    intake(16, "/", many(16, 33) + "x", 13)
    intake(16, "/", many(16, 33).replace("</e32></e1000>", "</e32>%s</e1000>" % e(33, 0, "G")), 14)
    show()


@case("six steps in all, below parents of 0 to 6 steps")
def intake_depth():
    six = "1:0/1:1/1:1/1:3/1:11/1:27".split("/")
    for n, label in enumerate((0, 1, 1, 3, 11, 27), 1):
        insert(label, "/".join(six[:n]), G, 0)
    for n in range(7):
        parent = "/".join(six[:n]) or "/"
        intake(27, parent, deep(2, 27, 7 - n), 13)
        intake(27, parent, e(3, 27, "G", deep(3, 27, 7 - n)), 13)
        if n < 6:
            read_back(27, parent, "/".join(six[:n] + ["2:27"]), deep(2, 27, 6 - n), 6 - n)
    intake(27, "/".join(six), e(2, 27, "G"), 13)
    intake(27, "2:0/2:0/2:0/2:0/2:0/2:0", e(2, 27, "G"), 13)
    intake(27, "2:0/2:0/2:0/2:0/2:0", e(2, 27, "G"), 7)
    view_lines(27, "/", 27)
    show()
    then("the seventh step behind a branch of six, and a text 100 deep, closed and not")
    intake(0, "/", e(2, 0, "G", deep(1, 0, 5), deep(3, 0, 6)), 13)
    intake(0, "/", e(2, 0, "G", deep(1, 0, 4), deep(2, 0, 5), deep(3, 0, 1)), 0, 11)
    intake(0, "/", deep(4, 0, 100), 13)
    intake(0, "/", deep(4, 0, 100)[:-500], 13)
    show()


@case("13: siblings equal in name and label")
def intake_equal():
    def group(name, *inside):
        """A group of label 0."""
        return e(name, 0, "G", *inside)

    intake(0, "/", group(1, group(2), group(2)), 13)
    intake(0, "/", group(1, group(2), group(3), group(2)), 13)
    intake(0, "/", group(1, group(2, group(4, group(5))), group(3), group(2)), 13)
    intake(0, "/", group(1, group(2), e(2, 0, "M", "1")), 13)
    intake(0, "/", group(1, e(2, 0, "T", "a"), e(2, 0, "T", "b", group(3))), 13)
    intake(0, "/", group(1, group(2), group(3, group(4), group(5, group(6), group(7), group(6)))), 13)
    intake(0, "/", group(1, group(2, group(3), group(3)), group(4)), 13)
    intake(0, "/", group(1, group(1, group(1, group(1, group(1, group(6), group(6)))))), 13)
    intake(0, "/", group(1, e(2, 0, "-"), e(2, 0, "-")), 13)
    intake(0, "/", group(1, e(2, 0, "-"), group(2)), 13)
    intake(0, "/", group(1, e(2, 16, "G"), e(2, 16, "G")), 13)
    then("siblings equal in name only, in label only, and elements of one name that are no siblings")
    intake(0, "/", group(1, group(2), e(2, 16, "G")), 14)
    intake(0, "/", group(1, e(2, 1, "G"), e(2, 2, "G")), 14)
    intake(0, "/", group(1, group(2), group(258), group(514)), 0, 4)
    intake(0, "/", group(2, group(3, group(5)), group(4, group(5)), group(5), group(2, group(2), group(3))), 0, 9)
    intake(0, "1:0", group(1, group(1, group(1)), group(2)), 0, 4)
    show()


@case("equal siblings among 33, 40 and 600, and none equal")
def intake_many():
    insert(0, "1000:0", G, 0)
    for count, pairs in (
        (33, ((1, 2), (1, 33), (32, 33), (31, 32), (17, 33))),
        (40, ((1, 2), (1, 40), (1, 33), (32, 33), (33, 34), (33, 40), (39, 40))),
        (600, ((1, 600), (599, 600))),
    ):
        for one, other in pairs:
            names = list(range(1, count + 1))
            names[other - 1] = one
            intake(0, "/", e(999, 0, "G", *groups(0, names)), 13)
    intake(0, "/", e(999, 0, "G", *groups(0, range(1, 34))), 9)
    intake(0, "/", e(1000, 0, "G", *groups(0, range(1, 41))), 8)
    intake(0, "1:0", e(999, 0, "G", *groups(0, range(1, 41))), 7)
    intake(0, "/", e(999, 0, "G", *groups(0, range(600, 0, -1))), 9)
    then("equal siblings behind a branch with 33 elements, and inside it")
    names = range(1, 34)
    intake(0, "/", e(999, 0, "G", e(1, 0, "G", *groups(0, names)), e(2, 0, "G"), e(1, 0, "G")), 13)
    intake(0, "/", e(999, 0, "G", e(1, 0, "G", *groups(0, names), e(33, 0, "M", "1")), e(2, 0, "G")), 13)
    intake(0, "/", e(999, 0, "G", e(1, 0, "G", *groups(0, names)), e(2, 0, "G", *groups(0, names)), e(3, 0, "G")), 9)
    show()


@case("slips behind more than 32 elements")
def intake_long():
    def forty(inside="", end="</e1000>"):
        """A group with 39 groups inside, and what else is in it."""
        return many(16, 40).replace("</e1000>", inside + end)

    intake(16, "/", forty(), 9)
    for text in (forty() + "x", forty() + e(1, 16, "G"), forty("x"), forty("", "</e100>"), forty("", "</e1000")):
        intake(16, "/", text, 13)
    for last in (e(0, 16, "G"), e(40, 32, "G"), e(40, 16, "M"), e(40, 16, "T", "x" * 17), e(1, 16, "G"), deep(40, 16, 6)):
        intake(16, "/", forty(last), 13)
    for last in (e(40, 0, "G"), e(40, 16, "-")):
        intake(16, "/", forty(last), 14)
        intake(16, "/", forty(last) + " ", 13)
    then("the same where the parent is not in view, and where the top element is live")
    intake(16, "1:0", forty(), 7)
    intake(16, "1:0", forty(e(40, 0, "G")), 14)
    intake(16, "1:0", forty() + "x", 13)
    insert(16, "1000:16", G, 0)
    intake(16, "/", forty(), 8)
    intake(16, "/", forty(e(40, 0, "G")), 14)
    intake(16, "/", forty() + "x", 13)
    show()


@case("siblings in any order are kept in path order")
def intake_siblings():
    orders = ((1, 2, 3), (1, 3, 2), (2, 1, 3), (2, 3, 1), (3, 1, 2), (3, 2, 1))
    for label, order in enumerate(orders):
        inside = [e(name, label, "M", str(name), e(9, label, "G"), e(8, label, "G")) for name in order]
        intake(label, "/", e(10, label, "G", *inside), 0, 10)
        inside = [e(name, label, "M", str(name), e(8, label, "G"), e(9, label, "G")) for name in (1, 2, 3)]
        markup_of(label, "10:%d" % label, e(10, label, "G", *inside))
    show()
    then("names in path order are compared as numbers")
    names = (65535, 10, 256, 9, 100, 255, 2, 257, 1)
    intake(31, "/", e(10, 31, "G", *groups(31, names)), 0, 10)
    markup_of(31, "10:31", e(10, 31, "G", *groups(31, sorted(names))))


@case("an XML intake among elements that are there, and calls after it")
def intake_among():
    for where in ("5:0", "10:0", "10:0/10:0", "10:0/30:0", "10:0/30:0/1:0", "15:0"):
        insert(0, where, G, 0)
    insert(16, "10:0/20:16", G, 0)
    intake(0, "10:0", e(20, 0, "M", "100", e(2, 0, "M", "149", e(3, 0, "T", "in")), e(1, 0, "G")), 0, 4)
    intake(0, "/", e(1, 0, "G", e(1, 0, "G")), 0, 2)
    intake(0, "/", e(20, 0, "G"), 0, 1)
    show()
    lines = ["VIEW→16→9", "1→10→0→P→G→-", "2→10→0→P→G→-", "2→20→16→P→G→-", "2→20→0→P→M→100", "3→1→0→P→G→-", "3→2→0→P→M→149"]
    view(16, "10:0", 200, 0, 129, lines + ["4→3→0→P→T→in", "2→30→0→P→G→-", "3→1→0→P→G→-"])
    grade(16, "10:0/20:0", "10:0/20:0/2:0", 10, 0, 4, 9)
    insert(0, "10:0/20:0/2:0", G, 8)
    insert(0, "10:0/20:0/2:0/4:0", G, 0)
    insert(16, "10:0/20:0/2:0/3:16", G, 0)
    update(0, "10:0/20:0/2:0/3:0", T("out"), 0, 1)
    intake(0, "10:0/20:0", e(2, 0, "G"), 8)
    delete(0, "10:0/20:0/2:0", 0, 3)
    intake(0, "10:0/20:0", e(2, 0, "G", e(3, 0, "G")), 0, 2)
    delete(0, "10:0/20:0", 0, 4)
    intake(0, "10:0/20:0", e(2, 0, "G"), 7)
    intake(16, "10:0/20:0", e(2, 16, "G"), 0, 1)
    show()


@case("XML intakes below a removed parent, and where a removed element stands")
def intake_removed():
    insert(0, "10:0", G, 0)
    insert(0, "10:0/11:0", G, 0)
    insert(16, "10:0/11:0/20:16", M(1), 0)
    delete(0, "10:0", 0, 2)
    intake(0, "10:0", e(1, 0, "G"), 7)
    intake(9, "10:0", e(1, 9, "G"), 7)
    intake(24, "10:0", e(1, 24, "G"), 0, 1)
    intake(16, "10:0", e(21, 16, "M", "5", e(22, 16, "G")), 0, 2)
    intake(16, "10:0/11:0", e(20, 16, "G"), 8)
    intake(16, "10:0/11:0", e(19, 16, "T", "x"), 0, 1)
    e11 = e(11, 0, "-", e(19, 16, "T", "x"), e(20, 16, "M", "1"))
    e21 = e(21, 16, "M", "5", e(22, 16, "G"))
    markup_of(16, "/", e(10, 0, "-", e11, e21))
    show()
    then("the removed elements taken in again, with what survived below them")
    intake(0, "/", e(10, 0, "T", "SLEEVE", e(12, 0, "G")), 0, 2)
    markup_of(0, "/", e(10, 0, "T", "SLEEVE", e(12, 0, "G")))
    markup_of(16, "/", e(10, 0, "T", "SLEEVE", e11, e(12, 0, "G"), e21))
    intake(0, "10:0", e(11, 0, "G"), 0, 1)
    e11 = e(11, 0, "G", e(19, 16, "T", "x"), e(20, 16, "M", "1"))
    markup_of(16, "/", e(10, 0, "T", "SLEEVE", e11, e(12, 0, "G"), e21))
    show()


@case("9: XML intakes into a partition that becomes full and one that would hold 33")
def intake_full():
    intake(0, "/", many(0, 33), 9)
    intake(0, "/", many(0, 32), 0, 32)
    intake(0, "/", e(1, 0, "G"), 9)
    intake(0, "1000:0", e(99, 0, "G"), 9)
    intake(0, "1000:0", e(31, 0, "G"), 8)
    show()
    then("another label's, below it")
    intake(16, "1000:0", many(16, 32), 0, 32)
    intake(16, "1000:0/1:0", e(1, 16, "G"), 9)
    view_lines(16, "/", 64)
    then("after deletes of one, two and three elements")
    delete(0, "1000:0/5:0", 0, 1)
    intake(0, "/", e(1, 0, "G", e(1, 0, "G")), 9)
    intake(0, "1000:0", e(5, 0, "T", "five"), 0, 1)
    delete(0, "1000:0/5:0", 0, 1)
    delete(0, "1000:0/6:0", 0, 1)
    intake(0, "1000:0/7:0", deep(5, 0, 3), 9)
    intake(0, "1000:0/7:0", deep(5, 0, 2), 0, 2)
    intake(0, "/", e(1, 0, "G"), 9)
    delete(0, "1000:0/7:0", 0, 3)
    intake(0, "/", e(2000, 0, "G", e(2, 0, "G"), e(1, 0, "G")), 0, 3)
    insert(0, "1:0", G, 9)
    show()


@case("removed elements are not counted by XML intakes")
def intake_not_counted():
    intake(0, "/", many(0, 32), 0, 32)
    for n in range(1, 32):
        intake(16, "1000:0/%d:0" % n, e(1, 16, "G"), 0, 1)
    delete(0, "1000:0", 0, 32)
    view_lines(16, "/", 63)
    intake(0, "/", many(0, 33, 999), 9)
    intake(0, "/", many(0, 32, 999), 0, 32)
    intake(0, "/", e(1000, 0, "G"), 9)
    intake(16, "999:0", e(1, 16, "G", e(2, 16, "G")), 9)
    intake(16, "1000:0", e(1, 16, "G"), 0, 1)
    view_lines(16, "/", 96)
    show()


@case("an XML intake of 32 texts with sixteen escapes each")
def intake_longest():
    inside = [e(name, 31, "T", "&amp;" * 16) for name in range(65505, 65536)]
    intake(31, "/", e(65535, 31, "T", "&gt;" * 16, *reversed(inside)), 0, 32)
    markup_of(31, "/", e(65535, 31, "T", "&gt;" * 16, *inside))
    show()


@case("what 0 and 9 see and are answered as 16 takes styles in and is corrupted")
def intake_lower():
    insert(0, "10:0", T("low"), 0)
    insert(9, "10:0/20:9", M(1), 0)

    def as_it_was():
        """The XML of 0 and the XML of 9, and what XML intakes and a view by them answer."""
        markup_of(0, "/", e(10, 0, "T", "low"))
        markup_of(9, "/", e(10, 0, "T", "low", e(20, 9, "M", "1")))
        intake(0, "10:16", e(1, 0, "G"), 7)
        intake(9, "10:0/30:16", e(1, 9, "G"), 7)
        intake(0, "/", e(10, 0, "G"), 8)
        view(0, "10:0/20:16", 100, 7)
        intake(9, "/", many(9, 31), 0, 31)
        intake(9, "/", e(1, 9, "G"), 9)
        delete(9, "1000:9", 0, 31)

    as_it_was()
    intake(16, "/", e(10, 16, "T", "high", e(20, 16, "G")), 0, 2)
    intake(16, "10:0", e(30, 16, "G", e(1, 16, "M", "1")), 0, 2)
    as_it_was()
    intake(16, "10:0", many(16, 28), 0, 28)
    intake(16, "/", e(1, 16, "G"), 9)
    as_it_was()
    show()
    corrupt(PARTITION * 16 + 2, b"\1")
    as_it_was()
    intake(16, "/", e(1, 16, "G"), 3)
    intake(16, "/", "x", 3)
    intake(31, "0:0", "x", 3)
    show()
    then("a style of a lower label where higher versions are")
    intake(0, "10:0", e(30, 0, "G", e(1, 0, "G")), 0, 2)
    intake(0, "/", e(1000, 0, "G", e(1, 0, "G")), 0, 2)
    intake(9, "10:0/30:0", e(1, 9, "G"), 0, 1)
    show()


@case("1, 2 and 3 of an XML intake before all others")
def intake_barred():
    insert(0, "10:0", G, 0)
    for text in (e(1, 0, "G"), e(1, 0, "-"), "x", ""):
        intake(0, "/", text, 1, 0, 41087)
        intake(0, "0:0", text, 1, 0, 41089)
        intake(32, "10:0", text, 1, 0, 0)
        intake(32, "10:0", text, 2)
        intake(256, "0:0", text, 2)
        intake(4294967295, "/", text, 2)
    corrupt(1283, b"\1")
    for text in (e(1, 0, "G"), e(1, 0, "-"), "x", ""):
        intake(0, "/", text, 3)
        intake(31, "0:0", text, 3)
        intake(33, "/", text, 2)
    show()


# ---------------------------------------------------------------------------------------------------------------------
# Missing groups: document 02's request 6/14.

SIX = "1:0/2:0/3:0/4:0/5:0/6:0"


def first_steps(text, n):
    """The first n steps of a path."""
    return "/".join(text.split("/")[:n])


def held(label, n):
    """How many elements a partition holds."""
    hold(buffer[PARTITION * label], n)


def refuse(subject, where, number, n, value=G):
    """An insert that is refused: the store keeps its bytes, and the subject's partition holds n elements."""
    before = bytes(buffer)
    insert(subject, where, value, number)
    hold(bytes(buffer), before)
    held(subject, n)


@case("inserts that make the missing groups")
def missing_groups():
    insert(0, "10:0/20:0/30:0", M(1), 0, 2)
    view(0, "/", 48, 0, 48, ["VIEW→0→3", "1→10→0→P→G→-", "2→20→0→P→G→-", "3→30→0→P→M→1"])
    show()
    insert(0, "10:0/20:0/30:0", M(1), 8)
    insert(16, "10:0/21:16/22:16/23:16", M(1), 0, 2)
    refuse(16, "10:0/24:0/25:16", 7, 3, M(1))
    refuse(16, "11:8/12:16", 7, 3, M(1))
    insert(16, "12:16", M(1), 0)
    insert(16, "12:16/1:16/2:16/3:16/4:16/5:16", M(1), 0, 4)
    lines = ["VIEW→16→6", "1→12→16→P→M→1", "2→1→16→P→G→-", "3→2→16→P→G→-", "4→3→16→P→G→-", "5→4→16→P→G→-", "6→5→16→P→M→1"]
    view(16, "12:16", 100, 0, 89, lines)
    show()
    then("10:0 is removed: in view of 16, and not of 0")
    delete(0, "10:0", 0, 3)
    insert(16, "10:0/21:16/40:16", M(1), 0)
    lines = ["VIEW→16→5", "1→10→0→R→-→-", "2→21→16→P→G→-", "3→22→16→P→G→-", "4→23→16→P→M→1", "3→40→16→P→M→1"]
    view(16, "10:0", 100, 0, 79, lines)
    insert(0, "10:0/50:0/51:0", M(1), 0, 2)
    view(0, "/", 100, 0, 48, ["VIEW→0→3", "1→10→0→P→G→-", "2→50→0→P→G→-", "3→51→0→P→M→1"])
    show()
    then("a partition of 30 elements")
    for n in range(100, 120):
        insert(16, "%d:16" % n, G, 0)
    held(16, 30)
    refuse(16, "200:16/1:16/2:16", 9, 30)
    refuse(16, "201:16/1:16/2:16", 9, 30)
    show()
    delete(16, "119:16", 0, 1)
    insert(16, "203:16/1:16", G, 0, 1)
    insert(16, "202:16", G, 0)
    held(16, 32)
    refuse(16, "204:16", 9, 32)
    show()


@case("six steps of one label onto an empty store")
def six_made():
    insert(0, SIX, T("SLEEVE"), 0, 5)
    lines = ["1→1→0→P→G→-", "2→2→0→P→G→-", "3→3→0→P→G→-", "4→4→0→P→G→-", "5→5→0→P→G→-", "6→6→0→P→T→SLEEVE"]
    view(0, "/", 86, 0, 86, ["VIEW→0→6"] + lines)
    show()
    then("0 to 5 groups are missing")
    for n in range(6, 0, -1):
        delete(0, first_steps(SIX, n), 0, 7 - n)
        insert(0, SIX, M(n), 0, 6 - n)
        insert(0, SIX, M(n), 8)
        view_lines(0, "/", 6)
    view(0, SIX, 100, 0, 21, ["VIEW→0→1", "6→6→0→P→M→1"])
    delete(0, "1:0", 0, 6)
    show()
    then("a path of 2 to 6 steps onto an empty store")
    for n in range(2, 7):
        insert(0, first_steps(SIX, n), T("x"), 0, n - 1)
        show()
        delete(0, "1:0", 0, n)
    then("six steps of labels 1, 3 and 7, of which the lower are live")
    insert(1, "1:1", G, 0)
    insert(3, "1:1/2:3/3:3", M(3), 0, 1)
    insert(7, "1:1/2:3/3:3/4:7/5:7/6:7", M(7), 0, 2)
    lines = ["1→1→1→P→G→-", "2→2→3→P→G→-", "3→3→3→P→M→3", "4→4→7→P→G→-", "5→5→7→P→G→-", "6→6→7→P→M→7"]
    view(7, "/", 100, 0, 81, ["VIEW→7→6"] + lines)
    show()


@case("a group that is made has no value")
def made_content():
    insert(0, "1:0/2:0", T("SLEEVE LEFT HAND"), 0, 1)
    insert(0, "3:0/4:0", M(-1), 0, 1)
    insert(0, "5:0/6:0", G, 0, 1)
    lines = ["1→1→0→P→G→-", "2→2→0→P→T→SLEEVE LEFT HAND", "1→3→0→P→G→-", "2→4→0→P→M→-1", "1→5→0→P→G→-", "2→6→0→P→G→-"]
    view(0, "/", 200, 0, 97, ["VIEW→0→6"] + lines)
    inside = [e(1, 0, "G", e(2, 0, "T", "SLEEVE LEFT HAND")), e(3, 0, "G", e(4, 0, "M", "-1")), e(5, 0, "G", e(6, 0, "G"))]
    markup_of(0, "/", *inside)
    show()
    then("it is an element as others are")
    insert(0, "1:0", G, 8)
    update(0, "1:0", T("PIECE"), 0, 1)
    grade(0, "3:0", "3:0/4:0", 2, 12)
    update(0, "3:0", M(7), 0, 1)
    grade(0, "3:0", "3:0/4:0", 3, 0, -3, 1)
    insert(16, "5:0/7:16/8:16", M(8), 0, 1)
    delete(0, "5:0", 0, 2)
    view(16, "5:0", 100, 0, 48, ["VIEW→16→3", "1→5→0→R→-→-", "2→7→16→P→G→-", "3→8→16→P→M→8"])
    delete(16, "5:0/7:16", 0, 2)
    view(16, "5:0", 100, 7)
    show()


@case("groups made among elements that are there")
def made_among():
    put(0, ("5:0", G), ("10:0", T("A")), ("10:0/5:0", M(5)), ("10:0/5:0/1:0", G), ("10:0/20:0", M(20)), ("11:0", T("Z")))
    insert(0, "10:0/7:0/8:0/9:0", T("nine"), 0, 2)
    show()
    insert(0, "1:0/1:0/1:0", T("first"), 0, 2)
    insert(0, "65535:0/65535:0", T("last"), 0, 1)
    insert(0, "10:0/5:0/1:0/2:0/3:0", T("three"), 0, 1)
    lines = ["1→1→0→P→G→-", "2→1→0→P→G→-", "3→1→0→P→T→first", "1→5→0→P→G→-", "1→10→0→P→T→A", "2→5→0→P→M→5", "3→1→0→P→G→-"]
    lines += ["4→2→0→P→G→-", "5→3→0→P→T→three", "2→7→0→P→G→-", "3→8→0→P→G→-", "4→9→0→P→T→nine", "2→20→0→P→M→20"]
    lines += ["1→11→0→P→T→Z", "1→65535→0→P→G→-", "2→65535→0→P→T→last"]
    view(0, "/", 300, 0, 228, ["VIEW→0→16"] + lines)
    show()
    then("names 255, 256 and 257")
    put(0, ("255:0", G), ("255:0/255:0", G), ("257:0", G))
    insert(0, "256:0/257:0/255:0", G, 0, 2)
    insert(0, "255:0/256:0/1:0", G, 0, 1)
    show()
    then("versions under one name: of 0, 9, 16 and 25")
    put(0, ("10:0", G), ("10:0/10:0", G))
    put(9)
    put(16, ("10:16", G), ("10:16/10:16", G))
    put(25, ("10:25", G))
    insert(9, "10:9/10:9/10:9", M(9), 0, 2)
    insert(16, "10:0/10:16/10:16", M(16), 0, 1)
    insert(25, "10:9/10:25/10:25", M(25), 0, 1)
    insert(25, "10:16/10:25/10:25", M(25), 0, 1)
    view_lines(25, "/", 14)
    show()


@case("7: a missing step of another label")
def missing_foreign():
    refuse(16, "10:0/20:16", 7, 0)
    refuse(16, "10:0/20:16/30:16/40:16/50:16/60:16", 7, 0, M(1))
    refuse(16, "10:0/20:0/30:0/40:0/50:0/60:16", 7, 0, T("x"))
    refuse(16, "10:8/20:8/30:16/40:16", 7, 0)
    insert(0, "10:0", G, 0)
    refuse(16, "10:0/20:8/30:16/40:16", 7, 0)
    refuse(16, "10:0/20:0/30:16", 7, 0)
    refuse(16, "10:8/20:16/30:16", 7, 0)
    then("the step comes, by its own label")
    insert(8, "10:0/20:8", G, 0)
    insert(16, "10:0/20:8/30:16/40:16", G, 0, 1)
    refuse(16, "10:0/21:8/30:16/40:16", 7, 2)
    insert(8, "10:0/21:8/22:8/23:8", G, 0, 2)
    insert(16, "10:0/21:8/22:8/24:16/25:16", G, 0, 1)
    refuse(16, "10:0/21:8/22:8/23:8/26:8/27:16", 7, 4)
    view_lines(16, "/", 9)
    show()
    then("steps of labels 9 and 16, for 25, and elements that a subject does not see")
    refuse(25, "10:9/20:25/30:25", 7, 0)
    insert(9, "10:9", G, 0)
    insert(25, "10:9/20:25/30:25", G, 0, 1)
    refuse(25, "10:16/20:25/30:25", 7, 2)
    insert(16, "10:16/20:16", G, 0, 1)
    insert(25, "10:16/20:16/30:25/40:25", G, 0, 1)
    refuse(17, "10:1/20:17/30:17", 7, 0)
    insert(17, "10:17/20:17", G, 0, 1)
    show()
    then("a full partition: 7 before 9, 8 before 9")
    put(16, *(("%d:16" % n, G) for n in range(1, 33)))
    refuse(16, "99:0/20:16/30:16", 7, 32)
    refuse(16, "32:16", 8, 32)
    refuse(16, "32:16/1:16/2:16", 9, 32)


@case("a removed element is the longest prefix in view")
def removed_prefix():
    insert(0, "10:0", T("LOW"), 0)
    insert(16, "10:0/20:16", M(1), 0)
    delete(0, "10:0", 0, 1)
    insert(16, "10:0/21:16/22:16/23:16", M(2), 0, 2)
    lines = ["VIEW→16→5", "1→10→0→R→-→-", "2→20→16→P→M→1", "2→21→16→P→G→-", "3→22→16→P→G→-", "4→23→16→P→M→2"]
    view(16, "/", 100, 0, 79, lines)
    show()
    then("24 sees it too, and 9 does not")
    insert(24, "10:0/21:16/30:24/31:24", G, 0, 1)
    refuse(9, "10:0/30:9/31:9", 7, 0)
    then("for 0 it is missing, and is made")
    insert(0, "10:0/40:0", M(4), 0, 1)
    view(0, "/", 100, 0, 35, ["VIEW→0→2", "1→10→0→P→G→-", "2→40→0→P→M→4"])
    view_lines(16, "10:0", 6)
    insert(9, "10:0/30:9/31:9", G, 0, 1)
    delete(0, "10:0", 0, 2)
    then("the mark goes with the last live element below it")
    delete(16, "10:0/20:16", 0, 1)
    delete(16, "10:0/21:16", 0, 3)
    refuse(16, "10:0/20:16/21:16", 7, 0)
    insert(24, "10:0/21:16/32:24/33:24", G, 0, 1)
    insert(9, "10:0/32:9/33:9", G, 0, 1)
    show()
    then("10:0/20:8/30:16 alone")
    put(0)
    put(9)
    put(24)
    put(16, ("10:0/20:8/30:16", G))
    insert(16, "10:0/20:8/31:16/32:16", M(5), 0, 1)
    insert(16, "10:0/21:16/32:16", M(6), 0, 1)
    refuse(16, "10:0/21:8/32:16", 7, 5)
    refuse(8, "10:0/20:8/22:8", 7, 0)
    insert(0, "10:0/20:0", G, 0, 1)
    insert(8, "10:0/20:8/22:8", G, 0, 1)
    show()


@case("9: room for the element, and not for the missing groups")
def missing_room():
    for missing in range(1, 6):
        where = first_steps("200:16/1:16/2:16/3:16/4:16/5:16", missing + 1)
        then("%d missing, and room for as many" % missing)
        put(16, *(("%d:16" % n, G) for n in range(1, 33 - missing)))
        refuse(16, where, 9, 32 - missing, M(missing))
        show()
        then("%d missing, and room for one more" % missing)
        put(16, *(("%d:16" % n, G) for n in range(1, 32 - missing)))
        insert(16, where, M(missing), 0, missing)
        held(16, 32)
        show()
    then("one group fewer is missing")
    put(16, *(("%d:16" % n, G) for n in range(1, 30)))
    refuse(16, "200:16/1:16/2:16/3:16", 9, 29)
    insert(16, "200:16", G, 0)
    refuse(16, "200:16/1:16/2:16/3:16", 9, 30)
    insert(16, "200:16/1:16", G, 0)
    refuse(16, "200:16/1:16/2:16/3:16", 9, 31)
    refuse(16, "200:16/1:16/2:16/3:16", 9, 31, T("x"))
    insert(16, "200:16/1:16/2:16", G, 0)
    refuse(16, "200:16/1:16/2:16/3:16", 9, 32)
    delete(16, "1:16", 0, 1)
    insert(16, "200:16/1:16/2:16/3:16", G, 0)
    then("the partitions below and above are of no account")
    put(0, *(("%d:0" % n, G) for n in range(1, 33)))
    put(24, *(("%d:24" % n, G) for n in range(1, 33)))
    put(16)
    insert(16, "32:0/1:16/2:16/3:16", G, 0, 2)
    refuse(0, "33:0/1:0", 9, 32)
    refuse(24, "32:0/1:24/2:24", 9, 32)
    show()


@case("neither an update nor an XML intake makes groups")
def no_groups_made():
    update(0, "10:0/20:0", M(1), 7)
    intake(0, "10:0", e(20, 0, "G"), 7)
    intake(0, "10:0/20:0", e(30, 0, "M", "1"), 7)
    delete(0, "10:0/20:0", 7)
    insert(0, "11:0", G, 0)
    update(0, "11:0/20:0/30:0", M(1), 7)
    intake(0, "11:0/20:0", e(30, 0, "G"), 7)
    insert(0, "11:0/20:0/30:0", M(1), 0, 1)
    intake(0, "11:0/20:0", e(31, 0, "G"), 0, 1)
    show()


@case("2 to 6 before the missing groups")
def before_missing():
    every_call(4, 0, b"\1\0\0\1\0")
    insert(40, "10:0/20:0", G, 2)
    insert(0, "10:0/0:0/30:0", G, 4)
    insert(16, "10:16/20:0/30:16", G, 4)
    insert(0, SIX + "/7:0", G, 4)
    insert(0, "10:0/20:0", T(""), 5)
    insert(0, "10:0/20:0", (0, b"a"), 5)
    insert(16, "10:0/20:0", G, 6)
    insert(0, "10:16/20:16", G, 6)
    insert(0, "10:0/20:0", G, 1, 0, STORE - 1)
    corrupt(PARTITION * 16 + 1, b"\1")
    insert(16, "10:16/20:16", G, 3)
    insert(24, "10:24/20:24", G, 3)
    insert(9, "10:9/20:9", G, 0, 1)
    insert(0, "10:0/20:0", G, 0, 1)
    show()


@case("what 0 and 9 see and are answered as 16 makes groups")
def made_unseen():
    for name in ("alone", "as 16 makes groups"):
        then(name)
        put(0)
        put(9)
        high = name != "alone"
        if high:
            insert(16, "10:16/20:16/30:16", M(1), 0, 2)
        insert(0, "10:0/20:0", M(1), 0, 1)
        if high:
            insert(16, "10:0/20:0/30:16/40:16", M(1), 0, 1)
        insert(9, "10:0/20:0/30:9/40:9", M(1), 0, 1)
        delete(0, "10:0", 0, 2)
        if high:
            insert(16, "10:0/20:0/30:16/50:16/60:16", M(1), 0, 1)
        view(0, "/", 100, 0, 9, ["VIEW→0→0"])
        view(9, "/", 100, 0, 61, ["VIEW→9→4", "1→10→0→R→-→-", "2→20→0→R→-→-", "3→30→9→P→G→-", "4→40→9→P→M→1"])
        insert(0, "10:0/20:0", M(2), 0, 1)
        insert(9, "10:0/21:0/30:9", M(1), 7)
        insert(0, "10:0/21:0/22:0/23:0", M(1), 0, 2)
        view(0, "/", 100, 0, 74, ["VIEW→0→5", "1→10→0→P→G→-", "2→20→0→P→M→2", "2→21→0→P→G→-", "3→22→0→P→G→-", "4→23→0→P→M→1"])
    show()


@case("groups made by each label")
def made_by_each():
    for label in range(32):
        insert(label, "%d:%d/2:%d/3:%d" % (100 + label, label, label, label), M(label), 0, 2)
    view_lines(31, "/", 96)
    view_lines(0, "/", 3)
    view(19, "117:17", 100, 0, 52, ["VIEW→19→3", "1→117→17→P→G→-", "2→2→17→P→G→-", "3→3→17→P→M→17"])


# ---------------------------------------------------------------------------------------------------------------------
# The path order and the migration: document 02's request 7/14. Partitions are put in the order of before.

# the labels in path order under one name
BY_LEVEL = [8 * level + n for level in (3, 2, 1, 0) for n in range(8)]


@case("versions of one name at seven labels, seen by 31")
def seven_versions():
    for where in ("10:0", "10:8", "10:9", "10:16", "10:24", "10:1", "9:31"):
        insert(int(where.split(":")[1]), where, G, 0)
    lines = ["1→9→31→P→G→-", "1→10→24→P→G→-", "1→10→16→P→G→-", "1→10→8→P→G→-", "1→10→9→P→G→-", "1→10→0→P→G→-", "1→10→1→P→G→-"]
    view(31, "/", 103, 0, 103, ["VIEW→31→7"] + lines)
    tens = [e(10, label, "G") for label in (24, 16, 8, 9, 0, 1)]
    markup_of(31, "/", e(9, 31, "G"), *tens)


@case("a partition with a version of each label, put in one by one")
def each_version():
    for label in range(32):
        insert(label, "10:%d" % label, G, 0)
    # from label 0 up, from 30 down: each finds its place among the others
    for label in list(range(0, 31, 2)) + list(range(29, 0, -2)):
        insert(31, "10:%d/1:31" % label, M(label), 0)
    in_order(31, *("10:31" if label == 31 else "10:%d/1:31" % label for label in BY_LEVEL))
    lines = ["VIEW→31→63"]
    for label in BY_LEVEL:
        lines += ["1→10→%d→P→G→-" % label] + ["2→1→31→P→M→%d" % label] * (label != 31)
    view(31, "/", 1000, 0, 873, lines)
    insert(31, "10:31/1:31", G, 9)
    delete(31, "10:8/1:31", 0, 1)
    insert(31, "10:31/1:31", M(31), 0)
    insert(31, "10:8/1:31", G, 9)
    update(31, "10:0/1:31", M(-1), 0, 1)
    delete(31, "10:31", 0, 2)
    show()


@case("the migration of a store made before")
def migrated_example():
    ab = T("ab")
    put(0, ("10:0", ab), ("11:0", ab))
    put(8, ("10:8", ab))
    put(9, ("10:0/1:9", ab), ("10:8/1:9", ab), ("10:9", ab), ("10:9/1:9", ab))
    corrupt(PARTITION * 5 + 2, b"\1")
    show()
    then("before it: 9 is refused, 8 is served")
    every_call(3, 9, "10:9")
    view(8, "/", 100, 0, 51, ["VIEW→8→3", "1→10→8→P→T→ab", "1→10→0→P→T→ab", "1→11→0→P→T→ab"])
    then("the migration: partition 5 is not well formed in the order of before")
    migration(0, 1 << 5)
    in_order(9, "10:8/1:9", "10:9", "10:9/1:9", "10:0/1:9")
    lines = ["VIEW→9→7", "1→10→8→P→T→ab", "2→1→9→P→T→ab", "1→10→9→P→T→ab", "2→1→9→P→T→ab", "1→10→0→P→T→ab", "2→1→9→P→T→ab"]
    view(9, "/", 200, 0, 104, lines + ["1→11→0→P→T→ab"])
    view(5, "/", 100, 3)
    show()
    then("the same again: no byte changes, and the bit of the partition that changed is set too")
    migration_keeps(0, 1 << 5 | 1 << 9)
    migration_keeps(0, 1 << 5 | 1 << 9)
    view(9, "11:0", 100, 0, 23, ["VIEW→9→1", "1→11→0→P→T→ab"])
    show()


@case("the migration of an empty store and of stores of other lengths")
def migrated_lengths():
    migration_keeps(0)
    for size in (0, 1, PARTITION, 41087, 41089, BUFFER):
        migration_keeps(1, 0, size)
    put(9, ("10:0/1:9", G), ("10:8/1:9", G))
    corrupt(PARTITION * 5 + 2, b"\1")
    for size in (0, 1, PARTITION * 10, 41087, 41089, BUFFER):
        migration_keeps(1, 0, size)
    migration(0, 1 << 5)
    in_order(9, "10:8/1:9", "10:0/1:9")
    show()


@case("the migration of a full partition: the versions of all levels")
def migrated_full():
    paths = ["10:%d/1:31" % label for label in range(31)] + ["10:31"]
    put(31, *((where, M(n)) for n, where in enumerate(paths)))
    view(31, "/", 1000, 3)
    migration(0)
    in_order(31, *(paths[label] for label in BY_LEVEL))
    view_lines(31, "/", 63)
    show()
    migration_keeps(0, 1 << 31)
    then("one element of each level, five steps in front")
    one = "1:0/1:0/1:0/1:0/1:%d/1:24"
    put(24, *((one % label, T("level %d" % (label // 8))) for label in (0, 8, 16)), ("1:0/1:0/1:0/1:0/1:24", T("level 3")))
    put(31)
    migration(0)
    in_order(24, "1:0/1:0/1:0/1:0/1:24", *(one % label for label in (16, 8, 0)))
    show()
    then("two versions far apart, and one element behind 31")
    first = [("10:0/%d:8" % n, G) for n in range(1, 32)]
    put(24)
    put(8, *first, ("10:8", T("last")))
    migration(0)
    in_order(8, "10:8", *(where for where, value in first))
    show()
    migration_keeps(0, 1 << 8)


@case("the migration of versions inside versions")
def migrated_nested():
    put(25, ("10:0/5:0/1:25", M(1)), ("10:0/5:1/1:25", M(2)), ("10:0/5:8/1:25", M(3)), ("10:0/5:9/1:25", M(4)))
    put(24, ("9:0/5:24", G), ("10:0/5:0/1:24", M(1)), ("10:0/5:8/1:24", M(2)), ("10:0/5:16/1:24", M(3)), ("10:0/5:24", M(4)),
        ("10:0/6:24", M(5)), ("10:8/5:8/1:24", M(6)), ("10:8/5:16/1:24", M(7)), ("10:24", M(8)), ("10:24/5:24", M(9)),
        ("10:24/5:24/1:24", M(10)), ("11:24", T("after")))
    migration(0)
    in_order(25, "10:0/5:8/1:25", "10:0/5:9/1:25", "10:0/5:0/1:25", "10:0/5:1/1:25")
    in_order(24, "9:0/5:24", "10:24", "10:24/5:24", "10:24/5:24/1:24", "10:8/5:16/1:24", "10:8/5:8/1:24", "10:0/5:24", "10:0/5:16/1:24",
             "10:0/5:8/1:24", "10:0/5:0/1:24", "10:0/6:24", "11:24")
    view_lines(25, "/", 26)
    show()
    then("calls on what was moved")
    update(24, "10:8/5:16/1:24", T("seven"), 0, 1)
    insert(24, "10:16/5:24", G, 7)
    insert(16, "10:16", G, 0)
    insert(24, "10:16/5:24", G, 0)
    intake(24, "10:16", e(4, 24, "G", e(1, 24, "M", "1")), 0, 2)
    in_order(24, "9:0/5:24", "10:24", "10:24/5:24", "10:24/5:24/1:24", "10:16/4:24", "10:16/4:24/1:24", "10:16/5:24", "10:8/5:16/1:24",
             "10:8/5:8/1:24", "10:0/5:24", "10:0/5:16/1:24", "10:0/5:8/1:24", "10:0/5:0/1:24", "10:0/6:24", "11:24")
    grade(24, "10:0/5:0/1:24", "10:8/5:8/1:24", 2, 0, 2, 1)
    delete(24, "10:24", 0, 3)
    delete(24, "10:0/5:24", 0, 1)
    show()
    migration_keeps(0, 1 << 24 | 1 << 25)


@case("partitions that the migration leaves as they are")
def migration_left():
    then("versions of one level, and names: well formed in both orders")
    put(3, ("9:3", G), ("10:0/1:3", G), ("10:1/1:3", G), ("10:2/1:3", G), ("10:3", G))
    put(27, ("9:3/1:27", G), ("10:26/1:27", G), ("10:27", G), ("255:0/1:27", G), ("256:24/1:27", G), ("257:8/1:27", G))
    put(16, ("10:8/1:16", G), ("11:0/1:16", G), ("11:0/2:8/1:16", G))
    migration_keeps(0)
    migration_keeps(0)
    then("well formed in the new order alone: it keeps its bytes, and its bit is set")
    put(16, ("10:8/1:16", G), ("10:0/1:16", G))
    migration_keeps(0, 1 << 16)
    view_lines(16, "/", 4)
    then("well formed in neither")
    put(16, ("10:8/1:16", G), ("10:16", G), ("10:0/1:16", G))
    migration_keeps(0, 1 << 16)
    put(16, ("10:0/1:16", G), ("10:8/1:16", G), ("10:8/1:16", G))
    migration_keeps(0, 1 << 16)
    put(16, ("10:0/1:16", G), ("10:8/1:16", G), ("10:16/1:16", G))
    migration_keeps(0, 1 << 16)
    put(16, ("10:0/1:16", G), ("10:8/1:17", G))
    migration_keeps(0, 1 << 16)
    put(16, ("10:0/1:16", T("")), ("10:8/1:16", G))
    migration_keeps(0, 1 << 16)
    put(16, ("10:0/1:16", G), ("10:9/1:16", G))
    migration_keeps(0, 1 << 16)
    show()


@case("the migration of partitions with versions and one byte changed")
def migration_corrupted():
    base = PARTITION * 16
    put(16, ("10:0/1:16", T("ab")), ("10:8/1:16", M(1)), ("10:16", G))
    changes = [(0, 2), (0, 4), (0, 33), (0, 255), (1, 1), (3, 128), (4, 0), (4, 3), (4, 7), (9, 1), (17, 32), (19, 1), (23, 0), (24, 3)]
    changes += [(25, 31), (40, 1), (43, 1), (44, 1), (57, 24), (84, 2), (85, 9), (97, 17), (103, 1), (104, 1), (124, 1), (1283, 1)]
    for at, b in changes:
        was = bytes(buffer[base + at : base + at + 1])
        corrupt(base + at, bytes([b]))
        migration_keeps(0, 1 << 16)
        corrupt(base + at, was)
    then("mended")
    migration(0)
    in_order(16, "10:16", "10:8/1:16", "10:0/1:16")
    show()


@case("the mask of each partition, and of all")
def masks():
    for label in range(32):
        corrupt(PARTITION * label + 1, b"\1")
        migration_keeps(0, 1 << label)
        corrupt(PARTITION * label + 1, b"\0")
    for label in range(32):
        corrupt(PARTITION * label + 1283, b"\1")
        migration_keeps(0, (1 << label + 1) - 1)
    migration_keeps(0, 4294967295)
    migration_keeps(1, 0, 41087)
    show()


@case("each partition is migrated by itself")
def migrated_apart():
    def versions(label):
        """Two versions below 10, in the order of before."""
        put(label, ("10:0/1:%d" % label, M(label)), ("10:8/1:%d" % label, M(label)))

    for label in (9, 16, 17, 24, 31):
        versions(label)
    corrupt(PARTITION * 16 + 4 + 39, b"\1")
    migration(0, 1 << 16)
    for label in (9, 17, 24, 31):
        in_order(label, "10:8/1:%d" % label, "10:0/1:%d" % label)
    show()
    view_lines(9, "/", 4)
    every_call(3, 24, "10:8")
    then("mended, and migrated once more")
    corrupt(PARTITION * 16 + 4 + 39, b"\0")
    every_call(3, 16, "10:8")
    migration(0, 1 << 9 | 1 << 17 | 1 << 24 | 1 << 31)
    in_order(16, "10:8/1:16", "10:0/1:16")
    view_lines(31, "/", 12)
    migration_keeps(0, 1 << 9 | 1 << 16 | 1 << 17 | 1 << 24 | 1 << 31)
    show()


# ---------------------------------------------------------------------------------------------------------------------
# The table: each number on each call that can give it, and which comes first.


@case("1: stores of 0, 1, 41087 and 41089 bytes")
def refusal_1():
    for size in (0, 1, 41087, 41089):
        every_call(1, 0, "10:0", G, size)
    then("1 before 2 and before all others")
    every_call(1, 40, "10:0", G, 0)
    every_call(1, 4294967295, b"\1", (9, b""), 41089)
    corrupt(0, b"\41")
    every_call(1, 0, "10:0", G, 41087)
    show()


@case("2: subjects 32, 40, 256, 287 and 4294967295")
def refusal_2():
    for subject in (32, 40, 256, 287, 4294967295):
        every_call(2, subject, "10:31")
    then("2 before 3 and 4")
    corrupt(0, b"\41")
    every_call(2, 32, "10:0")
    every_call(2, 256, b"\1", (9, b""))
    show()


@case("3: a corrupted partition above, beside, of the subject and below")
def refusal_3():
    insert(0, "10:0", G, 0)
    insert(9, "10:9", G, 0)
    insert(16, "10:16", G, 0)
    corrupt(PARTITION * 16 + 2, b"\1")
    every_call(3, 16, "10:16")
    every_call(3, 31, "10:16")
    every_call(3, 17, "10:0")
    insert(0, "11:0", G, 0)
    update(0, "11:0", M(1), 0, 1)
    delete(0, "11:0", 0, 1)
    view(0, "/", 100, 0, 22, ["VIEW→0→1", "1→10→0→P→G→-"])
    markup(0, "/", 100, 0, 80, '<dossier subject="0"><e10 label="0" preserve="PRESENT" kind="G"></e10></dossier>')
    insert(9, "10:9/11:9", G, 0)
    update(9, "10:9", M(1), 0, 1)
    view(9, "/", 100, 0, 48, ["VIEW→9→3", "1→10→9→P→M→1", "2→11→9→P→G→-", "1→10→0→P→G→-"])
    delete(9, "10:9", 0, 2)
    show()
    then("mended; then the partition below both")
    corrupt(PARTITION * 16 + 2, b"\0")
    view(16, "/", 100, 0, 37, ["VIEW→16→2", "1→10→16→P→G→-", "1→10→0→P→G→-"])
    corrupt(1283, b"\1")
    every_call(3, 16, "10:16")
    every_call(3, 9, "10:9")
    every_call(3, 0, "10:0")
    then("3 before 4, 5, 6, 7 and 10")
    every_call(3, 0, b"\1\2", (9, b""))
    every_call(3, 16, "12:0/13:0")
    view(0, "/", 0, 3)
    markup(0, "/", 0, 3)
    show()


@case("4 before 5, 6, 7 and 10")
def refusal_4():
    every_call(4, 0, b"\1\0", (3, b""))
    every_call(4, 0, "0:16", (1, b""))
    view(0, "0:0", 0, 4)
    view(0, b"\1", 0, 4)
    markup(0, "0:0", 0, 4)
    markup(0, b"\1", 0, 4)


@case("5 before 6, 7, 8 and 9")
def refusal_5():
    insert(0, "10:0", G, 0)
    for value in ((3, b""), (1, b"abc"), (2, b"")):
        insert(16, "10:0", value, 5)
        update(16, "10:0", value, 5)
        insert(0, "12:0/13:0", value, 5)
        update(0, "12:0", value, 5)
        insert(0, "10:0", value, 5)
    for n in range(11, 42):
        insert(0, "%d:0" % n, G, 0)
    insert(0, "50:0", T(""), 5)
    insert(0, "50:0", T("x"), 9)


@case("6: the last label is another, above, below and beside")
def refusal_6():
    insert(0, "10:0", G, 0)
    insert(16, "10:0/20:16", G, 0)
    for subject, where in ((16, "10:0"), (0, "10:0/20:16"), (9, "10:0/20:16"), (31, "10:0/20:16"), (17, "10:0/20:16")):
        insert(subject, where, G, 6)
        update(subject, where, G, 6)
        delete(subject, where, 6)
    then("6 before 7 and 8")
    insert(16, "12:0/13:0", G, 6)
    update(16, "12:0/13:0", G, 6)
    delete(16, "12:0/13:0", 6)
    show()


@case("7: not in view, the parent not in view, not live")
def refusal_7():
    every_call(7, 16, "10:0/20:16")
    view(0, "10:0", 100, 7)
    markup(0, "10:0", 100, 7)
    update(0, "10:0", G, 7)
    delete(0, "10:0", 7)
    insert(16, "10:16", G, 0)
    every_call(7, 16, "10:0/20:16")
    insert(16, "10:0/20:0/30:16", G, 7)
    insert(16, "10:16/20:16", G, 0)
    insert(17, "10:16/20:16/30:17", G, 0)
    insert(17, "10:16/21:16/30:17", G, 7)
    insert(9, "10:0/20:9", G, 7)
    view(0, "10:16", 100, 7)
    view(9, "10:16", 100, 7)
    markup(0, "10:16", 100, 7)
    markup(9, "10:16", 100, 7)
    then("7 before 10; 8; 10")
    view(0, "10:16", 0, 7)
    view(16, "10:16/21:16", 0, 7)
    view(16, "10:16", 0, 10)
    markup(0, "10:16", 0, 7)
    markup(16, "10:16/21:16", 0, 7)
    markup(16, "10:16", 0, 10)
    insert(16, "10:16", G, 8)
    insert(16, "10:16/20:16", M(1), 8)
    view(16, "10:16", 37, 10)
    view(16, "10:16", 38, 0, 38, ["VIEW→16→2", "1→10→16→P→G→-", "2→20→16→P→G→-"])
    show()


# ---------------------------------------------------------------------------------------------------------------------
# Partitions put onto the store byte by byte: which are well formed.


@case("3: a partition of 10:16 and 10:16/20:16 with one byte changed")
def one_byte_changed():
    insert(16, "10:16", G, 0)
    insert(16, "10:16/20:16", T("ab"), 0)
    base = PARTITION * 16
    one, two = 4, 44
    changes = [(0, 33), (0, 255), (0, 3), (0, 1), (1, 1), (2, 1), (3, 1)]
    changes += [(one, 0), (one, 2), (one, 7), (one + 1, 0), (one + 1, 11), (one + 3, 1), (one + 12, 1)]
    changes += [(one + 13, 0), (one + 13, 17), (one + 13, 48), (one + 14, 16), (one + 18, 1)]
    changes += [(one + 19, 1), (one + 19, 3), (one + 20, 1), (one + 21, 65)]
    changes += [(one + 36, 1), (one + 37, 1), (one + 38, 1), (one + 39, 1)]
    changes += [(two, 1), (two, 3), (two + 1, 9), (two + 1, 12), (two + 3, 0)]
    changes += [(two + 13, 17), (two + 13, 24), (two + 14, 0), (two + 15, 16)]
    changes += [(two + 19, 0), (two + 19, 1), (two + 20, 1), (two + 20, 3), (two + 20, 17)]
    changes += [(two + 21, 31), (two + 22, 127), (two + 23, 1)]
    changes += [(84, 1), (1244, 1), (1283, 255)]
    for at, b in changes:
        was = bytes(buffer[base + at : base + at + 1])
        corrupt(base + at, bytes([b]))
        view(16, "/", 100, 3)
        view(0, "/", 100, 0, 9, ["VIEW→0→0"])
        corrupt(base + at, was)
    view(16, "/", 100, 0, 39, ["VIEW→16→2", "1→10→16→P→G→-", "2→20→16→P→T→ab"])
    then("one byte changed, and well formed")
    corrupt(base + two + 3, b"\25")
    corrupt(base + two + 21, b"A")
    view(16, "/", 100, 0, 39, ["VIEW→16→2", "1→10→16→P→G→-", "2→21→16→P→T→Ab"])
    corrupt(base + one + 19, b"\1\4\0\0\0\200")
    view(16, "10:16", 100, 0, 49, ["VIEW→16→2", "1→10→16→P→M→-2147483648", "2→21→16→P→T→Ab"])
    then("one label changed, and in path order: 10:16 before 10:0/21:16")
    corrupt(base + two + 13, b"\0")
    lines = ["VIEW→16→3", "1→10→16→P→M→-2147483648", "1→10→0→R→-→-", "2→21→16→P→T→Ab"]
    view(16, "/", 100, 0, 62, lines)
    show()


@case("partition 16 corrupted, for 0, 9, 16, 31 and 40")
def partition_16():
    corrupt(PARTITION * 16, b"\41")
    view(0, "/", 100, 0, 9, ["VIEW→0→0"])
    view(9, "/", 100, 0, 9, ["VIEW→9→0"])
    view(16, "/", 100, 3)
    view(31, "/", 100, 3)
    view(40, "/", 100, 2)


@case("an empty partition with one byte changed")
def empty_changed():
    for at, b in ((0, 1), (0, 33), (1, 1), (3, 1), (4, 1), (1283, 1)):
        corrupt(at, bytes([b]))
        view(0, "/", 100, 3)
        corrupt(at, b"\0")
    view(0, "/", 100, 0, 9, ["VIEW→0→0"])


@case("3: each byte of an unused slot, and bytes whose sum is 256")
def unused_slot():
    base = PARTITION * 16
    put(16, *((f"{n}:16", G) for n in range(1, 32)))
    for i in range(40):
        corrupt(base + 1244 + i, bytes([1 << i % 8]))
        view(16, "/", 100, 3)
        corrupt(base + 1244 + i, b"\0")
    for i in range(0, 40, 8):
        for raw in (b"\200\0\0\0\0\0\0\200", b"\0\0\0\1\377\0\0\0", b"\40" * 8):
            corrupt(base + 1244 + i, raw)
            view(16, "/", 100, 3)
            corrupt(base + 1244 + i, bytes(8))
    insert(16, "32:16", G, 0)
    insert(16, "33:16", G, 9)
    then("of 32 elements the last is not counted")
    corrupt(base, b"\37")
    view(16, "/", 100, 3)
    corrupt(base + 1244, bytes(40))
    view_lines(16, "/", 31)


@case("slots of six steps, by kind and value")
def six_steps():
    five = "1:0/2:0/3:1/4:1/5:5"
    six = five + "/6:5"
    lines = ["VIEW→5→2", "5→5→5→P→G→-"]
    put(5, (five, G), (six, G))
    view(5, five, 100, 0, 33, lines + ["6→6→5→P→G→-"])
    put(5, (five, G), (six, M(-2147483648)))
    view(5, five, 100, 0, 43, lines + ["6→6→5→P→M→-2147483648"])
    put(5, (five, G), (six, T("SLEEVE LEFT HAND")))
    view(5, five, 100, 0, 48, lines + ["6→6→5→P→T→SLEEVE LEFT HAND"])
    put(5, (five, G), (six, T("")))
    view(5, five, 100, 3)
    put(5, (five, G), (six, (3, b"A")))
    view(5, five, 100, 3)


@case("a slot of label 3 in partitions 3 and 7")
def label_3():
    put(3, ("10:3", T("A")))
    view(3, "/", 100, 0, 22, ["VIEW→3→1", "1→10→3→P→T→A"])
    view(7, "/", 100, 0, 22, ["VIEW→7→1", "1→10→3→P→T→A"])
    put(3)
    put(7, ("10:3", T("A")))
    view(3, "/", 100, 0, 9, ["VIEW→3→0"])
    view(7, "/", 100, 3)


@case("slots of names 255 and 256, in each order, and of 255 twice")
def slot_order():
    put(0, ("255:0", G), ("256:0", G))
    view(0, "/", 100, 0, 37, ["VIEW→0→2", "1→255→0→P→G→-", "1→256→0→P→G→-"])
    put(0, ("256:0", G), ("255:0", G))
    view(0, "/", 100, 3)
    put(0, ("255:0", G), ("255:0", G))
    view(0, "/", 100, 3)


@case("slots with their parents and without")
def slot_parents():
    put(0, ("10:0/20:0", G))
    view(0, "/", 100, 3)
    put(0, ("9:0", G), ("10:0/20:0", G))
    view(0, "/", 100, 3)
    put(0, ("10:0", G), ("10:0/20:0", G))
    view(0, "/", 100, 0, 35, ["VIEW→0→2", "1→10→0→P→G→-", "2→20→0→P→G→-"])
    put(0)
    put(16, ("10:0/20:16", G))
    view(16, "/", 100, 0, 37, ["VIEW→16→2", "1→10→0→R→-→-", "2→20→16→P→G→-"])


@case("32 slots, with the counts 31, 32 and 33")
def counts():
    put(0, *[("%d:0" % n, G) for n in range(1, 33)])
    view_lines(0, "/", 32)
    corrupt(0, b"\37")
    view(0, "/", 1000, 3)
    corrupt(0, b"\41")
    view(0, "/", 1000, 3)
    corrupt(0, b"\40")
    view_lines(0, "/", 32)


# ---------------------------------------------------------------------------------------------------------------------
# Sequences of files, chosen by their names: between them they give every number but 1. With each, the SHA-256 of its last store.
# Of those made before request 2/14 only such are chosen in which no update finds an element of its own label below its path, of
# those made before request 6/14 only such in which no insert misses groups of its own label, and of those made before request 7/14
# only such in which no partition and no view has versions of one name at two levels.

CHOSEN = {
    "sequence 5": "624d36a7d93222074f067382194e0bd739128e891a4feba713d50d17093d623a",
    "sequence 1141 after request 1": "3aab6b71645abcbf62a3dab9a97494bcbbce8c7904c8956485224476a12ae349",
    "sequence 3082 after request 3": "eaa828cce3d140c06fe962740492a65b605ab3264b9a55f97da8d2f5c2164ff7",
    "sequence 3174 after request 3": "70eb0019a40b8fbe28da941efb5d97d1fcd2db1854dfda04dafa2f35de4b5149",
    "sequence 6191 after request 6": "fc2dd6bc53525ececc15ef51b94d4fabcc80a8483fe8948e991651019d61bf57",
    "sequence 7207 after request 7": "3213a0f929a8bce652142ffa4e44827f6c632290f05a60f4b8bd7bc43be1d02f",
    "sequence 7096 after request 7": "b6b769f63c2d731d4631ce5fac8842156fb3fccae17badff8058bda53dd33681",
    "sequence 7177 after request 7": "4168180e21b94c1522719524c3de1a26b5e2ee0ed4cdaec7ec50242c4cdcf049",
    "sequence 7220 after request 7": "729cd822e20fa710660859a817a1399f297df102ffd7f693ad6775acc6235256",
    "sequence 7109 after request 7": "11879bb631e9c9150c58fefdeb6bae014c7b69ab9232928ad860d77b292d65ab",
    "sequence 7078 after request 7": "6b61d1a05884a508641bbd1f5c797ab5c257df3dda4d2e0c461903165cf7dfeb",
}


def from_files(names):
    """The chosen sequences of the files; of two with one name the first."""
    found = {}
    for name in names:
        with open(name, encoding="ascii") as f:
            for lines in parted(map(json.loads, f)):
                found.setdefault(named(lines[0]), lines)
    for name in CHOSEN:
        sequence(name, found[name])


def named(first):
    """The name of a sequence by its first line: its seed, and the request after which it is to be made."""
    return "sequence %d" % first["seed"] + (" after request %d" % first["stage"] if first["stage"] else "")


def parted(lines):
    """The sequences of a file, each a list that ends with its end."""
    held = []
    for line in lines:
        held.append(line)
        if "end" in line:
            yield held
            held = []


def sequence(name, lines):
    """One sequence: its store, its events, the store at its end."""
    store = base64.b64decode(lines[0]["store"])
    hold(len(store), STORE)
    begin(name)
    corrupt(0, store)
    for line in lines[1:-1]:
        event(line)
    hold(lines[-1]["end"], CHOSEN[name])
    end(name)


def event(line):
    """One event of a sequence: bytes that come onto the store, or a call and what it must give."""
    if "damage" in line:
        corrupt(line["damage"], bytes.fromhex(line["bytes"]))
        return
    if line["call"] == "carry":
        hold(line["written"], "")
        migration(line["number"], line["count"])
        return
    if line["call"] == "grade":
        base, top = bytes.fromhex(line["path"]), bytes.fromhex(line["top"])
        hold(line["written"], "")
        grade(line["subject"], base, top, line["n"], line["number"], *line["count"])
        return
    if line["call"] == "takein":
        hold(line["written"], "")
        intake(line["subject"], bytes.fromhex(line["path"]), bytes.fromhex(line["text"]), line["number"], line["count"])
        return
    letter = {"view": "V", "xml": "M", "insert": "I", "update": "U", "delete": "D"}[line["call"]]
    where, value = bytes.fromhex(line["path"]), bytes.fromhex(line.get("value", ""))
    third = line.get("outlen", 0) if letter in "VM" else line.get("kind", 0)
    given = record(letter, where, value, line["subject"], third, STORE)
    hold(given, (line["number"], line["count"], bytes.fromhex(line["written"])))


def end(name):
    """The end of a sequence: its store is the one that its file gives, and is shown."""
    hold(hashlib.sha256(buffer[:STORE]).hexdigest(), CHOSEN[name])
    show()


def from_records(stdin):
    """The sequences that stand in stdin, record by record from the first one on."""
    at = stdin.index(b"sequence ") - 16
    while at < len(stdin):
        head, m, n, size, subject, third = struct.unpack("<BBHIII", stdin[at : at + 16])
        letter = chr(head)
        first, second = stdin[at + 16 : at + 16 + m], stdin[at + 16 + m : at + 16 + m + n]
        if letter == "N":
            name = first.decode().rstrip("\n")
        if letter == "S":
            end(name)
        else:
            record(letter, first, second, subject, third, size)
        at += 16 + m + n


# ---------------------------------------------------------------------------------------------------------------------
# The two files.


def read(name):
    """A file's bytes."""
    with open(name, "rb") as f:
        return f.read()


def write(name, raw):
    """Writes a file."""
    with open(name, "wb") as f:
        f.write(raw)


# the numbers that each call can answer: all of them are among the cases
VIEWS = {0, 1, 2, 3, 4, 7, 10}
NUMBERS = {"V": VIEWS, "M": VIEWS, "I": set(range(10)), "U": set(range(8)), "D": {0, 1, 2, 3, 4, 6, 7}}
NUMBERS["G"] = {0, 1, 2, 3, 4, 7, 11, 12}
NUMBERS["T"] = {0, 1, 2, 3, 4, 7, 8, 9, 13, 14}
NUMBERS["O"] = {0, 1}


def main(words):
    """Makes both files, then writes them, or with --check says which differ."""
    crate = os.path.join(os.path.dirname(os.path.abspath(__file__)), "..", "crates", "call_cases")
    names = [os.path.join(crate, "stdin"), os.path.join(crate, "stdout")]
    for name, body in CASES:
        begin(name)
        body()
    files = [word for word in words if word != "--check"]
    if files:
        from_files(files)
    else:
        from_records(read(names[0]))
    assert answered == NUMBERS, answered
    made = [b"".join(records), b"".join(output)]
    if "--check" not in words:
        for name, raw in zip(names, made):
            write(name, raw)
        return
    differ = [os.path.basename(name) for name, raw in zip(names, made) if read(name) != raw]
    if differ:
        sys.exit("made otherwise than they stand in crates/call_cases: " + ", ".join(differ))


main(sys.argv[1:])
