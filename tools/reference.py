"""Documents 01 and 02 as a Python program, written from the documents alone: the reference that expected output comes from.

It holds labels, paths and their order, values, the bytes of slots, partitions and stores, what is in view, how it is listed, how
it is written as XML and how such XML is read, and the seven calls on a model of the store: the four of document 01, Update and
Insert as document 02's requests 2/14 and 6/14 amend them, the view as XML of request 1/14, the even grade of request 3/14 and the
XML intake of request 5/14; and, on the store's bytes, the migration of request 7/14, from the path order of before to the one that
all else goes by. It shares no code with the crates, and runs by no part of them.
"""
import re
import struct

STORE = 41088
PARTITION = 1284
SLOT = 40


def dominates(l, m):
    """Whether label l dominates label m."""
    return l // 8 >= m // 8 and (l % 8) & (m % 8) == m % 8


def good_steps(steps):
    """Whether the steps, if any, are those of an element's path."""
    if len(steps) > 6:
        return False
    if not all(1 <= name <= 65535 and label <= 31 for name, label in steps):
        return False
    return all(dominates(after[1], before[1]) for before, after in zip(steps, steps[1:]))


def good_value(kind, value):
    """Whether a value has one of the three forms."""
    if kind == 0:
        return len(value) == 0
    if kind == 1:
        return len(value) == 4
    return kind == 2 and 1 <= len(value) <= 16 and all(32 <= b <= 126 for b in value)


def read_path(raw):
    """The steps of a path given as three bytes a step, or None."""
    if len(raw) % 3 != 0:
        return None
    steps = tuple((raw[i] + 256 * raw[i + 1], raw[i + 2]) for i in range(0, len(raw), 3))
    return steps if good_steps(steps) else None


def path_key(path):
    """A path's place in path order: step by step by name, then by level from high to low, then by compartments from low to high. A
    prefix comes before its extensions."""
    return [(name, -(label // 8), label % 8) for name, label in path]


def old_path_key(path):
    """A path's place in the path order of before request 7/14: step by step by name, then by the label's number."""
    return list(path)


def slot_bytes(steps, kind, value):
    """An element as 40 bytes."""
    b = bytearray(SLOT)
    b[0] = len(steps)
    for i, (name, label) in enumerate(steps):
        b[1 + 2 * i : 3 + 2 * i] = struct.pack("<H", name)
        b[13 + i] = label
    b[19] = kind
    b[20] = len(value)
    b[21 : 21 + len(value)] = value
    return bytes(b)


def read_slot(b):
    """The element of 40 bytes, or None: its steps, its kind and its value."""
    if not 1 <= b[0] <= 6 or b[20] > 16:
        return None
    steps = tuple((b[1 + 2 * i] + 256 * b[2 + 2 * i], b[13 + i]) for i in range(b[0]))
    kind, value = b[19], bytes(b[21 : 21 + b[20]])
    if not good_steps(steps) or not good_value(kind, value):
        return None
    return (steps, kind, value) if slot_bytes(steps, kind, value) == bytes(b) else None


def read_partition(label, b, key=path_key):
    """The set of a partition that is well formed in an order, each path with its kind and value; None if it is not."""
    count = b[0]
    if count > 32 or any(b[1:4]) or any(b[4 + SLOT * count :]):
        return None
    elements = [read_slot(b[4 + SLOT * i : 44 + SLOT * i]) for i in range(count)]
    if None in elements:
        return None
    paths = [e[0] for e in elements]
    if any(p[-1][1] != label for p in paths) or any(key(p) >= key(q) for p, q in zip(paths, paths[1:])):
        return None
    for p in paths:
        if any(p[n - 1][1] == label and p[:n] not in paths for n in range(1, len(p))):
            return None
    return {p: (kind, value) for p, kind, value in elements}


def partition_bytes(elements):
    """A set laid out in 1,284 bytes."""
    slots = b"".join(slot_bytes(p, *elements[p]) for p in sorted(elements, key=path_key))
    return (bytes([len(elements), 0, 0, 0]) + slots).ljust(PARTITION, b"\0")


def printed(content):
    """An element's kind as a letter and its value as text; its content is None where it is removed, else its kind and value."""
    if content is None:
        return b"-", b""
    kind, value = content
    if kind == 0:
        return b"G", b""
    if kind == 1:
        return b"M", b"%d" % struct.unpack("<i", value)
    return b"T", value


def line(path, content):
    """A line of a listing: depth, name, label, mark, kind and value."""
    name, label = path[-1]
    mark = b"R" if content is None else b"P"
    letter, value = printed(content)
    return b"%d\t%d\t%d\t%s\t%s\t%s\n" % (len(path), name, label, mark, letter, value or b"-")


def escaped(text):
    """A text in XML: the characters &, < and > are written otherwise."""
    return text.replace(b"&", b"&amp;").replace(b"<", b"&lt;").replace(b">", b"&gt;")


def element(path, contents):
    """An element in XML: its tag, its value, the elements one step below it in path order, its end tag."""
    name, label = path[-1]
    preserve = b"REMOVED" if contents[path] is None else b"PRESENT"
    letter, value = printed(contents[path])
    below = b"".join(element(p, contents) for p in sorted(contents, key=path_key) if p[:-1] == path)
    tag = b'<e%d label="%d" preserve="%s" kind="%s">' % (name, label, preserve, letter)
    return tag + escaped(value) + below + b"</e%d>" % name


# an element's tag with the characters behind it, up to the next tag: name, label, mark, the kind's letter, the value
TAG = re.compile(rb'<e([1-9][0-9]{0,4}) label="(0|[1-9][0-9]?)" preserve="(PRESENT|REMOVED)" kind="([GMT-])">([^<]*)')


def unescaped(written):
    """The text that XML writes with these characters."""
    return written.replace(b"&lt;", b"<").replace(b"&gt;", b">").replace(b"&amp;", b"&")


def read_value(letter, written):
    """The kind and the value that XML writes with a letter and some characters; None if it writes no allowed value so."""
    if letter == b"G":
        return (0, b"") if written == b"" else None
    if letter == b"M":
        fits = re.fullmatch(rb"0|-?[1-9][0-9]{0,9}", written) and -(2**31) <= int(written) < 2**31
        return (1, struct.pack("<i", int(written))) if fits else None
    value = unescaped(written)
    return (2, value) if letter == b"T" and good_value(2, value) and escaped(value) == written else None


def read_element(text, at, above, contents):
    """Reads the element of XML at a place: the place behind it, or None if the text is not in form there. Into the contents come
    the element and those inside it, each path with its kind and value, or with None where it is removed."""
    tag = TAG.match(text, at)
    if tag is None or len(above) == 6:
        return None
    name, label, mark, letter, written = tag.groups()
    path = above + ((int(name), int(label)),)
    removed = (mark, letter, written) == (b"REMOVED", b"-", b"")
    content = read_value(letter, written) if mark == b"PRESENT" else None
    if int(name) > 65535 or int(label) > 31 or path in contents or (content is None and not removed):
        return None
    contents[path] = content
    at, end = tag.end(), b"</e%s>" % name
    while not text.startswith(end, at):
        at = read_element(text, at, path, contents)
        if at is None:
            return None
    return at + len(end)


def read_style(text, parent):
    """What a text sends below the parent, each path with its kind and value or with None, the top element first; None if the text
    is not one element in form."""
    contents = {}
    return contents if read_element(text, 0, parent, contents) == len(text) else None


def migrate(store):
    """The migration of a store made before request 7/14: its number, its mask and the store after it. Each partition that is well
    formed in the order of before gets its elements in the new one; each other keeps its bytes, and its bit is set."""
    if len(store) != STORE:
        return 1, 0, bytes(store)
    mask, parts = 0, []
    for n in range(32):
        raw = bytes(store[PARTITION * n : PARTITION * (n + 1)])
        elements = read_partition(n, raw, old_path_key)
        mask |= 0 if elements is not None else 1 << n
        parts.append(raw if elements is None else partition_bytes(elements))
    return 0, mask, b"".join(parts)


class Model:
    """The model: the store's length, and for each label a set, or the bytes of a partition that is not well formed."""

    def __init__(self, store):
        self.store = bytes(store)
        self.parts = []
        if len(store) == STORE:
            self.parts = [self.opened(n) for n in range(32)]

    def opened(self, n):
        """Partition n: its set, or its bytes."""
        raw = self.store[PARTITION * n : PARTITION * (n + 1)]
        read = read_partition(n, raw)
        return raw if read is None else read

    def bytes(self):
        """The store."""
        if not self.parts:
            return self.store
        return b"".join(p if isinstance(p, bytes) else partition_bytes(p) for p in self.parts)

    def in_view(self, subject):
        """The paths in the subject's view, without the root."""
        live = [p for n in range(32) if dominates(subject, n) for p in self.parts[n]]
        return {p[:n] for p in live for n in range(1, len(p) + 1)}

    def sees(self, subject, path):
        """Whether the path is in the subject's view; the root always is."""
        return path == () or path in self.in_view(subject)

    def unseen(self, subject, path):
        """The prefixes of the path, itself among them, that are not in the subject's view, the shortest first."""
        return [path[:n] for n in range(1, len(path) + 1) if not self.sees(subject, path[:n])]

    def missing(self, subject, path):
        """The missing groups of an insert: the prefixes of the path, without itself, that are not in the subject's view."""
        return self.unseen(subject, path[:-1])

    def is_live(self, path):
        """Whether the element is in the set of its label."""
        return path in self.parts[path[-1][1]]

    def measure(self, path):
        """The measure of the live element at the path; None at the root, where no element is live and where it is no measure."""
        kind, value = (0, b"") if path == () else self.parts[path[-1][1]].get(path, (0, b""))
        return struct.unpack("<i", value)[0] if kind == 1 else None

    def listed(self, subject, path):
        """What a view of the path lists: each path with its kind and value, or with None where the element is removed."""
        return {p: self.parts[p[-1][1]].get(p) for p in self.in_view(subject) if p[: len(path)] == path}

    def listing(self, subject, path):
        """The printed view."""
        listed = self.listed(subject, path)
        return b"VIEW\t%d\t%d\n" % (subject, len(listed)) + b"".join(line(p, listed[p]) for p in sorted(listed, key=path_key))

    def xml(self, subject, path):
        """The view as XML: in the dossier tag the path's own element, or for the empty path the elements of one step."""
        listed = self.listed(subject, path)
        top = sorted((p for p in listed if p == path or len(p) == 1), key=path_key)
        return b'<dossier subject="%d">%s</dossier>' % (subject, b"".join(element(p, listed) for p in top))

    def barred(self, subject):
        """The number of the first of the causes 1 to 3, those of every call, that applies, else 0."""
        if len(self.store) != STORE:
            return 1
        if subject > 31:
            return 2
        return 3 if any(isinstance(self.parts[n], bytes) for n in range(32) if dominates(subject, n)) else 0

    def refusal(self, op, subject, raw, kind, value):
        """The number of the first of the causes 1 to 9 that applies, else 0; and the path."""
        number = self.barred(subject)
        if number != 0:
            return number, None
        path = read_path(raw)
        if path is None or (path == () and op not in "VM"):
            return 4, None
        if op in "IU" and not good_value(kind, value):
            return 5, path
        if op in "IUD" and path[-1][1] != subject:
            return 6, path
        if op in "VM" and not self.sees(subject, path):
            return 7, path
        if op == "I" and any(prefix[-1][1] != subject for prefix in self.unseen(subject, path)):
            return 7, path
        if op in "UD" and not self.is_live(path):
            return 7, path
        if op == "I" and self.is_live(path):
            return 8, path
        if op == "I" and len(self.parts[subject]) + len(self.missing(subject, path)) + 1 > 32:
            return 9, path
        return 0, path

    def call(self, op, subject, raw, kind=0, value=b"", room=0):
        """A call, V, M (the view as XML), I, U or D: its number, its count and what it writes."""
        number, path = self.refusal(op, subject, raw, kind, value)
        if number != 0:
            return number, 0, b""
        if op in "VM":
            text = self.listing(subject, path) if op == "V" else self.xml(subject, path)
            return (10, 0, b"") if room < len(text) else (0, len(text), text)
        own = self.parts[subject]
        if op in "IU":
            made = self.missing(subject, path) if op == "I" else []
            own.update({group: (0, b"") for group in made})
            own[path] = (kind, bytes(value))
            return 0, 1 if op == "U" else len(made), b""
        gone = [p for p in own if p[: len(path)] == path]
        for p in gone:
            del own[p]
        return 0, len(gone), b""

    def grade_refusal(self, subject, base, top, n):
        """The number of the first cause that applies to an even grade, each tested for both paths, else 0; and the paths."""
        number = self.barred(subject)
        if number != 0:
            return number, ()
        paths = read_path(base), read_path(top)
        if None in paths:
            return 4, ()
        if not 1 <= n <= 64:
            return 11, paths
        if not all(self.sees(subject, path) for path in paths):
            return 7, paths
        if any(self.measure(path) is None for path in paths):
            return 12, paths
        return 0, paths

    def grade(self, subject, base, top, n):
        """The call G, the even grade from a base to a top in n sizes: its number, its step and its remainder."""
        number, paths = self.grade_refusal(subject, base, top, n)
        if number != 0:
            return number, 0, 0
        start, end = map(self.measure, paths)
        return 0, *divmod(end - start, n)

    def intake_refusal(self, subject, raw, text):
        """The number of the first cause that applies to an XML intake, else 0; and the elements that the text sends."""
        number = self.barred(subject)
        if number != 0:
            return number, {}
        parent = read_path(raw)
        if parent is None:
            return 4, {}
        sent = read_style(text, parent)
        if sent is None:
            return 13, {}
        if any(path[-1][1] != subject or content is None for path, content in sent.items()):
            return 14, sent
        if not self.sees(subject, parent):
            return 7, sent
        if self.is_live(next(iter(sent))):
            return 8, sent
        return 9 if len(self.parts[subject]) + len(sent) > 32 else 0, sent

    def insert_xml(self, subject, raw, text):
        """The call T, the XML intake of a style below a parent: its number and its count."""
        number, sent = self.intake_refusal(subject, raw, text)
        if number != 0:
            return number, 0
        self.parts[subject].update(sent)
        return 0, len(sent)
