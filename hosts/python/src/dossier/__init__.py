"""dossier, the labelled dossier store of the project Yaztobel, as a package over the archive libdossier_c.a, which its
installation (`pip install hosts/python`) links into a library. docs/GUIDE.md is where to begin.

A Store is 41,088 bytes, its own or lent: 32 partitions, one for each label. Subjects view and change one tree of elements, each
under a label of their own; what a subject sees and is told owes nothing to subjects that he does not dominate. The calls
themselves are proved; this package only passes bytes and numbers on and reads the answers.

The typed calls are methods of Store. Below them, dossier.raw has the calls on bytes of any length and on numbers of 32
bits: no number is narrowed on its way, so that a subject of 287 is refused by 2, a kind of 256 by 5 and a grade in 257 sizes
by 11. A number that does not fit 32 bits never reaches the library: it raises ValueError. What is no whole number, such as 7.5,
1.0 or "1", raises TypeError as a level, compartments, a label, a subject, a name, a kind, a measure or a number of sizes.

Threads: calls on one Store may come from any number of threads at once; each is carried out whole, one after the other in some
order, views too. Calls on different Stores over different buffers run at the same time. Two Stores over one buffer, and the
calls of dossier.raw, know nothing of each other: their caller sees to it that none runs while another writes the buffer, else a
change may be lost, or a store be seen that is half changed, and nothing worse. The library runs without the interpreter's
global lock, on copies that nobody else can reach, and the order of a Store's calls comes from a lock of its own; that was
tested on builds of CPython that have a global lock. A call within a call of the same thread on the same Store, such as a
finalizer or a handler of signals may make, raises RuntimeError. A forked process has the Store as it was between two calls.

A subject of label 0 inserts a style and a subject of label 16 a measure under it; 0 deletes the style, and 16 still sees it,
marked as removed, above his measure:

    >>> from dossier import Group, Label, Measure, Path, Refused, Store
    >>> low, high = Label.parse("open"), Label.parse("house")
    >>> style = Path.root().child(10, low)
    >>> sleeve, cuff = style.child(20, high), style.child(30, high)
    >>> store = Store()
    >>> store.insert(low, style, Group())
    0
    >>> store.insert(high, sleeve, Measure(-150))
    0
    >>> store.delete(low, style)
    1
    >>> for line in store.view(high):
    ...     print(line.path, "live" if line.live else "removed", line.value)
    10:0 removed None
    10:0/20:16 live Measure(hundredths=-150)

A style sent as XML, all of it at once, and the even grade between two measures in three sizes, 1000 being 3 × 333 + 1:

    >>> store.insert_xml(high, style, '<e30 label="16" preserve="PRESENT" kind="M">850</e30>')
    1
    >>> store.view_xml(high, cuff)
    '<dossier subject="16"><e30 label="16" preserve="PRESENT" kind="M">850</e30></dossier>'
    >>> store.grade(high, sleeve, cuff, 3)
    Grade(step=333, remainder=1)

A measure that comes before its piece; the missing group is made, and counted:

    >>> store.insert(high, Path.parse("40:house/1:house"), Measure(3900))
    1

A refusal says its cause and changes nothing:

    >>> try:
    ...     store.delete(low, style)
    ... except Refused as refused:
    ...     print(refused)
    refused by 7: the path or its parent is not in view, or the element is not live

A store in a file, locked, and saved at the end of the block:

    with Store.open("shirts") as store:
        store.insert(low, style, Group())
"""
from .answer import Answer, Grade, GradeAnswer, Mask, MigrationAnswer, Refusal, Refused, UnexpectedAnswer
from .file import NotAStore, StoreChanged, StoreFileError, StoreInUse, StoreNotSynced
from .label import Compartment, Label, Level
from .listing import Line, Unreadable, View
from .path import PATH_BYTES_MAX, STEP_BYTES, Path, Step
from .raw import LISTING_BYTES_MAX, PARTITION_BYTES, STORE_BYTES, XML_BYTES_MAX
from .store import Store, StoreFile
from .value import MEASURE_BYTES, TEXT_BYTES_MAX, Group, Kind, Measure, Text, Value

# The version, the same as in pyproject.toml.
__version__ = "1.0.0"

__all__ = [
    "Answer",
    "Compartment",
    "Grade",
    "GradeAnswer",
    "Group",
    "Kind",
    "LISTING_BYTES_MAX",
    "Label",
    "Level",
    "Line",
    "MEASURE_BYTES",
    "Mask",
    "Measure",
    "MigrationAnswer",
    "NotAStore",
    "PARTITION_BYTES",
    "PATH_BYTES_MAX",
    "Path",
    "Refusal",
    "Refused",
    "STEP_BYTES",
    "STORE_BYTES",
    "Step",
    "Store",
    "StoreChanged",
    "StoreFile",
    "StoreFileError",
    "StoreInUse",
    "StoreNotSynced",
    "TEXT_BYTES_MAX",
    "Text",
    "UnexpectedAnswer",
    "Unreadable",
    "Value",
    "View",
    "XML_BYTES_MAX",
]
