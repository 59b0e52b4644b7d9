"""The calls on lent bytes, of any length, and on numbers of 32 bits, which reach the library as they are.

A store or an output that is written is any writable buffer (a bytearray, an mmap, an array, a memoryview of one); a path, a
value, a text and the store of a view or a grade may be read-only too. `include/dossier.h` says what the calls do. What they ask
of a host is seen to here: a buffer that is written and overlaps another one of the call raises ValueError, and the library runs
on copies.

Threads: a call may run beside any other. It runs without the interpreter's lock, on copies of what it was lent, so that it
reads and writes no memory out of bounds, whatever others do to the buffers meanwhile. But it has no lock: whoever shares a
buffer sees to it that nothing else uses it while a call writes it; else a change may be lost, or a store be seen that is half
changed. A Store sees to that. What a call writes comes back once the library is done: of a store the subject's partition
(all of it for the migration), of an output the bytes that the answer counts.
"""
from typing import TYPE_CHECKING, Any, SupportsIndex

from .answer import Answer, GradeAnswer, MigrationAnswer
from .lent import PARTITION_BYTES, STORE_BYTES, apart, change, copied, lent, look_into, store_copied, word, written
from .library import library

if TYPE_CHECKING:
    from _typeshed import ReadableBuffer, WriteableBuffer

__all__ = [
    "LISTING_BYTES_MAX",
    "PARTITION_BYTES",
    "STORE_BYTES",
    "XML_BYTES_MAX",
    "delete",
    "grade",
    "insert",
    "insert_xml",
    "migrate",
    "update",
    "view",
    "view_xml",
]

# No listing has more bytes: at most 1,024 lines of live elements, 5,120 of removed ones and the first.
LISTING_BYTES_MAX = 119821

# No view as XML has more bytes: at most 1,024 live elements, 5,120 removed ones and the dossier tag.
XML_BYTES_MAX = 426016


def view(store: "ReadableBuffer", subject: SupportsIndex, path: "ReadableBuffer", output: "WriteableBuffer") -> Answer:
    """Lists the path and everything in the subject's view below it into the output. Count: the bytes written; those behind
    them keep their contents."""
    return _answer(look_into(library.dossier_view, LISTING_BYTES_MAX, store, subject, path, output)[0])


def view_xml(store: "ReadableBuffer", subject: SupportsIndex, path: "ReadableBuffer", output: "WriteableBuffer") -> Answer:
    """Writes the path and everything in the subject's view below it as XML into the output. Count: the bytes written; those
    behind them keep their contents."""
    return _answer(look_into(library.dossier_view_xml, XML_BYTES_MAX, store, subject, path, output)[0])


def insert(
    store: "WriteableBuffer", subject: SupportsIndex, path: "ReadableBuffer", kind: SupportsIndex, value: "ReadableBuffer"
) -> Answer:
    """Makes one live element with a value, in the subject's partition, and the missing groups above it. Count: how many groups
    were made."""
    return _bring(library.dossier_insert, store, subject, path, kind, value)


def update(
    store: "WriteableBuffer", subject: SupportsIndex, path: "ReadableBuffer", kind: SupportsIndex, value: "ReadableBuffer"
) -> Answer:
    """Replaces the value of a live element and keeps all else, what stands below it too. Count: 1, the element replaced."""
    return _bring(library.dossier_update, store, subject, path, kind, value)


def delete(store: "WriteableBuffer", subject: SupportsIndex, path: "ReadableBuffer") -> Answer:
    """Deletes the element and every live element below it of the same label. Count: how many were taken."""
    with written("the store", store) as whole, lent("the path", path) as steps:
        apart("the store", whole, steps)
        return _answer(change(library.dossier_delete, whole, word("the subject", subject), copied(steps), steps.nbytes))


def grade(
    store: "ReadableBuffer", subject: SupportsIndex, base: "ReadableBuffer", top: "ReadableBuffer", n: SupportsIndex
) -> GradeAnswer:
    """The even grade between the measures at two paths in n sizes: top minus base is n × step + remainder, the remainder 0 to
    n - 1."""
    with lent("the store", store) as whole, lent("the base", base) as low, lent("the top", top) as high:
        copy, steps, others = store_copied(whole), copied(low), copied(high)
        sizes = word("the number of sizes", n)
        numbers = copy, len(copy), word("the subject", subject), steps, len(steps), others, len(others), sizes
        exported = library.dossier_grade(*numbers)
        return GradeAnswer(exported.number, exported.step, exported.remainder)


def insert_xml(store: "WriteableBuffer", subject: SupportsIndex, parent: "ReadableBuffer", text: "ReadableBuffer") -> Answer:
    """XML intake: makes all elements of a style, sent as one XML element, below the parent, or none. Count: how many were
    made."""
    with written("the store", store) as whole, lent("the parent", parent) as steps, lent("the text", text) as sent:
        apart("the store", whole, steps, sent)
        arguments = word("the subject", subject), copied(steps), steps.nbytes, copied(sent), sent.nbytes
        return _answer(change(library.dossier_insert_xml, whole, *arguments))


def migrate(store: "WriteableBuffer") -> MigrationAnswer:
    """The migration of a store that was written before the path order changed: each partition that is well formed in the order
    of before gets its elements in the order of now, each other keeps its bytes, and its bit in the mask is set."""
    with written("the store", store) as whole:
        exported = change(library.dossier_migrate, whole)
        return MigrationAnswer(exported.number, exported.mask)


def _bring(
    function: Any, store: "WriteableBuffer", subject: SupportsIndex, path: "ReadableBuffer", kind: SupportsIndex,
    value: "ReadableBuffer",
) -> Answer:
    """A call that brings a value."""
    with written("the store", store) as whole, lent("the path", path) as steps, lent("the value", value) as given:
        apart("the store", whole, steps, given)
        numbers = word("the subject", subject), word("the kind", kind)
        arguments = numbers[0], copied(steps), steps.nbytes, numbers[1], copied(given), given.nbytes
        return _answer(change(function, whole, *arguments))


def _answer(exported: Any) -> Answer:
    """The answer's two numbers."""
    return Answer(exported.number, exported.count)
