"""What a caller lends for one call. The library never gets it: it runs on copies that nobody else can reach, and what a call
that is done has written is copied back. Each loan ends before the call returns or raises, so that an error that is kept, with
its traceback, keeps nobody from closing an mmap or changing the length of a bytearray.
"""
import ctypes
from typing import TYPE_CHECKING, Any, SupportsIndex, Tuple

from .answer import Refusal
from .given import said, whole

if TYPE_CHECKING:
    from _typeshed import ReadableBuffer, WriteableBuffer

# How many bytes a store has.
STORE_BYTES = 41088

# How many bytes a partition has; the one of label n starts at n times this.
PARTITION_BYTES = 1284

# How long the output is that is tried first.
_SHORT = 4096


def lent(parameter: str, buffer: "ReadableBuffer") -> memoryview:
    """A loan of a buffer, ended by a with statement. TypeError if it is no buffer, ValueError if it is in pieces."""
    try:
        view = memoryview(buffer)
    except TypeError:
        raise TypeError(f"{parameter} is no buffer of bytes but {said(buffer)}{_hint(buffer)}") from None
    if not view.c_contiguous:
        view.release()
        raise ValueError(f"{parameter} is in pieces: its bytes do not stand one behind the other")
    return view


def _hint(given: object) -> str:
    """What to lend instead of a Store."""
    from .store import Store  # not at the top, since that file imports this one

    return ": store.buffer is one" if isinstance(given, Store) else ""


def written(parameter: str, buffer: "ReadableBuffer") -> memoryview:
    """A loan of a buffer that is written. TypeError if it is read-only."""
    view = lent(parameter, buffer)
    if view.readonly:
        view.release()
        raise TypeError(f"{parameter} cannot be written: it is {said(buffer)}, which is read-only")
    return view


def apart(parameter: str, one: memoryview, *others: memoryview) -> None:
    """Refuses a buffer that is written and overlaps another one of the call. One that is read-only is copied before."""
    for other in others:
        if not other.readonly and _overlap(one, other):
            raise ValueError(f"{parameter}, which is written, overlaps another buffer of the call")


def _overlap(one: memoryview, other: memoryview) -> bool:
    """Whether two buffers that can be written have a byte in common."""
    first, second = _address(one), _address(other)
    return max(first, second) < min(first + one.nbytes, second + other.nbytes)


def _address(view: memoryview) -> int:
    """Where the bytes of a buffer that can be written are."""
    return ctypes.addressof((ctypes.c_char * view.nbytes).from_buffer(view))


def copied(view: memoryview) -> "ctypes.Array[ctypes.c_uint8]":
    """A copy of a buffer's bytes, for the library."""
    return (ctypes.c_uint8 * view.nbytes).from_buffer_copy(view)


def store_copied(view: memoryview) -> "ctypes.Array[ctypes.c_uint8]":
    """A copy of a store's bytes, for the library. Every length but that of a store is refused by 1; so of a longer buffer one
    byte more than a store's are enough."""
    return (ctypes.c_uint8 * min(view.nbytes, STORE_BYTES + 1)).from_buffer_copy(view)


def put(view: memoryview, at: int, contents: bytes) -> None:
    """Writes bytes into a buffer, whatever the type of its items."""
    (ctypes.c_char * len(contents)).from_buffer(view, at).raw = contents


def word(parameter: str, given: SupportsIndex) -> int:
    """A number that fits 32 bits. TypeError if it is no whole number, ValueError if it does not fit: ctypes would cut it."""
    number = whole(parameter, given)
    if not 0 <= number < 2**32:
        raise ValueError(f"{parameter}, {number}, does not fit 32 bits")
    return number


def change(function: Any, store: memoryview, *rest: Any) -> Any:
    """Has a call change a store: what it returns. Where it is done, what it may have changed is copied back: of a call of a
    subject, whose number comes first, the subject's partition; of the owner's, which has no more to it, the store."""
    copy = store_copied(store)
    exported = function(copy, len(copy), *rest)
    if exported.number == 0:
        at, length = (rest[0] * PARTITION_BYTES, PARTITION_BYTES) if rest else (0, STORE_BYTES)
        put(store, at, bytes(memoryview(copy)[at : at + length]))
    return exported


def look(
    function: Any, room: int, store: "ReadableBuffer", subject: SupportsIndex, path: "ReadableBuffer"
) -> Tuple[Any, bytes]:
    """A call that only reads the store and writes an output of so many bytes: what it returns, and the bytes written. A short
    output is tried first, since most views are short and a long one takes time to make."""
    with lent("the store", store) as whole_store, lent("the path", path) as steps:
        copies = store_copied(whole_store), copied(steps)
        arguments = copies[0], len(copies[0]), word("the subject", subject), copies[1], len(copies[1])
    for length in sorted({min(room, _SHORT), room}):
        output = (ctypes.c_uint8 * length)()
        exported = function(*arguments, output, length)
        if exported.number != Refusal.OUTPUT_SHORT:
            break
    return exported, bytes(memoryview(output)[: exported.count]) if exported.number == 0 else b""


def look_into(
    function: Any, most: int, store: "ReadableBuffer", subject: SupportsIndex, path: "ReadableBuffer", output: "WriteableBuffer"
) -> Tuple[Any, bytes]:
    """The same, and the bytes written are put into an output that is lent. No call writes more bytes than these."""
    with written("the output", output) as out, lent("the store", store) as whole_store, lent("the path", path) as steps:
        apart("the output", out, whole_store, steps)
        exported, contents = look(function, min(out.nbytes, most), whole_store, subject, steps)
        put(out, 0, contents)
        return exported, contents
