"""The store and its typed calls, and a store that is open in a file."""
import os
from types import TracebackType
from typing import TYPE_CHECKING, Any, Callable, Optional, SupportsIndex, Tuple, Type

from . import file, raw
from .answer import Answer, Grade, Mask
from .given import said, string
from .label import Label, as_label
from .lent import lent, look, look_into, word
from .library import library
from .listing import View, read_ascii
from .path import Path, Steps, as_path
from .turns import Turns
from .value import Value, as_value, encoded

if TYPE_CHECKING:
    from _typeshed import ReadableBuffer, WriteableBuffer


class Store:
    """A store: its own bytes, or any buffer of any contents and length, written in place.

    A buffer of another length than STORE_BYTES makes every call refuse by 1. One that is read-only is a store that can be
    viewed and graded; a call that writes raises TypeError. Calls of any threads on one Store are carried out one after the
    other. How many elements there are depends on who looks, so a Store has no length and is not iterated: view(subject) is. A
    Store equals itself alone; bytes(one) == bytes(other) compares two.
    """

    def __init__(self, buffer: "Optional[ReadableBuffer]" = None) -> None:
        """An empty store, or one over a lent buffer. TypeError if that is none."""
        if isinstance(buffer, (str, os.PathLike)):
            hint = f"Store.open({os.fspath(buffer)!r}) opens a file"
            raise TypeError(f"the buffer is no buffer of bytes but {said(buffer)}: {hint}")
        self._buffer: Any = bytearray(raw.STORE_BYTES) if buffer is None else buffer
        lent("the buffer", self._buffer).release()
        self._turns = Turns()

    @staticmethod
    def open(path: file.FileName, wait: bool = True) -> "StoreFile":
        """The store of a file, locked alone, to be changed and saved. Whoever has the file open already is waited for, in this
        process too: a thread that opens a file twice waits for ever. With wait=False StoreInUse is raised instead.

        with Store.open("shirts") as store: saves at the end of the block, and lets the lock go in any case. Where an exception
        leaves the block, SystemExit (by sys.exit) and KeyboardInterrupt too, the file stays as it was, or as it was last saved.
        """
        return StoreFile(path, wait)

    @staticmethod
    def read(path: file.FileName, wait: bool = True) -> "Store":
        """A copy of the store of a file, read under a shared lock. Whoever has the file open, by Store.open, is waited for, in
        this process too: a thread that has it open itself waits for ever. With wait=False StoreInUse is raised instead."""
        return Store(bytearray(file.read(file.file_name(path), wait)))

    @staticmethod
    def create(path: file.FileName) -> None:
        """Makes a file with an empty store, its owner's alone. FileExistsError if there is a file of this name."""
        Store().save_as(path)

    def save_as(self, path: file.FileName) -> None:
        """Makes a file with this store as it is now, its owner's alone. FileExistsError if there is a file of this name,
        ValueError if the store has another length than STORE_BYTES."""
        name = file.file_name(path)
        with self._turns.taken(), lent("the buffer", self.buffer) as whole:
            store = file.whole_store(whole)
        file.create(name, store)

    @property
    def buffer(self) -> Any:
        """The buffer that holds the store. Whoever uses it beside calls sees to it that none runs meanwhile."""
        return self._buffer

    def view(self, subject: Label, path: Steps = (), output: "Optional[WriteableBuffer]" = None) -> View:
        """Lists the path and everything in the subject's view below it, into the output if one is lent; its bytes behind the
        listing keep their contents.

        Refused by 1, 3, 4 or 7; where an output is lent, also by 10.
        """
        viewed = as_path("the path", path)
        return View(self._look(library.dossier_view, raw.LISTING_BYTES_MAX, subject, viewed, output), viewed)

    def view_xml(self, subject: Label, path: Steps = (), output: "Optional[WriteableBuffer]" = None) -> str:
        """Writes the path and everything in the subject's view below it as XML, into the output if one is lent; its bytes
        behind the XML keep their contents. The XML as a string.

        Refused by 1, 3, 4 or 7; where an output is lent, also by 10.
        """
        viewed = as_path("the path", path)
        return read_ascii(self._look(library.dossier_view_xml, raw.XML_BYTES_MAX, subject, viewed, output))

    def insert(self, subject: Label, path: Steps, value: Value) -> int:
        """Makes one live element with a value. Where its parent is not in view, the missing groups above it are made too; they
        must bear the subject's label, else the insert is refused by 7. All of them are made, or none. The count: how many
        groups were made, 0 where the parent was in view, be it removed.

        Refused by 1 or 3 to 9.
        """
        return self._bring(raw.insert, subject, path, value)

    def update(self, subject: Label, path: Steps, value: Value) -> int:
        """Replaces the value of a live element, its kind too, and keeps all else: what stands below it stays, whatever its
        label. The count: 1, the element replaced.

        Refused by 1 or 3 to 7.
        """
        return self._bring(raw.update, subject, path, value)

    def delete(self, subject: Label, path: Steps) -> int:
        """Deletes the element and every live element below it of the same label. The count: how many elements were taken.

        Refused by 1, 3, 4, 6 or 7.
        """
        number, steps = as_label("the subject", subject).number, as_path("the path", path).to_bytes()
        with self._turns.taken():
            return raw.delete(self.buffer, number, steps).outcome()

    def grade(self, subject: Label, base: Steps, top: Steps, n: SupportsIndex) -> Grade:
        """The even grade between two live measures that the subject sees, in n sizes, 1 to 64. The step is rounded down, also
        where the top is smaller: from 1000 to 990 in 3 sizes it is -4, and 2 are left.

        Refused by 1, 3, 4, 11, 7 or 12, in this order.
        """
        number, sizes = as_label("the subject", subject).number, word("the number of sizes", n)
        paths = as_path("the base", base).to_bytes(), as_path("the top", top).to_bytes()
        with self._turns.taken():
            return raw.grade(self.buffer, number, *paths, sizes).outcome()

    def insert_xml(self, subject: Label, parent: Steps, text: str) -> int:
        """XML intake: takes in a style, sent as one XML element as view_xml writes it, without the dossier tag and with
        siblings in any order. All of its elements are made below the parent, or none; the parent must be in view, be it
        removed. The count: how many elements were made.

        Refused by 1, 3, 4, 13, 14, 7, 8 or 9, in this order.
        """
        number, steps = as_label("the subject", subject).number, as_path("the parent", parent).to_bytes()
        sent = encoded(string("the text", text))
        with self._turns.taken():
            return raw.insert_xml(self.buffer, number, steps, sent).outcome()

    def migrate(self) -> Mask:
        """The migration of a store that was written before the path order changed, to be run once by the store's owner, before
        calls resume. Each partition that is well formed in the order of before, by name and then by the label's number, gets
        the same elements in the order of now; each other keeps its bytes and is in the mask. A second migration changes no
        byte; the partitions that the first changed are in its mask too.

        Refused by 1 alone.
        """
        with self._turns.taken():
            return raw.migrate(self.buffer).outcome()

    def _look(self, function: Any, most: int, subject: Label, path: Path, output: "Optional[WriteableBuffer]") -> bytes:
        """What a call that writes an output has written."""
        number, steps = as_label("the subject", subject).number, path.to_bytes()
        with self._turns.taken():
            arguments = function, most, self.buffer, number, steps
            exported, contents = look(*arguments) if output is None else look_into(*arguments, output)
        Answer(exported.number, exported.count).outcome()
        return contents

    def _bring(self, call: Callable[..., Answer], subject: Label, path: Steps, value: Value) -> int:
        """The count of a call that brings a value."""
        number, steps = as_label("the subject", subject).number, as_path("the path", path).to_bytes()
        given = as_value("the value", value)
        kind, contents = given.kind, given.to_bytes()
        with self._turns.taken():
            return call(self.buffer, number, steps, kind, contents).outcome()

    def __bytes__(self) -> bytes:
        """The store's bytes."""
        with self._turns.taken(), lent("the buffer", self.buffer) as whole:
            return whole.tobytes()

    def __repr__(self) -> str:
        """How many bytes it has."""
        return f"<Store of {self._length()}>"

    def _length(self) -> str:
        """How many bytes the buffer has, in words."""
        try:
            with lent("the buffer", self._buffer) as whole:
                return f"{whole.nbytes} bytes"
        except ValueError:
            return "a buffer that is closed"

    def __reduce__(self) -> Tuple[Callable[..., "Store"], Tuple[bytearray]]:
        """What a copy is made of, here or where it is unpickled: the bytes, which are its own from then on."""
        return type(self), (bytearray(bytes(self)),)


class StoreFile(Store):
    """A store that is open in a file: Store.open makes it. Its calls change it in memory; save, or the end of a with block that
    no exception left, saves it to the file. Until it is closed nobody else who takes locks reads or saves it. A process that
    is forked meanwhile cannot save it, and its close leaves the lock; but it keeps the lock where the one that opened the file
    ended without closing it."""

    def __init__(self, path: file.FileName, wait: bool = True) -> None:
        """Opens a file and locks it; symbolic links are followed."""
        self.name = file.file_name(path)
        self._file = file.LockedFile(self.name, wait)
        super().__init__(bytearray(self._file.store))

    @property
    def buffer(self) -> Any:
        """The buffer that holds the store. ValueError once it is closed."""
        self._demand_open()
        return self._buffer

    @property
    def closed(self) -> bool:
        """Whether it is closed."""
        return self._file.is_closed

    def _demand_open(self) -> None:
        """ValueError once it is closed."""
        if self.closed:
            raise ValueError("the store is closed")

    def save(self) -> bool:
        """Saves the store if a byte has changed since it was opened or saved: whether it has. StoreChanged, and nothing is
        saved, if the file is no longer the one that was read; StoreNotSynced if it is saved and the folder could not be
        synced."""
        with self._turns.taken(), lent("the buffer", self.buffer) as whole:
            return self._file.save(file.whole_store(whole))

    def close(self) -> None:
        """Lets the lock go, without saving. Every call behind it raises ValueError, but for another close."""
        with self._turns.taken():
            self._file.close()

    def __enter__(self) -> "StoreFile":
        """The store itself. ValueError once it is closed."""
        self._demand_open()
        return self

    def __exit__(
        self, kind: Optional[Type[BaseException]], error: Optional[BaseException], trace: Optional[TracebackType]
    ) -> None:
        """Saves if no exception left the block, be it SystemExit or KeyboardInterrupt, and closes in any case."""
        try:
            if kind is None and not self.closed:
                self.save()
        finally:
            self.close()

    def __repr__(self) -> str:
        """The file's name, and how many bytes it has."""
        return f"<StoreFile {self.name!r}, closed>" if self.closed else f"<StoreFile {self.name!r} of {self._length()}>"

    def __reduce__(self) -> Any:
        """TypeError: a copy would not have the lock."""
        raise TypeError(f"{self!r} cannot be copied or pickled, since one alone has the lock: its bytes can, bytes(store)")
