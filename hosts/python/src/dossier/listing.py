"""What a view listed, read line by line."""
from dataclasses import dataclass
from functools import cached_property
from typing import Iterator, NamedTuple, Optional, Sequence, Tuple, Type, Union, overload

from .given import number_of
from .label import Label
from .path import Path
from .value import Group, Kind, Measure, Text, Value
from .words import formatted


# How many bytes an error shows of what does not read.
_SHOWN = 60


class Unreadable(Exception):
    """A listing or a line of one that does not read as one, or XML that is no text: the archive is of another version. What was
    written is its one argument."""

    def __init__(self, written: bytes) -> None:
        super().__init__(written)
        self.written = written

    def __str__(self) -> str:
        """That it does not read, and its first bytes."""
        return f"unreadable listing or XML: {self.written[:_SHOWN]!r}{' ...' if len(self.written) > _SHOWN else ''}"


class Line(NamedTuple):
    """An element listed: its whole path, and its value, None for one that is removed."""

    path: Path
    value: Optional[Value]

    @property
    def depth(self) -> int:
        """How many steps its path has."""
        return len(self.path)

    @property
    def name(self) -> int:
        """The name of its last step."""
        return self.path[-1].name

    @property
    def label(self) -> Label:
        """Its label, that of its last step."""
        return self.path[-1].label

    @property
    def live(self) -> bool:
        """Whether it is live; else it is removed, and something that the subject sees still stands below it."""
        return self.value is not None

    @property
    def kind(self) -> Optional[Kind]:
        """The kind of its value; None for one that is removed."""
        return None if self.value is None else self.value.kind


@dataclass(frozen=True, repr=False)
class View(Sequence[Line]):
    """What a view wrote: the listing's bytes, and the path that was viewed. It is a sequence of the elements listed, in path
    order, as lines; they are read when one of them is needed first, and kept. Unreadable if they are no listing."""

    listing: bytes
    path: Path = Path()

    @cached_property
    def _read(self) -> Tuple[Label, Tuple[Line, ...]]:
        """The subject, and the lines behind the first."""
        first, *lines = self.listing.split(b"\n")
        head = first.split(b"\t")
        if lines[-1:] != [b""] or len(head) != 3 or (head[0], head[2]) != (b"VIEW", b"%d" % len(lines[:-1])):
            raise Unreadable(self.listing)
        return _read_label(first, head[1]), tuple(_read_lines(self.path, lines[:-1]))

    @property
    def subject(self) -> Label:
        """Who viewed."""
        return self._read[0]

    @overload
    def __getitem__(self, at: int) -> Line: ...

    @overload
    def __getitem__(self, at: slice) -> Tuple[Line, ...]: ...

    def __getitem__(self, at: Union[int, slice]) -> Union[Line, Tuple[Line, ...]]:
        """A line by its place, from 0, or some of them."""
        return self._read[1][at]

    def __iter__(self) -> Iterator[Line]:
        """The lines, in path order."""
        return iter(self._read[1])

    def __len__(self) -> int:
        """How many lines there are."""
        return len(self._read[1])

    def __str__(self) -> str:
        """The listing as a string."""
        return read_ascii(self.listing)

    __format__ = formatted

    def __repr__(self) -> str:
        """How many lines it has, unread."""
        return f"<View of {max(self.listing.count(10) - 1, 0)} lines>"

    def __reduce__(self) -> Tuple[Type["View"], Tuple[bytes, Path]]:
        """What it is made of anew where it is unpickled or copied."""
        return type(self), (self.listing, self.path)


def _read_lines(viewed: Path, lines: Sequence[bytes]) -> Iterator[Line]:
    """The lines. The steps above an element are those of the line before it, or of the path that was viewed."""
    above = viewed
    for line in lines:
        read = _read_line(above, line)
        yield read
        above = read.path


def _read_line(above: Path, line: bytes) -> Line:
    """A line of six fields, or Unreadable."""
    try:
        depth, name, label, mark, kind, value = read_ascii(line).split("\t")
        numbers = number_of(depth), number_of(name)
        if numbers[0] is None or numbers[1] is None or not 1 <= numbers[0] <= len(above) + 1:
            raise ValueError("no depth or no name")
        path = above.prefix(numbers[0] - 1).child(numbers[1], _read_label(line, label.encode()))
        return Line(path, _read_value(mark, kind, value))
    except ValueError as error:
        raise Unreadable(line) from error


def _read_label(line: bytes, field: bytes) -> Label:
    """The field of a label's number, or Unreadable."""
    number = number_of(read_ascii(field))
    if number is None or number > 31:
        raise Unreadable(line)
    return Label.from_number(number)


def _read_value(mark: str, kind: str, value: str) -> Optional[Value]:
    """The fields of the mark, the kind and the value: the value of a live element, None for a removed one."""
    if (mark, kind, value) == ("R", "-", "-"):
        return None
    if (mark, kind, value) == ("P", "G", "-"):
        return Group()
    if (mark, kind) == ("P", "M"):
        return Measure(int(value))
    if (mark, kind) == ("P", "T"):
        return Text(value)
    raise ValueError("neither live nor removed")


def read_ascii(written: bytes) -> str:
    """What was written, a listing, a part of one or XML, as a string, or Unreadable."""
    try:
        return written.decode("ascii")
    except UnicodeDecodeError as error:
        raise Unreadable(written) from error
