"""Paths, as the calls take them."""
from typing import Iterable, NamedTuple, Optional, SupportsIndex, Tuple

from .given import number_of, said, string, whole
from .label import Label, as_label
from .words import formatted

# How many bytes a step has, and a path of six steps.
STEP_BYTES = 3
PATH_BYTES_MAX = 18


class Step(NamedTuple):
    """A step of a path: a name and a label. Steps are in path order, that of a view's lines: by name from low to high, then by
    level from high to low, then by compartments from low to high."""

    name: int
    label: Label

    def _place(self) -> Tuple[int, int, int]:
        """What stands lower comes before. TypeError if it has no label."""
        label = as_label("the label of a step", self.label)
        return self.name, -label.level, int(label.compartments)

    def __lt__(self, other: Tuple[object, ...]) -> bool:
        """Whether it comes before another."""
        if not isinstance(other, Step):
            return NotImplemented
        return self._place() < other._place()

    def __le__(self, other: Tuple[object, ...]) -> bool:
        """Whether it comes before another or equals it."""
        if not isinstance(other, Step):
            return NotImplemented
        return self._place() <= other._place()

    def __gt__(self, other: Tuple[object, ...]) -> bool:
        """Whether it comes behind another."""
        if not isinstance(other, Step):
            return NotImplemented
        return self._place() > other._place()

    def __ge__(self, other: Tuple[object, ...]) -> bool:
        """Whether it comes behind another or equals it."""
        if not isinstance(other, Step):
            return NotImplemented
        return self._place() >= other._place()


# What the calls take as a path: a Path, or the steps one after the other, each a Step or a pair of a name and a label.
Steps = Iterable[Tuple[int, Label]]


class Path(Tuple[Step, ...]):
    """A path: a tuple of steps. A path that the calls do not allow can be made too; they refuse it by 4. Paths are in path
    order, step by step; a prefix comes before its extensions."""

    __slots__ = ()

    def __new__(cls, steps: Steps = ()) -> "Path":
        """The path of these steps. TypeError if they are none, ValueError if a name does not fit two bytes."""
        return tuple.__new__(cls, _checked("the path", steps))

    @classmethod
    def root(cls) -> "Path":
        """The root: no step."""
        return cls()

    @classmethod
    def parse(cls, text: str) -> "Path":
        """Reads a path as in a script, steps NAME:LABEL parted by /, a lone / for the root; it may begin with /, and a label
        may be in words, as in /10:open/20:house+sizing. ValueError if it is none."""
        if string("the text of a path", text) == "/":
            return cls()
        try:
            return cls(_read_step(step) for step in text.removeprefix("/").split("/"))
        except ValueError:
            raise ValueError(
                f"{text!r} is no path: a path is / or steps NAME:LABEL parted by /, as 10:0/20:16, "
                "with names up to 65535 and labels up to 31"
            ) from None

    @classmethod
    def from_bytes(cls, steps: bytes) -> "Path":
        """The path of these bytes, three a step. ValueError if they are no steps or a label is over 31."""
        if not isinstance(steps, (bytes, bytearray, memoryview)):
            raise TypeError(f"the path is not in bytes but {said(steps)}")
        steps = bytes(steps)
        if len(steps) % STEP_BYTES:
            raise ValueError(f"{len(steps)} bytes are no path: a step has {STEP_BYTES}")
        starts = range(0, len(steps), STEP_BYTES)
        return cls((int.from_bytes(steps[at : at + 2], "little"), Label.from_number(steps[at + 2])) for at in starts)

    def to_bytes(self) -> bytes:
        """Three bytes a step: the name, lowest byte first, then the label."""
        return b"".join(name.to_bytes(2, "little") + bytes([label.number]) for name, label in self)

    def child(self, name: SupportsIndex, label: Label) -> "Path":
        """The path with one more step."""
        return type(self)((*self, Step(whole("the name", name), label)))

    @property
    def depth(self) -> int:
        """How many steps it has."""
        return len(self)

    @property
    def parent(self) -> Optional["Path"]:
        """The path without its last step; the root has none."""
        return self.prefix(len(self) - 1) if self else None

    def prefix(self, depth: int) -> "Path":
        """The path of its first steps, at most this many."""
        return type(self)(self[: max(whole("the depth", depth), 0)])

    def __bytes__(self) -> bytes:
        """The bytes that the calls take."""
        return self.to_bytes()

    def __str__(self) -> str:
        """As in a script: steps NAME:LABEL parted by /, a lone / for the root."""
        return "/".join(f"{name}:{label}" for name, label in self) or "/"

    __format__ = formatted

    def __repr__(self) -> str:
        """What makes it."""
        return f"Path.parse({str(self)!r})" if self else "Path.root()"


def as_path(parameter: str, given: Steps) -> Path:
    """The path that was given. TypeError if it is none, with what makes one."""
    return given if isinstance(given, Path) else tuple.__new__(Path, _checked(parameter, given))


def _checked(parameter: str, given: Steps) -> Iterable[Step]:
    """The steps that were given, each tested."""
    hint = "a list of steps, each Step(name, label), makes one"
    if isinstance(given, str):
        hint = f"Path.parse({given!r}) reads one"
    elif isinstance(given, (bytes, bytearray, memoryview)):
        hint = "Path.from_bytes reads one"
    elif isinstance(given, Iterable) and not isinstance(given, Step):
        return [_checked_step(f"step {at} of {parameter}", step) for at, step in enumerate(given, 1)]
    raise TypeError(f"{parameter} is no path but {said(given)}: {hint}")


def _checked_step(parameter: str, given: Tuple[int, Label]) -> Step:
    """A step of a whole number and a label. Name 0 is left to the library, which refuses it by 4."""
    if not isinstance(given, (tuple, list)) or len(given) != 2:
        raise TypeError(f"{parameter} is no pair of a name and a label but {said(given)}: Step(name, label) makes one")
    name, label = whole(f"the name of {parameter}", given[0]), as_label(f"the label of {parameter}", given[1])
    if not 0 <= name < 65536:
        raise ValueError(f"the name {name} of {parameter} does not fit two bytes")
    return Step(name, label)


def _read_step(text: str) -> Step:
    """A step NAME:LABEL, or ValueError."""
    name, _, label = text.partition(":")
    number = number_of(name)
    if number is None:
        raise ValueError(f"{name!r} is no name")
    return Step(number, Label.parse(label))
