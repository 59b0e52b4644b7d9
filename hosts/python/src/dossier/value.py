"""Kinds and values."""
from dataclasses import dataclass
from enum import IntEnum
from typing import ClassVar, Union

from .given import said, string, whole
from .words import formatted

# How many bytes a measure has, and the longest text.
MEASURE_BYTES = 4
TEXT_BYTES_MAX = 16


class Kind(IntEnum):
    """The kind of a value."""

    GROUP = 0
    MEASURE = 1
    TEXT = 2

    def __str__(self) -> str:
        """Its name, as in measure."""
        return self.name.lower()

    __format__ = formatted


@dataclass(frozen=True)
class Group:
    """A group has no value of its own."""

    kind: ClassVar[Kind] = Kind.GROUP

    def to_bytes(self) -> bytes:
        """No bytes."""
        return b""


@dataclass(frozen=True)
class Measure:
    """A number of hundredths of a millimetre, within 32 signed bits."""

    hundredths: int
    kind: ClassVar[Kind] = Kind.MEASURE

    def __post_init__(self) -> None:
        """Keeps a whole number that fits. TypeError if it is none, ValueError if it does not fit."""
        hundredths = whole("the measure", self.hundredths)
        if not -(2**31) <= hundredths < 2**31:
            raise ValueError(f"the measure {hundredths} does not fit 32 signed bits")
        object.__setattr__(self, "hundredths", hundredths)

    def to_bytes(self) -> bytes:
        """Four bytes, lowest first."""
        return self.hundredths.to_bytes(MEASURE_BYTES, "little", signed=True)


@dataclass(frozen=True)
class Text:
    """A text. One that is empty, over 16 bytes long or not of bytes 32 to 126 is refused by 5."""

    text: str
    kind: ClassVar[Kind] = Kind.TEXT

    def __post_init__(self) -> None:
        """TypeError if it is no string."""
        string("the text", self.text)

    def to_bytes(self) -> bytes:
        """The text's bytes."""
        return encoded(self.text)


# What an element holds.
Value = Union[Group, Measure, Text]

# A value of each kind, as it is made.
_MADE = {Kind.GROUP: "Group()", Kind.MEASURE: "Measure(850)", Kind.TEXT: "Text('SLEEVE')"}


def encoded(text: str) -> bytes:
    """The bytes of a string, also of one that no file could hold: the library refuses all that is not ASCII."""
    return text.encode("utf-8", "surrogatepass")


def as_value(parameter: str, given: Value) -> Value:
    """The value that was given. TypeError if it is none, with what makes one."""
    if isinstance(given, (Group, Measure, Text)):
        return given
    hint = "Group(), Measure(850) and Text('SLEEVE') make one"
    if isinstance(given, Kind):
        hint = f"{_MADE[given]} makes one"
    elif isinstance(given, type) and issubclass(given, (Group, Measure, Text)):
        hint = f"{_MADE[given.kind]} makes one"
    elif isinstance(given, int):
        hint = f"Measure({int(given)}) makes one"
    elif isinstance(given, str):
        hint = f"Text({given!r}) makes one"
    raise TypeError(f"{parameter} is no Group, Measure or Text but {said(given)}: {hint}")
