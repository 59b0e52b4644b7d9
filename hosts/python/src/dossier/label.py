"""Labels: a level and a set of compartments."""
from dataclasses import dataclass
from enum import IntEnum, IntFlag
from typing import List, SupportsIndex

from .given import number_of, said, string, whole
from .words import formatted


class Level(IntEnum):
    """The level of a label."""

    OPEN = 0
    TRADE = 1
    HOUSE = 2
    SEALED = 3

    def __str__(self) -> str:
        """Its name, as in house."""
        return self.name.lower()

    __format__ = formatted


class Compartment(IntFlag):
    """The compartments of a label, joined by |."""

    NONE = 0
    SIZING = 1
    FABRIC = 2
    COST = 4

    def __str__(self) -> str:
        """The name of each, as in sizing+cost, or none; bits that are no compartment's as a number."""
        words, others = [word for word, one in _COMPARTMENTS.items() if one in self], int(self) & ~7
        if others > 0:
            words.append(str(others))
        return "+".join(words) or "none"

    __format__ = formatted


# The words of a label: its level, and behind it each of its compartments.
_LEVELS = {str(level): level for level in Level}
_COMPARTMENTS = {"sizing": Compartment.SIZING, "fabric": Compartment.FABRIC, "cost": Compartment.COST}


@dataclass(frozen=True, repr=False)
class Label:
    """A label: its number is level × 8 + compartments, 0 to 31. Labels have no order: there are two of which neither dominates
    the other."""

    level: Level
    compartments: Compartment = Compartment.NONE

    def __post_init__(self) -> None:
        """Keeps whole numbers as a level and compartments. TypeError if one is none, ValueError if no label has them."""
        hint = f": Label.parse({self.level!r}) reads words" if isinstance(self.level, str) else ""
        level = whole("the level", self.level, hint)
        hint = ": compartments are joined by |, as in Compartment.SIZING | Compartment.COST"
        compartments = whole("the compartments' number", self.compartments, hint)
        if not (0 <= level < 4 and 0 <= compartments < 8):
            raise ValueError(f"no label has level {level} and compartments {compartments}")
        object.__setattr__(self, "level", Level(level))
        object.__setattr__(self, "compartments", Compartment(compartments))

    @classmethod
    def from_number(cls, number: SupportsIndex) -> "Label":
        """The label of a number. TypeError if it is no whole number, ValueError if it is no label."""
        number = whole("the number of a label", number)
        if not 0 <= number < 32:
            raise ValueError(f"{number} is no label: a label is a number from 0 to 31")
        return cls(Level(number // 8), Compartment(number % 8))

    @classmethod
    def all(cls) -> List["Label"]:
        """All 32 labels, in the order of their numbers."""
        return [cls.from_number(number) for number in range(32)]

    @classmethod
    def parse(cls, text: str) -> "Label":
        """Reads a number from 0 to 31, or words: a level and then the compartments, each once, parted by +, as in house+sizing.
        ValueError if it is no label."""
        number = number_of(string("the text of a label", text))
        if number is not None and number < 32:
            return cls.from_number(number)
        level, *compartments = text.split("+")
        is_read = level in _LEVELS and all(word in _COMPARTMENTS for word in compartments)
        if not is_read or len(set(compartments)) < len(compartments):
            raise ValueError(
                f"{text!r} is no label: a label is a number from 0 to 31, or open, trade, house or sealed, "
                "each with +sizing, +fabric or +cost behind it"
            )
        return cls(_LEVELS[level], Compartment(sum(_COMPARTMENTS[word] for word in compartments)))

    @property
    def number(self) -> int:
        """The label's number."""
        return self.level * 8 + int(self.compartments)

    @property
    def words(self) -> str:
        """The label in words: its level and its compartments, as in house+sizing."""
        return f"{self.level}+{self.compartments}" if self.compartments else str(self.level)

    def has(self, compartment: Compartment) -> bool:
        """Whether it has a compartment, or all of those that are joined by |."""
        if not isinstance(compartment, Compartment):
            raise TypeError(f"the compartment is no Compartment but {said(compartment)}: Compartment.SIZING is one")
        return self.compartments & compartment == compartment

    def dominates(self, other: "Label") -> bool:
        """Whether the level is at least the other's and the compartments include the other's."""
        as_label("the other label", other)
        return self.level >= other.level and self.has(other.compartments)

    def __str__(self) -> str:
        """The label's number, as in a script."""
        return str(self.number)

    __format__ = formatted

    def __repr__(self) -> str:
        """What makes it, in words."""
        return f"Label.parse({self.words!r})"


def as_label(parameter: str, given: Label) -> Label:
    """The label that was given. TypeError if it is none, with what makes one."""
    if isinstance(given, Label):
        return given
    hint = "Label.from_number(16) and Label.parse('house') make one"
    if isinstance(given, Level):
        hint = f"Label(Level.{given.name}) makes one"
    elif isinstance(given, int):
        hint = f"Label.from_number({int(given)}) makes one"
    elif isinstance(given, str):
        hint = f"Label.parse({given!r}) makes one"
    raise TypeError(f"{parameter} is no Label but {said(given)}: {hint}")
