"""What a call answers, and the refusals."""
from dataclasses import dataclass
from enum import IntEnum
from typing import Collection, Iterator, List, NamedTuple, Union

from .given import whole
from .label import Label, as_label
from .words import formatted


class Answer(NamedTuple):
    """What every call but a grade and the migration answers: 0 or the number of its refusal, and its count."""

    number: int
    count: int  # type: ignore[assignment]

    def outcome(self) -> int:
        """The count of a call that is done; else Refused or UnexpectedAnswer is raised."""
        _raise_unless_done(self)
        return self.count


class Grade(NamedTuple):
    """An even grade in n sizes: top minus base is n × step + remainder, the remainder 0 to n - 1."""

    step: int
    remainder: int


class GradeAnswer(NamedTuple):
    """What a grade answers: 0 or the number of its refusal, the step and the remainder."""

    number: int
    step: int
    remainder: int

    def outcome(self) -> Grade:
        """The grade of a call that is done; else Refused or UnexpectedAnswer is raised."""
        _raise_unless_done(self)
        return Grade(self.step, self.remainder)


class MigrationAnswer(NamedTuple):
    """What the migration answers: 0, or 1 for a store of another length, and the mask."""

    number: int
    mask: int

    def outcome(self) -> "Mask":
        """The mask of a migration that is done; else Refused or UnexpectedAnswer is raised."""
        if self.number > Refusal.STORE_LENGTH:
            raise UnexpectedAnswer(self)
        _raise_unless_done(self)
        return Mask(self.mask)


# What any call answers.
AnyAnswer = Union[Answer, GradeAnswer, MigrationAnswer]


@dataclass(frozen=True)
class Mask(Collection[Label]):
    """The partitions that a migration left as they were, since they were not well formed in the order of before: bit n for the
    partition of label n. It holds their labels. One that stands in the order of now already may be among them: it is no list of
    broken partitions."""

    bits: int

    def __post_init__(self) -> None:
        """TypeError if the bits are no whole number, ValueError if they do not fit 32 bits."""
        bits = whole("the mask", self.bits)
        if not 0 <= bits < 2**32:
            raise ValueError(f"the mask {bits} does not fit 32 bits")
        object.__setattr__(self, "bits", bits)

    def has(self, label: Label) -> bool:
        """Whether the partition of the label is one of them."""
        return self.bits >> as_label("the label", label).number & 1 == 1

    def labels(self) -> List[Label]:
        """The labels of these partitions, from low to high."""
        return [label for label in Label.all() if self.has(label)]

    def __contains__(self, label: object) -> bool:
        """Whether the partition of the label is one of them; TypeError if it is no label."""
        return self.has(label)  # type: ignore[arg-type]

    def __iter__(self) -> Iterator[Label]:
        """The labels of these partitions, from low to high."""
        return iter(self.labels())

    def __len__(self) -> int:
        """How many they are."""
        return len(self.labels())


def _raise_unless_done(answer: AnyAnswer) -> None:
    """Raises Refused for the number of a refusal with zeros behind it, and UnexpectedAnswer for what else is not done."""
    if answer.number == 0:
        return
    if answer.number in list(Refusal) and not any(answer[1:]):
        raise Refused(answer)
    raise UnexpectedAnswer(answer)


class Refusal(IntEnum):
    """Why a call is refused: the first cause that applies, in this order but for 11, which a grade tests right after 4, and 13
    and 14, which an XML intake tests there. A refused call leaves the store and the output. What a cause is for each call
    stands in include/dossier.h."""

    STORE_LENGTH = 1
    SUBJECT = 2
    NOT_WELL_FORMED = 3
    PATH = 4
    VALUE = 5
    OTHER_LABEL = 6
    ABSENT = 7
    LIVE = 8
    FULL = 9
    OUTPUT_SHORT = 10
    SIZES = 11
    NO_MEASURE = 12
    FORM = 13
    NOT_OWN = 14

    @property
    def number(self) -> int:
        """Its number."""
        return int(self)

    @property
    def cause(self) -> str:
        """The cause in words, the same as in the other hosts."""
        return _CAUSES[self]

    def __str__(self) -> str:
        """Its number and its cause."""
        return f"refused by {self.number}: {self.cause}"

    __format__ = formatted


# The cause of each refusal.
_CAUSES = {
    Refusal.STORE_LENGTH: "the store is not 41,088 bytes long",
    Refusal.SUBJECT: "the subject is no label",
    Refusal.NOT_WELL_FORMED: "a partition that the subject dominates is not well formed",
    Refusal.PATH: "the path is not valid",
    Refusal.VALUE: "the value is not allowed",
    Refusal.OTHER_LABEL: "the path does not end in the subject's label",
    Refusal.ABSENT: "the path or its parent is not in view, or the element is not live",
    Refusal.LIVE: "the element is live already",
    Refusal.FULL: "the label's partition has no room",
    Refusal.OUTPUT_SHORT: "the output is too short for the view",
    Refusal.SIZES: "the number of sizes of a grade is not 1 to 64",
    Refusal.NO_MEASURE: "a path of the grade is in view and is no live measure's",
    Refusal.FORM: "the XML is not in form",
    Refusal.NOT_OWN: "an element of the XML bears another label than the subject's, or is marked REMOVED",
}


class Refused(Exception):
    """A refused call, with its answer and its refusal. The answer is its one argument, from which it is made anew where it is
    unpickled or copied."""

    def __init__(self, answer: AnyAnswer) -> None:
        super().__init__(answer)
        self.answer = answer
        self.refusal = Refusal(answer.number)

    def __str__(self) -> str:
        """The refusal's number and its cause."""
        return str(self.refusal)


class UnexpectedAnswer(Exception):
    """An answer that is not one of those that this module knows: the archive is of another version."""

    def __init__(self, answer: AnyAnswer) -> None:
        super().__init__(answer)
        self.answer = answer

    def __str__(self) -> str:
        """The answer's numbers, each with its name."""
        return "unexpected answer: " + ", ".join(f"{name} {number}" for name, number in self.answer._asdict().items())
