"""What a caller gives, tested where it is given, and the words for what it is."""
import operator
import re
from typing import Optional, SupportsIndex


def said(given: object) -> str:
    """What was given, as an error says it: an int, a str, bytes, None, the class Group."""
    if given is None:
        return "None"
    if isinstance(given, type):
        return f"the class {given.__name__}"
    name = type(given).__name__
    if name == "bytes":
        return name
    return f"{'an' if name[0] in 'aeiouAEIOU' else 'a'} {name}"


def whole(parameter: str, given: SupportsIndex, hint: str = "") -> int:
    """The whole number that was given. TypeError if it is none, with what to give instead: nothing is cut."""
    try:
        return int(operator.index(given))
    except TypeError:
        raise TypeError(f"{parameter} is no whole number but {said(given)}{hint}") from None


def string(parameter: str, given: str) -> str:
    """The string that was given. TypeError if it is none."""
    if not isinstance(given, str):
        raise TypeError(f"{parameter} is no str but {said(given)}")
    return given


def number_of(text: str) -> Optional[int]:
    """A number in decimal, without a sign or leading zeros, of at most ten digits."""
    return int(text) if re.fullmatch("0|[1-9][0-9]{0,9}", text) else None
