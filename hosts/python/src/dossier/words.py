"""How what is shown in words is formatted."""


def formatted(shown: object, format_spec: str) -> str:
    """The method __format__ of what is formatted as its string is, in every version of Python."""
    return format(str(shown), format_spec)
