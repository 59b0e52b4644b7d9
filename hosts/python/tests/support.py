"""What the tests share: paths, labels, a store to begin with, texts of XML, outputs, and where things are."""
import pathlib

from dossier import Group, Label, Measure, Step, Store

# The project's root.
ROOT = pathlib.Path(__file__).resolve().parents[3]

# What every output holds before a call.
FILL = 0xA5

# 10:0, 20:16 and 30:0 below it, and 10:16, as bytes.
P10 = bytes([10, 0, 0])
P10_20 = bytes([10, 0, 0, 20, 0, 16])
P10_30 = bytes([10, 0, 0, 30, 0, 0])
P10_16 = bytes([10, 0, 16])

# The last listing of document 01's example.
LISTING = b"VIEW\t16\t2\n1\t10\t0\tR\t-\t-\n2\t20\t16\tP\tM\t-150\n"

# What a call that brings a value is given beside the path: a group.
GROUP = (0, b"")

# A text in form for label 0: a group.
SENT = b'<e4 label="0" preserve="PRESENT" kind="G"></e4>'


def label(number):
    """The label of a number."""
    return Label.from_number(number)


def path(*steps):
    """The path of names and label numbers."""
    return [Step(name, label(number)) for name, number in steps]


def example(buffer=None):
    """A store after the three calls of the example that change it."""
    store = Store(buffer)
    store.insert(label(0), path((10, 0)), Group())
    store.insert(label(16), path((10, 0), (20, 16)), Measure(-150))
    store.delete(label(0), path((10, 0)))
    return store


def sent(short):
    """A text in which @ stands for what is between a name and a kind: label 16 and PRESENT."""
    return short.replace("@", ' label="16" preserve="PRESENT" kind=')


def sent_group(name, number, *inside):
    """A group of a label with groups of these names inside it."""
    groups = "".join(sent_group(other, number) for other in inside)
    return f'<e{name} label="{number}" preserve="PRESENT" kind="G">{groups}</e{name}>'


def kept(call, *arguments):
    """The error that a call raises, with its traceback and all that is in its frames."""
    try:
        call(*arguments)
    except BaseException as error:
        return error
    raise AssertionError("nothing is raised")


def output(length=64):
    """An output full of FILL."""
    return bytearray([FILL]) * length
