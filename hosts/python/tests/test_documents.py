"""The Python programs of docs/USING.md print what stands behind them."""
import contextlib
import io
import re
import unittest

from support import ROOT

USING = ROOT / "docs" / "USING.md"

# A block of lines that are indented by four spaces.
BLOCK = re.compile(r"(?:^    .*\n|^\n(?=    ))+", re.MULTILINE)


def blocks():
    """The indented blocks of the document, in their order, without the indentation."""
    return [re.sub("^    ", "", match[0], flags=re.MULTILINE).strip("\n") + "\n" for match in BLOCK.finditer(USING.read_text())]


def printed(program):
    """What a program prints."""
    with contextlib.redirect_stdout(io.StringIO()) as out:
        exec(compile(program, str(USING), "exec"), {})
    return out.getvalue()


class Documents(unittest.TestCase):
    """Each program of the document that imports the package."""

    def test_programs(self):
        """A program's output is the block behind it."""
        found = blocks()
        programs = [at for at, block in enumerate(found) if block.startswith("from dossier import")]
        self.assertEqual(len(programs), 3)
        for at in programs:
            with self.subTest(found[at].splitlines()[0]):
                self.assertEqual(printed(found[at]), found[at + 1])


if __name__ == "__main__":
    unittest.main()
