"""The package itself: its wheel, its installation by pip without a network, and what is said where something is missing."""
import ast
import base64
import hashlib
import importlib.metadata
import importlib.util
import os
import pathlib
import re
import shutil
import subprocess
import sys
import tempfile
import unittest
import zipfile
from unittest import mock

import dossier
from support import ROOT

# The package's source, and the host's example with what it prints.
SOURCE = ROOT / "hosts" / "python"
EXAMPLE = SOURCE / "example.py"
PRINTED = (ROOT / "hosts" / "example.out").read_bytes()

# What is in the wheel beside the package's files of Python.
BESIDE = ["METADATA", "RECORD", "WHEEL", "libdossier_c.so", "py.typed"]


def backend():
    """The build backend, as a module."""
    about = importlib.util.spec_from_file_location("backend", SOURCE / "backend.py")
    module = importlib.util.module_from_spec(about)
    about.loader.exec_module(module)
    return module


def tree():
    """The files of the package's source."""
    return sorted(str(file) for file in SOURCE.rglob("*"))


def run(*words, folder=None, **environment):
    """Runs a program: what it wrote, and its status. Nothing of the tests' own installation is found."""
    left_out = "PYTHONPATH", "PYTHONDONTWRITEBYTECODE", "DOSSIER_C_DIR", "CC"
    kept = {name: value for name, value in os.environ.items() if name not in left_out}
    kept["PIP_DISABLE_PIP_VERSION_CHECK"] = "1"
    done = subprocess.run(words, stdout=subprocess.PIPE, stderr=subprocess.STDOUT, cwd=folder, env={**kept, **environment})
    return done.stdout.decode(), done.returncode


def mypy_words():
    """The words that run mypy, if it is installed."""
    for words in ["mypy"], ["/usr/bin/python3", "-m", "mypy"]:
        if shutil.which(words[0]) and run(*words, "--version")[1] == 0:
            return words
    return None


class PackageTest(unittest.TestCase):
    """A folder for each test."""

    def setUp(self):
        folder = tempfile.TemporaryDirectory()
        self.addCleanup(folder.cleanup)
        self.folder = pathlib.Path(folder.name)

    def installed(self, *options, **environment):
        """Installs the package by pip into a folder, from another one and without a network: what pip wrote, and its status."""
        words = [sys.executable, "-m", "pip", "install", "--no-index", "--target", self.folder / "site", *options, SOURCE]
        return run(*words, folder=self.folder, **environment)

    def imported(self, site):
        """What the import of the package in a folder writes, and its status."""
        return run(sys.executable, "-B", "-c", "import dossier", folder=self.folder, PYTHONPATH=str(site))


class Wheel(PackageTest):
    """The wheel that the backend writes."""

    def built(self, folder):
        """The wheel, built into a new folder."""
        (self.folder / folder).mkdir()
        return self.folder / folder / backend().build_wheel(str(self.folder / folder))

    def test_contents(self):
        wheel = self.built("one")
        self.assertEqual(wheel.name, "dossier-1.0.0-py3-none-linux_x86_64.whl")
        with zipfile.ZipFile(wheel) as opened:
            files = {name: opened.read(name) for name in opened.namelist()}
        modules = [file.name for file in (SOURCE / "src" / "dossier").glob("*.py")]
        self.assertEqual(sorted(name.split("/")[1] for name in files), sorted(modules + BESIDE))
        lines = files["dossier-1.0.0.dist-info/RECORD"].decode().splitlines()
        self.assertEqual([line.split(",")[0] for line in lines], list(files))
        for line in lines[:-1]:
            name, digest, length = line.split(",")
            expected = base64.urlsafe_b64encode(hashlib.sha256(files[name]).digest()).decode().rstrip("=")
            self.assertEqual((digest, length), (f"sha256={expected}", str(len(files[name]))))
        self.assertEqual(lines[-1], "dossier-1.0.0.dist-info/RECORD,,")

    def test_modes(self):
        with zipfile.ZipFile(self.built("one")) as opened:
            self.assertEqual({about.external_attr >> 16 for about in opened.infolist()}, {0o100644})

    def test_same_wheel_from_the_same_source(self):
        self.assertEqual(self.built("one").read_bytes(), self.built("two").read_bytes())

    def test_versions(self):
        project = (SOURCE / "pyproject.toml").read_text()
        header = (ROOT / "include" / "dossier.h").read_text()
        versions = {
            *re.findall(r'^version = "(.*)"$', project, re.MULTILINE),
            *re.findall(r'^#define DOSSIER_VERSION "(.*)"$', header, re.MULTILINE),
            dossier.__version__,
            importlib.metadata.version("dossier"),
        }
        self.assertEqual(versions, {"1.0.0"})

    def test_no_source_distribution(self):
        with self.assertRaisesRegex(SystemExit, "dossier has no source distribution"):
            backend().build_sdist(str(self.folder))

    def test_another_platform(self):
        for platform in "linux-i686", "win-amd64", "macosx-11.0-arm64":
            with mock.patch("sysconfig.get_platform", return_value=platform):
                with self.assertRaisesRegex(SystemExit, f"is built for linux-x86_64, and this is {platform}"):
                    backend().build_wheel(str(self.folder))
        with mock.patch("sys.maxsize", 2**31 - 1), self.assertRaisesRegex(SystemExit, "this is linux-x86_64 with 32 bits"):
            backend().build_wheel(str(self.folder))
        self.assertEqual(os.listdir(self.folder), [])


class Installed(PackageTest):
    """The package, installed by pip."""

    def test_new_environment(self):
        before = tree()
        venv = self.folder / "venv"
        if run(sys.executable, "-m", "venv", venv)[1] != 0:
            self.skipTest("python3 -m venv makes no environment with pip here")
        python = venv / "bin" / "python"
        run(python, "-m", "pip", "uninstall", "--yes", "setuptools", "wheel")
        said, status = run(python, "-m", "pip", "install", "--no-index", SOURCE, folder=self.folder)
        self.assertEqual(status, 0, said)
        self.assertEqual(run(python, EXAMPLE, folder=self.folder), (PRINTED.decode(), 0))
        self.assertEqual(tree(), before)
        self.assert_typed(python)
        said, status = run(python, "-m", "pip", "uninstall", "--yes", "dossier")
        self.assertEqual((status, list(venv.rglob("*dossier*"))), (0, []), said)

    def assert_typed(self, python):
        """A program of a user is tested by mypy against the installed package alone, and its slip is found."""
        words = [*(mypy_words() or ["mypy"]), "--strict", "--cache-dir", self.folder / "mypy", "--python-executable", python]
        if not shutil.which(words[0]) or run(*words, "-c", "pass")[1] != 0:
            print("skipped: mypy is not installed, or is too old for this Python")
            return
        said, status = run(*words, EXAMPLE, folder=self.folder)
        self.assertEqual(status, 0, said)
        (self.folder / "slip.py").write_text("from dossier import Group, Store\nStore().insert(16, [], Group())\n")
        said, status = run(*words, "slip.py", folder=self.folder)
        self.assertIn('Argument 1 to "insert" of "Store" has incompatible type "int"; expected "Label"', said)

    def assert_not_built(self, words, *options, **environment):
        """An installation fails with these words, on one line and without a traceback."""
        said, status = self.installed(*options, **environment)
        self.assertNotEqual(status, 0)
        self.assertRegex(said, f"(?m)^ *{words}$")
        self.assertNotIn("Traceback", said)
        self.assertFalse((self.folder / "site").exists())

    def test_no_compiler(self):
        (self.folder / "empty").mkdir()
        words = "dossier cannot be built: gcc cannot be run .No such file or directory.: install gcc, which links the library, "
        self.assert_not_built(words + "or set CC to another C compiler", PATH=str(self.folder / "empty"))

    def test_compiler_that_fails(self):
        compiler = self.folder / "compiler"
        compiler.write_text("#!/bin/sh\necho no such option >&2\nexit 1\n")
        compiler.chmod(0o755)
        self.assert_not_built(f"dossier cannot be built: {compiler} failed with status 1: no such option", CC=str(compiler))

    def test_no_archive(self):
        words = f"dossier cannot be built: {self.folder}/libdossier_c.a is missing: run `tools/build --archive dossier_c` "
        words += "at the project's root, or set DOSSIER_C_DIR to the folder that holds libdossier_c.a"
        self.assert_not_built(words, DOSSIER_C_DIR=str(self.folder))

    def test_editable(self):
        words = "dossier is not installed in editable mode, since its library would be missing: install hosts/python without -e"
        self.assert_not_built(words, "--editable")

    def test_archive_elsewhere(self):
        shutil.copy(ROOT / "target" / "staticlib" / "libdossier_c.a", self.folder)
        said, status = self.installed(DOSSIER_C_DIR=str(self.folder))
        self.assertEqual(status, 0, said)
        self.assertEqual(self.imported(self.folder / "site"), ("", 0))

    def test_archive_of_another_version(self):
        (self.folder / "other.c").write_text("int dossier_view(void) { return 0; }\n")
        run("gcc", "-fPIC", "-c", "other.c", folder=self.folder)
        run("ar", "rcs", "libdossier_c.a", "other.o", folder=self.folder)
        said, status = self.installed(DOSSIER_C_DIR=str(self.folder))
        self.assertEqual(status, 0, said)
        said, status = self.imported(self.folder / "site")
        self.assertNotEqual(status, 0)
        words = "has no function dossier_view_xml: it was linked from an archive of another version"
        self.assertRegex(said, f"ImportError: .*libdossier_c.so {words}")

    def test_library_that_is_none(self):
        shutil.copytree(SOURCE / "src", self.folder / "src")
        (self.folder / "src" / "dossier" / "libdossier_c.so").write_bytes(b"nothing")
        said, status = self.imported(self.folder / "src")
        self.assertNotEqual(status, 0)
        self.assertRegex(said, "ImportError: .*libdossier_c.so cannot be loaded: ")

    def test_source_alone(self):
        said, status = self.imported(SOURCE / "src")
        self.assertNotEqual(status, 0)
        self.assertRegex(said, "ImportError: .*libdossier_c.so is missing: .*`pip install hosts/python`")


class Documentation(unittest.TestCase):
    """How long the example in the package's documentation is."""

    def test_at_most_40_lines(self):
        said = ast.get_docstring(ast.parse((SOURCE / "src" / "dossier" / "__init__.py").read_text()))
        lines = said[said.index("    >>> ") :].splitlines()
        self.assertLessEqual(len([line for line in lines if line.startswith("    ")]), 40)


if __name__ == "__main__":
    unittest.main()
