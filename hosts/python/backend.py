"""Builds the wheel of the package dossier (PEP 517), with the standard library alone, so that pip needs no network.

The shared object of the package is linked here, from target/staticlib/libdossier_c.a at the project's root or from
libdossier_c.a in the folder that the environment variable DOSSIER_C_DIR names (a relative one counts from the project's root),
by gcc or what CC names. Nothing is left in the source folder. What is missing is said in one line.
"""
import base64
import hashlib
import os
import re
import shlex
import stat
import subprocess
import sys
import sysconfig
import tempfile
import zipfile
from pathlib import Path
from typing import Dict, Mapping, NoReturn, Optional

HERE = Path(__file__).resolve().parent
ROOT = HERE.parents[1]
PACKAGE = HERE / "src" / "dossier"
VARIABLE = "DOSSIER_C_DIR"

# The platform that the archive is built for.
PLATFORM = "linux-x86_64"

# The time of each file in a wheel, so that the same sources give the same wheel.
TIME = (1980, 1, 1, 0, 0, 0)

# The type and mode of each; a shared object needs no other.
MODE = stat.S_IFREG | 0o644

# What pip passes on from its command line.
Settings = Optional[Mapping[str, object]]


def build_wheel(wheel_directory: str, config_settings: Settings = None, metadata_directory: Optional[str] = None) -> str:
    """Links the library and writes the wheel into the folder: the wheel's name."""
    fields = _fields()
    tag = "py3-none-" + re.sub("[-.]", "_", _platform())
    sources = sorted(file for file in PACKAGE.iterdir() if file.suffix in (".py", ".typed"))
    files = {f"dossier/{file.name}": file.read_bytes() for file in sources}
    files["dossier/libdossier_c.so"] = _library()
    information = f"dossier-{fields['version']}.dist-info"
    files[f"{information}/METADATA"] = _metadata(fields).encode()
    files[f"{information}/WHEEL"] = f"Wheel-Version: 1.0\nGenerator: dossier\nRoot-Is-Purelib: false\nTag: {tag}\n".encode()
    files[f"{information}/RECORD"] = _record(files, f"{information}/RECORD").encode()
    name = f"dossier-{fields['version']}-{tag}.whl"
    with zipfile.ZipFile(Path(wheel_directory) / name, "w") as wheel:
        for file, contents in files.items():
            about = zipfile.ZipInfo(file, TIME)
            about.external_attr = MODE << 16
            about.compress_type = zipfile.ZIP_DEFLATED
            wheel.writestr(about, contents)
    return name


def build_sdist(sdist_directory: str, config_settings: Settings = None) -> NoReturn:
    """There is none."""
    sys.exit("dossier has no source distribution, since the archive of the calls is built in the project: install hosts/python")


def build_editable(
    wheel_directory: str, config_settings: Settings = None, metadata_directory: Optional[str] = None
) -> NoReturn:
    """There is none."""
    sys.exit("dossier is not installed in editable mode, since its library would be missing: install hosts/python without -e")


def _fields() -> Dict[str, str]:
    """The texts of pyproject.toml, each on a line of its own."""
    return dict(re.findall(r'^([a-z-]+) = "(.*)"$', (HERE / "pyproject.toml").read_text(), re.MULTILINE))


def _metadata(fields: Mapping[str, str]) -> str:
    """What is said of the package where it is installed."""
    lines = ["Metadata-Version: 2.1", f"Name: {fields['name']}", f"Version: {fields['version']}"]
    return "\n".join(lines + [f"Summary: {fields['description']}", f"Requires-Python: {fields['requires-python']}", ""])


def _record(files: Mapping[str, bytes], itself: str) -> str:
    """The list of the files with their hashes and lengths."""
    lines = []
    for file, contents in files.items():
        digest = base64.urlsafe_b64encode(hashlib.sha256(contents).digest()).rstrip(b"=").decode()
        lines.append(f"{file},sha256={digest},{len(contents)}\n")
    return "".join(lines) + f"{itself},,\n"


def _platform() -> str:
    """This platform, if the archive is built for it."""
    platform = sysconfig.get_platform() + (" with 32 bits" if sys.maxsize < 2**32 else "")
    if platform != PLATFORM:
        sys.exit(f"dossier cannot be built: the archive of the calls is built for {PLATFORM}, and this is {platform}")
    return platform


def _archive() -> Path:
    """Where the archive is."""
    archive = ROOT / os.environ.get(VARIABLE, "target/staticlib") / "libdossier_c.a"
    if not archive.is_file():
        sys.exit(
            f"dossier cannot be built: {archive} is missing: run `tools/build --archive dossier_c` at the project's root, "
            f"or set {VARIABLE} to the folder that holds libdossier_c.a"
        )
    return archive


def _library() -> bytes:
    """The shared object of all that is in the archive."""
    try:
        compiler = shlex.split(os.environ.get("CC", "")) or ["gcc"]
    except ValueError as error:
        sys.exit(f"dossier cannot be built: CC does not read as a command: {error}")
    with tempfile.TemporaryDirectory() as folder:
        made = Path(folder) / "libdossier_c.so"
        command = [*compiler, "-shared", "-o", str(made), "-Wl,--whole-archive", str(_archive()), "-Wl,--no-whole-archive"]
        try:
            done = subprocess.run(command, stdout=subprocess.PIPE, stderr=subprocess.STDOUT)
        except OSError as error:
            sys.exit(
                f"dossier cannot be built: {compiler[0]} cannot be run ({error.strerror}): install gcc, which links the "
                "library, or set CC to another C compiler"
            )
        if done.returncode != 0:
            words = done.stdout.decode(errors="replace").strip()
            sys.exit(f"dossier cannot be built: {compiler[0]} failed with status {done.returncode}: {words}")
        return made.read_bytes()


def _remove_bytecode() -> None:
    """Takes away what the import of this file has left beside it, so that the source folder is as it was."""
    cached = globals().get("__cached__")
    try:
        if cached is not None and Path(cached).is_file():
            Path(cached).unlink()
            Path(cached).parent.rmdir()
    except OSError:
        pass  # it is another's, or more stands in its folder


_remove_bytecode()
