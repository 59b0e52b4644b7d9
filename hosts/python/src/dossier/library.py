"""The library of the calls: the shared object beside this file, which the installation of the package links from the archive.

Nothing is built here. Where the shared object is missing, cannot be loaded or lacks a call, the import of the package fails
with an ImportError that says what to do.
"""
import ctypes
from pathlib import Path
from typing import Any, Dict, List, Tuple

# The shared object.
SHARED_OBJECT = Path(__file__).with_name("libdossier_c.so")


class ExportedAnswer(ctypes.Structure):
    """The answer as the library returns it."""

    _fields_ = [("number", ctypes.c_uint32), ("count", ctypes.c_uint64)]


class ExportedGrade(ctypes.Structure):
    """The answer of a grade as the library returns it."""

    _fields_ = [("number", ctypes.c_uint32), ("step", ctypes.c_int64), ("remainder", ctypes.c_uint32)]


class ExportedMigration(ctypes.Structure):
    """The answer of the migration as the library returns it."""

    _fields_ = [("number", ctypes.c_uint32), ("mask", ctypes.c_uint32)]


# A buffer's address and length, and a number of 32 bits.
_BUFFER = [ctypes.c_void_p, ctypes.c_size_t]
_WORD = [ctypes.c_uint32]

# The exported functions, what each takes and what it returns.
_DECLARED: Dict[str, Tuple[List[Any], Any]] = {
    "dossier_view": (_BUFFER + _WORD + _BUFFER + _BUFFER, ExportedAnswer),
    "dossier_view_xml": (_BUFFER + _WORD + _BUFFER + _BUFFER, ExportedAnswer),
    "dossier_insert": (_BUFFER + _WORD + _BUFFER + _WORD + _BUFFER, ExportedAnswer),
    "dossier_update": (_BUFFER + _WORD + _BUFFER + _WORD + _BUFFER, ExportedAnswer),
    "dossier_delete": (_BUFFER + _WORD + _BUFFER, ExportedAnswer),
    "dossier_grade": (_BUFFER + _WORD + _BUFFER + _BUFFER + _WORD, ExportedGrade),
    "dossier_insert_xml": (_BUFFER + _WORD + _BUFFER + _BUFFER, ExportedAnswer),
    "dossier_migrate": (_BUFFER, ExportedMigration),
}


def _load() -> ctypes.CDLL:
    """The library with its functions declared. A CDLL's calls run without the interpreter's lock."""
    if not SHARED_OBJECT.is_file():
        raise ImportError(
            f"{SHARED_OBJECT} is missing: this is the package's source, without its library; "
            "`pip install hosts/python` at the project's root links the library and installs both"
        )
    try:
        library = ctypes.CDLL(str(SHARED_OBJECT))
    except OSError as error:
        raise ImportError(f"{SHARED_OBJECT} cannot be loaded: {error}") from error
    for name, (arguments, returned) in _DECLARED.items():
        function = getattr(library, name, None)
        if function is None:
            raise ImportError(f"{SHARED_OBJECT} has no function {name}: it was linked from an archive of another version")
        function.argtypes, function.restype = arguments, returned
    return library


library = _load()
