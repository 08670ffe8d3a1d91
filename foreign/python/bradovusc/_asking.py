"""The shared library that answers requests about rules as text: how it is found and called."""

from __future__ import annotations

import ctypes
import functools
import json
from typing import Any, Dict, List, Mapping, Tuple

from ._library import VERSION, found

#: The environment variable that names the library's file.
VARIABLE = "BRADOVUSC_ASKING_LIBRARY"

#: The library's name for the dynamic linker.
SONAME = "libbradovusc_asking.so." + VERSION.rpartition(".")[0]

_FUNCTIONS = {
    "bradovusc_request": (
        ctypes.c_char_p,
        ctypes.c_size_t,
        ctypes.POINTER(ctypes.c_void_p),
        ctypes.POINTER(ctypes.c_size_t),
    ),
    "bradovusc_forget": (ctypes.c_void_p, ctypes.c_size_t),
}


@functools.lru_cache(maxsize=None)
def _found() -> Tuple[str, ctypes.CDLL]:
    path, loaded = found(SONAME, VARIABLE, _FUNCTIONS)
    loaded.bradovusc_forget.restype = None
    return path, loaded


def asking_library() -> str:
    """The file or name of the shared library that answers :func:`pair` and :func:`check`. It is loaded at the first call.

    Raises :class:`LibraryMissing` where there is none.
    """
    return _found()[0]


def request(asked: Mapping[str, Any]) -> Tuple[int, List[Dict[str, Any]]]:
    """Answers a request: the tool's exit status, and the tool's objects. docs/NOTATION.md has the keys of both, in its section JSON."""
    handed = json.dumps(asked).encode()
    lines, length = ctypes.c_void_p(), ctypes.c_size_t()
    library = _found()[1]
    status = library.bradovusc_request(handed, len(handed), ctypes.byref(lines), ctypes.byref(length))
    try:
        said = ctypes.string_at(lines, length.value)
    finally:
        library.bradovusc_forget(lines, length)
    return int(status), [json.loads(line) for line in said.splitlines()]
