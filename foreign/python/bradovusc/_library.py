"""The shared library: how it is found, and how a function of it is called."""

from __future__ import annotations

import array
import ctypes
import ctypes.util
import functools
import os
from pathlib import Path
from typing import Any, Iterable, Iterator, List, Mapping, Tuple, Union

#: The version of this package, of the library and of the C header.
VERSION = "0.8.0"

#: The environment variable that names the library's file.
VARIABLE = "BRADOVUSC_LIBRARY"

#: The library's name for the dynamic linker: while the first number is 0, callers go by the second one too.
SONAME = "libbradovusc.so." + VERSION.rpartition(".")[0]

#: What a caller may hand over to be read.
Readable = Union[bytes, bytearray, memoryview]

#: What a caller may lend to be written.
Writable = Union[bytearray, memoryview]

_READ = (ctypes.c_char_p, ctypes.c_size_t)
_LENT = (ctypes.c_void_p, ctypes.c_size_t)
_NUMBERS = _TOLD = (ctypes.POINTER(ctypes.c_uint64), ctypes.c_size_t)
_FUNCTIONS = {
    "bradovusc_clash": _READ + _LENT + _LENT + _TOLD,
    "bradovusc_decide": _READ + _LENT + _LENT + _TOLD,
    "bradovusc_steps": _READ + _LENT + _LENT + _LENT + _TOLD,
    "bradovusc_play": _READ + _READ + _LENT + _TOLD,
    "bradovusc_way": _READ + _READ + _LENT + _TOLD,
    "bradovusc_plain": _READ + _LENT + _TOLD,
    "bradovusc_plain_bytes": _READ + _TOLD,
    "bradovusc_write": _READ + _NUMBERS + _READ + _READ + _LENT + _TOLD,
    "bradovusc_write_edition": (ctypes.c_size_t,) + _READ + _NUMBERS + _READ + _READ + _LENT + _TOLD,
    "bradovusc_script": _READ + _LENT + _TOLD,
    "bradovusc_add": _LENT + _READ + _LENT + _TOLD,
    "bradovusc_withdraw": _LENT + (ctypes.c_size_t,),
    "bradovusc_recheck": _READ + _LENT + _LENT + _TOLD,
    "bradovusc_add_decided": _LENT + _READ + _LENT + _TOLD,
    "bradovusc_recheck_decided": _READ + _LENT + _LENT + _TOLD,
    "bradovusc_spell": _READ + _LENT + _TOLD,
    "bradovusc_read_spelt": _READ + _LENT + _TOLD,
    "bradovusc_spell_open": _READ + _LENT + _TOLD,
    "bradovusc_spell_open_rule": _READ + _LENT + _TOLD,
    "bradovusc_spell_open_catalogue": _LENT,
    "bradovusc_drop_strays": _READ + _LENT + _TOLD,
    "bradovusc_drop_strays_rule": _READ + _LENT + _TOLD,
    "bradovusc_drop_strays_catalogue": _LENT,
    "bradovusc_fronts_differ": (ctypes.c_size_t,) + _READ + _READ,
    "bradovusc_version": (),
}


class LibraryMissing(OSError):
    """The shared library was not found, could not be loaded, or has not all the functions."""


def candidates(package: Path, soname: str = SONAME, variable: str = VARIABLE) -> Iterator[str]:
    """Names and files by which a library is looked for, in this order, for a package in this folder.

    The file that the environment variable names, and then nothing else; a file in the package; one in the nearest folder above it that is
    called ``lib``; the name, by the dynamic linker; what :func:`ctypes.util.find_library` finds.
    """
    named = os.environ.get(variable)
    if named:
        yield named
        return
    bare = soname.partition(".so")[0]
    above = [folder for folder in package.parents if folder.name == "lib"][:1]
    for folder in [package, *above]:
        for name in (soname, f"{bare}.so"):
            if (folder / name).is_file():
                yield str(folder / name)
    yield soname
    found = ctypes.util.find_library(bare[len("lib") :])
    if found:
        yield found


def load(path: str, functions: Mapping[str, Tuple[Any, ...]] = _FUNCTIONS) -> ctypes.CDLL:
    """Loads the library of this name and declares its functions."""
    try:
        loaded = ctypes.CDLL(path)
    except OSError as why:
        raise LibraryMissing(f"{path} can't be loaded: {why}") from why
    for name, types in functions.items():
        try:
            function = getattr(loaded, name)
        except AttributeError:
            raise LibraryMissing(f"{path} has no function {name}: it is not the library of version {VERSION}") from None
        function.argtypes, function.restype = types, ctypes.c_uint32
    return loaded


def found(soname: str, variable: str, functions: Mapping[str, Tuple[Any, ...]]) -> Tuple[str, ctypes.CDLL]:
    """The first library that can be loaded, and by which name. Raises :class:`LibraryMissing` where there is none."""
    tried = []
    for path in candidates(Path(__file__).resolve().parent, soname, variable):
        try:
            return path, load(path, functions)
        except LibraryMissing as why:
            tried.append(str(why))
    raise LibraryMissing("; ".join(tried) + f"; {variable} can name the file")


@functools.lru_cache(maxsize=None)
def _found() -> Tuple[str, ctypes.CDLL]:
    return found(SONAME, VARIABLE, _FUNCTIONS)


def library() -> str:
    """The file or name of the shared library that is called. It is loaded at the first call.

    Raises :class:`LibraryMissing` where there is none.
    """
    return _found()[0]


def version() -> str:
    """The version of the shared library that is called, as it tells it. It is :data:`VERSION`, unless another one was found.

    Raises :class:`LibraryMissing` where there is none.
    """
    number, _ = call("bradovusc_version")
    return f"{number // 10_000}.{number // 100 % 100}.{number % 100}"


class Lent:
    """A writable buffer, lent for one call. It can't be resized while this lives."""

    def __init__(self, buffer: Writable) -> None:
        view = memoryview(buffer)
        if view.readonly:
            raise TypeError(f"a writable buffer is needed, such as a bytearray, and not {type(buffer).__name__}")
        self.view = view.cast("B")
        # the library takes no null pointer, so an empty buffer gets the address of a spare byte
        self._held = ctypes.c_char.from_buffer(self.view) if self.view.nbytes else ctypes.c_char()
        self.address, self.length = ctypes.addressof(self._held), self.view.nbytes

    def front(self, length: int) -> bytes:
        """The first bytes of the buffer."""
        return bytes(self.view[:length])

    def meets(self, other: Lent) -> bool:
        """Whether a byte of the one is a byte of the other."""
        return self.address < other.address + other.length and other.address < self.address + self.length


class Numbers:
    """Numbers of 64 bits, to be read. Raises :class:`OverflowError` for one that has not so many."""

    def __init__(self, numbers: Iterable[int]) -> None:
        checked = array.array("Q", numbers)
        self.length = len(checked)
        # the library takes no null pointer, so there is always one
        self.array = (ctypes.c_uint64 * (self.length + 1))(*checked)


def call(name: str, *given: Union[bytes, Lent, Numbers, int], told: int = 0) -> Tuple[int, List[int]]:
    """Calls a function, and hands back its number and the numbers told beside it.

    Bytes, numbers and buffers that are lent go with their lengths. Buffers that overlap are refused: the library's promises are not about them.
    """
    lent = [one for one in given if isinstance(one, Lent)]
    if any(one.meets(other) for index, one in enumerate(lent) for other in lent[:index]):
        raise ValueError("the buffers that are lent overlap")
    words: List[object] = []
    for one in given:
        if isinstance(one, Lent):
            words += [one.address, one.length]
        elif isinstance(one, bytes):
            words += [one, len(one)]
        elif isinstance(one, Numbers):
            words += [one.array, one.length]
        else:
            words.append(one)
    numbers = (ctypes.c_uint64 * told)()
    if told:
        words += [numbers, told]
    number = getattr(_found()[1], name)(*words)
    return int(number), [int(one) for one in numbers]
