"""The shared library: where it is found, its calls, and buffers that are lent to them without a copy."""
import os
from array import array
from contextlib import ExitStack
from ctypes import CDLL, POINTER, Structure, byref, c_char_p, c_double, c_int, c_size_t, c_ssize_t, c_uint64, c_void_p, py_object, pythonapi, sizeof
from math import inf
from mmap import mmap
from operator import index
from pathlib import Path
from typing import Any, Iterable, Optional, Union

NUMBER, READ, DOUBLES, WRITTEN = "number", "read", "doubles", "written"
"""What a call's parameters are: a number, bytes that it reads, doubles that it reads, or bytes that it writes. All but numbers go as a pointer and a
length, that of doubles being their number."""

FIELDS = {
    "verdict": ("number", "place"),
    "code": ("number", "place", "disks", "rows", "data_symbols", "symbols"),
    "sheet": ("number", "place", "length"),
    "checked": ("number", "place", "reads"),
    "planned": ("number", "place", "length", "reads", "pattern", "pattern_high", "patterns"),
    "priced": ("number", "place", "length", "reads", "settled", "sum", "pattern", "pattern_high", "patterns"),
    "set": ("number", "place", "low", "high"),
    "count": ("number", "place", "count"),
    "tested": ("number", "place", "sound", "column"),
    "part": ("slice", "start", "length"),
}
"""The answers of navorzim.h, each a struct of 64-bit numbers."""

FLOATS = ("sum",)
"""The fields that are doubles."""

ANSWERS: "dict[str, type[Structure]]" = {
    name: type(name, (Structure,), {"_fields_": [(field, c_double if field in FLOATS else c_uint64) for field in fields]})
    for name, fields in FIELDS.items()
}

CALLS = {
    "single_parity": ("sheet", (NUMBER, NUMBER, WRITTEN)),
    "liberation": ("sheet", (NUMBER, NUMBER, WRITTEN)),
    "row_diagonal": ("sheet", (NUMBER, WRITTEN)),
    "evenodd": ("sheet", (NUMBER, WRITTEN)),
    "read_code": ("code", (READ,)),
    "encode": ("verdict", (READ, NUMBER, READ, WRITTEN)),
    "check": ("checked", (READ, NUMBER, READ)),
    "check_disks": ("checked", (READ, READ, READ)),
    "plan": ("planned", (READ, NUMBER, WRITTEN)),
    "plan_wanted": ("planned", (READ, NUMBER, READ, WRITTEN)),
    "plan_disks": ("planned", (READ, READ, READ, WRITTEN)),
    "plan_fewest": ("planned", (READ, READ, READ, WRITTEN)),
    "plan_priced": ("priced", (READ, READ, READ, READ, DOUBLES, DOUBLES, WRITTEN)),
    "lost_pattern": ("set", (READ, READ, READ, NUMBER)),
    "rebuild": ("verdict", (READ, NUMBER, READ, NUMBER, WRITTEN)),
    "rebuild_disks": ("verdict", (READ, READ, READ, NUMBER, WRITTEN)),
    "equations": ("count", (READ, READ)),
    "equation": ("set", (READ, READ, NUMBER)),
    "test_survivors": ("tested", (READ, READ, NUMBER, READ)),
    "strip": ("part", (READ, NUMBER, NUMBER, READ)),
    "strip_verdict": ("verdict", (READ, NUMBER, NUMBER, READ)),
    "look_up": ("part", (READ, NUMBER, NUMBER, READ, READ, NUMBER)),
    "look_up_verdict": ("verdict", (READ, NUMBER, NUMBER, READ, READ, NUMBER)),
}
"""The calls of navorzim.h: what each answers, and its parameters."""


# The library

LOADED_AS = "libnavorzim.so.0.2"
"""The name by which the system's loader knows it: the soname that shared.sh gives it."""


def load() -> CDLL:
    """The library that NAVORZIM_LIBRARY names; else the one in the package's folder; else the one that the system's loader finds."""
    named, beside = os.environ.get("NAVORZIM_LIBRARY"), Path(__file__).resolve().parent / "libnavorzim.so"
    path = os.path.abspath(named) if named else str(beside) if beside.exists() else LOADED_AS
    try:
        library = CDLL(path)
        for call, (answer, parameters) in CALLS.items():
            function = getattr(library, f"navorzim_{call}")
            function.restype = ANSWERS[answer]
            function.argtypes = [kind for parameter in parameters for kind in crossing(parameter)]
    except (OSError, AttributeError) as error:
        raise ImportError(f"the library of navorzim can't be used: {error}. {advice(named, beside)}", path=path) from error
    return library


def advice(named: Optional[str], beside: Path) -> str:
    """What helps where there is no library, or not the one of this package."""
    if named:
        return f"NAVORZIM_LIBRARY names it: {named}"
    if beside.exists():
        return f"It is {beside}; installing the package anew brings its own"
    return f"There is no {beside}, and the system's loader didn't find {LOADED_AS}: name the file in NAVORZIM_LIBRARY, or run ldconfig"


def crossing(parameter: str) -> "tuple[Any, ...]":
    return (c_uint64,) if parameter == NUMBER else (c_void_p, c_size_t)


LIBRARY = load()


Readable = Union[bytes, bytearray, memoryview, mmap, "array[Any]"]
"""Bytes that a call reads. Whatever else has its bytes in one piece is taken as well, like an array of numpy."""

Writable = Union[bytearray, memoryview, mmap, "array[Any]"]
"""Bytes that a call writes."""


# Numbers

LARGEST = 2**64 - 1


def number(value: int) -> int:
    """A number for the library. One that doesn't fit into 64 bits is as far beyond every limit as the largest that does."""
    value = index(value)
    return value if 0 <= value <= LARGEST else LARGEST


def numbers(values: Iterable[int]) -> bytes:
    """A list of disks or symbols, a byte each. No array has a disk or symbol 255, so that it stands for all that don't fit."""
    return bytes(value if 0 <= value <= 255 else 255 for value in map(index, values))


def double(value: float) -> float:
    """A double for the library. A number that is too large for one is as far beyond every limit as the infinite one."""
    try:
        return array("d", (value,))[0]
    except OverflowError:
        return inf


# Buffers


class View(Structure):
    """Python's own Py_buffer: an object's bytes, which stay where they are until the view is released."""

    _fields_ = [
        ("buf", c_void_p),
        ("obj", c_void_p),
        ("len", c_ssize_t),
        ("itemsize", c_ssize_t),
        ("readonly", c_int),
        ("ndim", c_int),
        ("format", c_char_p),
        ("shape", POINTER(c_ssize_t)),
        ("strides", POINTER(c_ssize_t)),
        ("suboffsets", POINTER(c_ssize_t)),
        ("internal", c_void_p),
    ]


get_buffer, release_buffer = pythonapi.PyObject_GetBuffer, pythonapi.PyBuffer_Release
get_buffer.argtypes, get_buffer.restype = (py_object, POINTER(View), c_int), c_int
release_buffer.argtypes, release_buffer.restype = (POINTER(View),), None
FOR_READING, FOR_WRITING = 0, 1


def lend(lent: ExitStack, given: Any, writing: bool) -> "tuple[int, int]":
    """Where an object's bytes begin, and how many there are. The object keeps them there until `lent` is closed."""
    view = View()
    try:
        get_buffer(given, byref(view), FOR_WRITING if writing else FOR_READING)
    except BufferError as error:
        wanted = "writable bytes in one piece, like a bytearray" if writing else "bytes in one piece"
        raise TypeError(f"{wanted} are needed, not this {type(given).__name__}: {error}") from None
    lent.callback(release_buffer, byref(view))
    return view.buf or 0, view.len


# Calls


def ask(call: str, *given: Any) -> Any:
    """A call's answer. A buffer that is written may overlap no other buffer of the call."""
    answer, parameters = CALLS[call]
    with ExitStack() as lent:
        crossed: "list[int]" = []
        read: "list[tuple[int, int]]" = []
        written: "list[tuple[int, int]]" = []
        for parameter, value in zip(parameters, given):
            if parameter == NUMBER:
                crossed.append(number(value))
            else:
                start, length = lend(lent, value, parameter == WRITTEN)
                if length > 0:
                    (written if parameter == WRITTEN else read).append((start, start + length))
                crossed += start, length // sizeof(c_double) if parameter == DOUBLES else length
        for start, end in written:
            if any(start < other_end and other < end for other, other_end in read):
                raise ValueError("bytes that are written overlap others of the same call")
        return getattr(LIBRARY, f"navorzim_{call}")(*crossed)
