"""The shared object of the library, with the types of pmu.h; pmu.py calls it."""

from __future__ import annotations

import ctypes
import os
from typing import Any, Optional

from pmu_told import NoLibrary

SHARED_OBJECT = "libpmu.so.0.1"
# The versions of the interface that this binding is for: of 0.1.
VERSIONS = range(100, 200)


class HandleWords(ctypes.Structure):
    """`struct pmu`."""

    _fields_ = [("owned", ctypes.c_void_p)]


class CommandWords(ctypes.Structure):
    """`struct pmu_command`."""

    _fields_ = [("line", ctypes.c_uint32), ("number", ctypes.c_uint32), ("value", ctypes.c_uint32)]


class StatusWords(ctypes.Structure):
    """`struct pmu_status`."""

    _fields_ = [("state", ctypes.c_uint32), ("requirement", ctypes.c_uint32), ("usage", ctypes.c_uint32)]


HandlePointer = ctypes.POINTER(HandleWords)
_U32, _BYTES, _SIZE = ctypes.c_uint32, ctypes.c_char_p, ctypes.c_size_t
_WRITTEN, _FLAG, _VALUE = ctypes.POINTER(_SIZE), ctypes.POINTER(ctypes.c_bool), ctypes.POINTER(_U32)

# The functions that answer a status, with what they take.
_CALLS: dict[str, list[Any]] = {
    "pmu_replay": [_BYTES, _SIZE, _BYTES, _SIZE, _BYTES, _SIZE, _WRITTEN],
    "pmu_open": [_BYTES, _SIZE, ctypes.POINTER(HandlePointer)],
    "pmu_ipi": [HandlePointer] + [_U32] * 7,
    "pmu_boot": [HandlePointer, _U32, ctypes.c_uint64],
    "pmu_wfi": [HandlePointer, _U32],
    "pmu_gic": [HandlePointer, _U32],
    "pmu_irq": [HandlePointer, _U32],
    "pmu_tick": [HandlePointer, _U32],
    "pmu_next": [HandlePointer, ctypes.POINTER(CommandWords)],
    "pmu_done": [HandlePointer, ctypes.c_bool],
    "pmu_is_settled": [HandlePointer, _FLAG],
    "pmu_text": [HandlePointer, _U32, _BYTES, _SIZE, _WRITTEN],
    "pmu_value": [HandlePointer, _U32, _VALUE],
    "pmu_mode": [HandlePointer, _U32, _VALUE],
    "pmu_node_status": [HandlePointer, _U32, _U32, ctypes.POINTER(StatusWords)],
    "pmu_is_beyond": [HandlePointer] + [_U32] * 8 + [_FLAG],
}


def load(path: Optional[str] = None) -> ctypes.CDLL:
    """The shared object of this path, or the one that pmu.py says. NoLibrary if it isn't there or is another."""
    installed = os.path.join(os.path.dirname(os.path.realpath(__file__)), "..", "..", SHARED_OBJECT)
    name = path or os.environ.get("PMU_SHARED_OBJECT") or (installed if os.path.exists(installed) else SHARED_OBJECT)
    try:
        library = ctypes.CDLL(name)
        for call, words in _CALLS.items():
            function = getattr(library, call)
            function.argtypes, function.restype = words, _U32
        library.pmu_version.argtypes, library.pmu_version.restype = [], _U32
        library.pmu_end.argtypes, library.pmu_end.restype = [HandleWords], None
        library.rattle_dealloc.argtypes, library.rattle_dealloc.restype = [ctypes.c_void_p], None
    except (OSError, AttributeError) as fault:
        raise NoLibrary(str(fault)) from fault
    if library.pmu_version() not in VERSIONS:
        wanted = f"{VERSIONS[0]} to {VERSIONS[-1]}"
        raise NoLibrary(f"{name} has the interface {library.pmu_version()}, and this binding is for {wanted}")
    return library


_LOADED: dict[str, ctypes.CDLL] = {}


def loaded() -> ctypes.CDLL:
    """The shared object that is used if none is named; it is loaded once."""
    name = os.environ.get("PMU_SHARED_OBJECT", "")
    if name not in _LOADED:
        _LOADED[name] = load()
    return _LOADED[name]


def close(library: ctypes.CDLL, pointer: Any) -> None:
    """What pmu_close does, which is no function of the shared object."""
    library.pmu_end(pointer.contents)
    library.rattle_dealloc(ctypes.cast(pointer, ctypes.c_void_p))
