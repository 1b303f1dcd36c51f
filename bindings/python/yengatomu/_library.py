"""The calls of yengatomu.h.

They are called by `ctypes.CDLL`, which lets other threads run meanwhile. Any number of threads may read one slot at once, without a lock; what changes a
slot is called only while no other thread knows of it.
"""

import ctypes
import os
from typing import Any, Callable, Optional

NAME = "libyengatomu.so.0"
# What open, load_dictionary and count_by_cluster return; load_abbreviations has the last one also where a word has a line feed in it.
OK, NO_MEMORY, NO_SUCH, NOT_UTF8 = range(4)
# What open_rules returns beside OK and NO_MEMORY.
WRONG_RULES, NO_MACHINE = 2, 3
# No boundary.
NONE: int = ctypes.c_size_t(-1).value


def _loaded() -> ctypes.CDLL:
    """Loads the library: from the folder that YENGATOMU_LIB_DIR names, from this package, where a wheel has it, or as the loader finds it."""
    here = os.path.dirname(os.path.abspath(__file__))
    folder = os.environ.get("YENGATOMU_LIB_DIR")
    beside = os.path.join(here, NAME)
    path = os.path.join(folder, NAME) if folder else beside if os.path.exists(beside) else NAME
    try:
        return ctypes.CDLL(path)
    except OSError as error:
        raise ImportError(f"{NAME} can't be loaded: {error}. It stands in the package once this is installed, or YENGATOMU_LIB_DIR names its folder") from error


_library = _loaded()


class Slot(ctypes.Structure):
    """Holds a segmenter or nothing. What it holds is freed with it."""

    _fields_ = [("full", ctypes.c_bool), ("at", ctypes.c_void_p)]

    def __init__(self) -> None:
        super().__init__()
        # Its address, as calls take it; and whether it has a dictionary or abbreviations.
        self.here, self.has_words = ctypes.c_void_p(ctypes.addressof(self)), False

    def __del__(self, close: Callable[..., Any] = _library.yengatomu_close, address: Callable[[Any], int] = ctypes.addressof) -> None:
        close(address(self))


# What open_rules writes the number of a line to.
Line = ctypes.c_size_t
# (a slot and arrays are passed by their addresses, which are quicker than the structure and the array)
_SLOT, _SIZE, _U32, _TEXT, _ARRAY = ctypes.c_void_p, ctypes.c_size_t, ctypes.c_uint32, ctypes.c_char_p, ctypes.c_void_p


def _call(name: str, result: Optional[type], *arguments: Any) -> Callable[..., int]:
    found: Any = getattr(_library, f"yengatomu_{name}")
    found.restype, found.argtypes = result, arguments
    call: Callable[..., int] = found
    return call


open_slot = _call("open", _U32, _SLOT, _U32, _U32, _U32, ctypes.c_bool)
open_rules = _call("open_rules", _U32, _SLOT, _TEXT, _SIZE, ctypes.POINTER(_SIZE))
load_dictionary = _call("load_dictionary", _U32, _SLOT, _ARRAY, _SIZE, _U32)
load_abbreviations = _call("load_abbreviations", _U32, _SLOT, _ARRAY, _SIZE)
count_by_cluster = _call("count_by_cluster", _U32, _SLOT)
_call("close", None, _SLOT)
boundaries = _call("boundaries", _SIZE, _SLOT, _TEXT, _SIZE, _SIZE, _ARRAY, _SIZE)
boundaries_utf16 = _call("boundaries_utf16", _SIZE, _SLOT, _TEXT, _SIZE, _SIZE, _ARRAY, _SIZE)
marked_boundaries = _call("marked_boundaries", _SIZE, _SLOT, _TEXT, _SIZE, _SIZE, _ARRAY, _SIZE, _ARRAY, _SIZE)
marked_boundaries_utf16 = _call("marked_boundaries_utf16", _SIZE, _SLOT, _TEXT, _SIZE, _SIZE, _ARRAY, _SIZE, _ARRAY, _SIZE)
next_boundary = _call("next", _SIZE, _SLOT, _TEXT, _SIZE, _SIZE)
next_boundary_utf16 = _call("next_utf16", _SIZE, _SLOT, _TEXT, _SIZE, _SIZE)
previous_boundary = _call("previous", _SIZE, _SLOT, _TEXT, _SIZE, _SIZE)
previous_boundary_utf16 = _call("previous_utf16", _SIZE, _SLOT, _TEXT, _SIZE, _SIZE)
wrap_columns = _call("wrap_columns", _SIZE, _SLOT, _TEXT, _SIZE, _SIZE, _SIZE, _ARRAY, _SIZE, _ARRAY, _SIZE)
wrap_columns_utf16 = _call("wrap_columns_utf16", _SIZE, _SLOT, _TEXT, _SIZE, _SIZE, _SIZE, _ARRAY, _SIZE, _ARRAY, _SIZE)
wrap_balanced = _call("wrap_balanced", _SIZE, _SLOT, _TEXT, _SIZE, _SIZE, _U32, _ARRAY, _SIZE, _ARRAY, _SIZE)
wrap_balanced_utf16 = _call("wrap_balanced_utf16", _SIZE, _SLOT, _TEXT, _SIZE, _SIZE, _U32, _ARRAY, _SIZE, _ARRAY, _SIZE)
count = _call("count", _SIZE, _SLOT, _TEXT, _SIZE)
count_utf16 = _call("count_utf16", _SIZE, _SLOT, _TEXT, _SIZE)
count_words = _call("count_words", _SIZE, _SLOT, _TEXT, _SIZE)
count_words_utf16 = _call("count_words_utf16", _SIZE, _SLOT, _TEXT, _SIZE)
version = _call("version", _U32)
unicode_version = _call("unicode_version", _U32, _U32)
