"""The shared object: where it is found, and the calls of include/kodarfi.h with their types."""

import ctypes
import os
import sys
from pathlib import Path
from typing import Dict, Iterator, List, Optional

VARIABLE = "KODARFI_LIBRARY"
MAJOR = 3
NAME = f"libkodarfi.so.{MAJOR}"
HOW = f"build it by 'make lib' in Kodarfi's checkout, install it by 'make install', or name it by {VARIABLE}=PATH"


class LibraryMissing(OSError):
    """There is no shared object, or not one that has all calls. Its one line says how to come by one."""


class Observation(ctypes.Structure):
    """struct kodarfi_observation: a field line."""

    _fields_ = [("key", ctypes.c_uint32), ("from_", ctypes.c_uint32), ("to", ctypes.c_uint32), ("difference", ctypes.c_int64), ("weight", ctypes.c_uint32)]


def _list(kind: type) -> List[type]:
    """A pointer and a length."""
    return [ctypes.POINTER(kind), ctypes.c_size_t]


_U32, _SIGNED, _UNSIGNED = ctypes.c_uint32, _list(ctypes.c_int64), _list(ctypes.c_uint64)
_SIZES = [_U32] * 3
_PROPOSAL = _SIGNED * 5
_LIMITS = _UNSIGNED * 2
_FILE = [ctypes.c_char_p, ctypes.c_size_t]
_PLACES = ctypes.POINTER(ctypes.c_uint64)
_COUNT = ctypes.POINTER(_U32)
_LENGTH = ctypes.POINTER(ctypes.c_size_t)
_LOADER = ctypes.POINTER(_U32)
_BUILD = [_U32, *_list(Observation), *_SIGNED, *_SIGNED]
_CONVERT = [*_FILE, *_list(ctypes.c_uint8), _LENGTH, _PLACES]

# The parameters of every call, in the order of the header.
CALLS: Dict[str, List[type]] = {
    "kodarfi_check": [*_SIZES, *_SIGNED, *_PROPOSAL, *_LIMITS, _PLACES],
    "kodarfi_check_half": [*_SIZES, *_SIGNED, *_PROPOSAL, *_LIMITS, _PLACES],
    "kodarfi_listing": [*_FILE, ctypes.POINTER(ctypes.c_uint8), _LENGTH, _PLACES],
    "kodarfi_entry": [ctypes.c_int64, ctypes.c_uint64, _U32, ctypes.POINTER(ctypes.c_int64), _PLACES, _PLACES],
    "kodarfi_find_weights": [_U32, _U32, *_SIGNED, *_SIGNED, _U32, *_SIGNED, _COUNT, _PLACES],
    "kodarfi_build": _BUILD,
    "kodarfi_build_half": _BUILD,
    "kodarfi_build_line": [*_BUILD, _PLACES],
    "kodarfi_build_half_line": [*_BUILD, _PLACES],
    "kodarfi_guesses": [_U32, _U32, *_list(ctypes.c_double), *_SIGNED, _PLACES],
    "kodarfi_intervals": [_U32, _U32, *_SIGNED, *_UNSIGNED, *_list(ctypes.c_double), *_list(ctypes.c_double), _PLACES],
    "kodarfi_check_dependent": [*_SIZES, *_SIGNED, *_PROPOSAL, *_LIMITS, *_SIZES, *_SIGNED, *_SIGNED, *_PROPOSAL, *_LIMITS, _COUNT, _PLACES],
    "kodarfi_common": [*(_SIZES + _SIGNED + _PROPOSAL) * 2, *_SIGNED, *_SIGNED, _COUNT, _PLACES],
    "kodarfi_convert": _CONVERT,
    "kodarfi_convert_line": [*_CONVERT, _PLACES],
    "kodarfi_quality": [_U32, _U32, *_SIGNED * 3, _PLACES, _PLACES, _PLACES],
    "kodarfi_loader_new": [_LOADER],
    "kodarfi_loader_take": [_LOADER, *_FILE, *_SIGNED, *_PROPOSAL, _PLACES],
    "kodarfi_loader_check": [_LOADER, *_SIGNED, *_PROPOSAL, *_LIMITS, _PLACES],
}


def places_to_look() -> Iterator[str]:
    """Where a shared object may be, in order: what the environment names and nothing else; the checkout that this package stands in; the lib
    folder of Python's own prefix and of /usr/local; wherever the system's loader looks."""
    named = os.environ.get(VARIABLE)
    if named:
        yield os.path.abspath(named)
        return
    checkout = Path(__file__).resolve().parent.parent.parent
    if (checkout / "include" / "kodarfi.h").is_file():
        yield str(checkout / "target" / "lib" / "libkodarfi.so")
    for prefix in dict.fromkeys((sys.prefix, sys.base_prefix, "/usr/local")):
        yield os.path.join(prefix, "lib", NAME)
    yield NAME


def _opened(place: str) -> ctypes.CDLL:
    library = ctypes.CDLL(place)
    for name, parameters in CALLS.items():
        call = getattr(library, name)
        call.argtypes = parameters
        call.restype = None if name == "kodarfi_loader_new" else ctypes.c_uint32
    return library


def find() -> ctypes.CDLL:
    """The shared object, its calls with their types. Raises LibraryMissing."""
    for place in places_to_look():
        if os.sep in place and not os.path.exists(place):
            continue
        try:
            return _opened(place)
        except AttributeError as error:
            raise LibraryMissing(f"{place} is of another version, it lacks {str(error).split(': undefined symbol: ')[-1]}: {HOW}") from None
        except OSError as error:
            if os.sep in place:
                raise LibraryMissing(f"{place} cannot be loaded ({_one_line(error)}): {HOW}") from None
    named = os.environ.get(VARIABLE)
    raise LibraryMissing(f"there is no {named} that {VARIABLE} names: {HOW}" if named else f"there is no {NAME}: {HOW}")


def _one_line(error: Exception) -> str:
    return " ".join(str(error).split())


_found: Optional[ctypes.CDLL] = None


def library() -> ctypes.CDLL:
    """The shared object, found at the first call."""
    global _found
    if _found is None:
        _found = find()
    return _found
