"""The shared object: where it lies, its opening, and how its calls are had."""
from __future__ import annotations

import ctypes
import os
import site
import subprocess
import sys
from typing import Any, Callable, Iterable, Optional, TypeVar, overload

if not getattr(sys, "_is_gil_enabled", lambda: True)():
    raise ImportError("livevec's calls are kept apart by the interpreter's lock, which this interpreter runs without")


def _found() -> str:
    """The path of the shared object, or its name if the system's loader finds it. The first of these counts:

    1. the file that LIVEVEC_LIB names
    2. the folder that LIVEVEC_LIB_DIR names
    3. this package's folder, then the folder that contains it
    4. `build` of the repository that the package is in
    5. the folders of LD_LIBRARY_PATH
    6. `lib` of the interpreter's prefix, which is that of a virtual environment
    7. `lib` of the prefix below which the package is installed
    8. `lib` of the user's base, which is $HOME/.local as a rule
    9. where the system's loader looks
    10. the folder that `pkg-config` says, which PKG_CONFIG_PATH may lead elsewhere
    11. /usr/local/lib
    """
    named = os.environ.get("LIVEVEC_LIB")
    if named:
        return named
    return _in_one_of(_nearby()) or _known_to_the_system() or _in_one_of(_packaged()) or _in_one_of(["/usr/local/lib"]) or "liblivevec.so"


def _nearby() -> Iterable[str]:
    here = os.path.dirname(os.path.abspath(__file__))
    around = os.path.dirname(here)
    yield from (os.environ.get("LIVEVEC_LIB_DIR", ""), here, around, os.path.join(around, "..", "..", "build"))
    yield from os.environ.get("LD_LIBRARY_PATH", "").split(":")
    yield os.path.join(sys.prefix, "lib")
    # a package is installed in PREFIX/lib/pythonX.Y/site-packages
    yield os.path.join(around, "..", "..")
    yield os.path.join(site.getuserbase(), "lib")


def _packaged() -> Iterable[str]:
    try:
        yield subprocess.run(["pkg-config", "--variable=libdir", "livevec"], capture_output=True, text=True).stdout.strip().replace("\\ ", " ")
    except OSError:
        return


def _in_one_of(folders: Iterable[str]) -> Optional[str]:
    paths = (os.path.join(folder, "liblivevec.so") for folder in folders if folder)
    return next((path for path in paths if os.path.isfile(path)), None)


def _known_to_the_system() -> Optional[str]:
    for name in ("liblivevec.so.2", "liblivevec.so"):
        try:
            ctypes.PyDLL(name)
        except OSError:
            continue
        return name
    return None


def _opened() -> ctypes.PyDLL:
    found = _found()
    try:
        # Calls by PyDLL keep the interpreter's lock, so that a slot serves one call at a time.
        return ctypes.PyDLL(found)
    except OSError as error:
        raise ImportError(f"{error}; run `make install UNPROVED=1 PREFIX=$HOME/.local` in livevec's repository, or name the file by LIVEVEC_LIB") from None


_lib = _opened()
# Calls by CDLL release that lock. They are those of a seat, which keeps its calls apart by a lock of its own, and those of a vector that take
# long: another call at the vector finds it busy meanwhile.
_released: ctypes.CDLL = ctypes.CDLL(_lib._name)


_Answer = TypeVar("_Answer", bound=ctypes.Structure)


@overload
def _call(name: str, result: type[ctypes.c_uint32], *arguments: Any, by: ctypes.CDLL = _lib) -> Callable[..., int]: ...
@overload
def _call(name: str, result: type[ctypes.c_char_p], *arguments: Any, by: ctypes.CDLL = _lib) -> Callable[..., bytes]: ...
@overload
def _call(name: str, result: type[_Answer], *arguments: Any, by: ctypes.CDLL = _lib) -> Callable[..., _Answer]: ...
def _call(name: str, result: Any, *arguments: Any, by: ctypes.CDLL = _lib) -> Any:
    try:
        function = getattr(by, name)
    except AttributeError:
        raise ImportError(f"{_lib._name} has no {name}: it is older than this module") from None
    function.restype, function.argtypes = result, arguments
    return function


_version = _call("livevec_version", ctypes.c_char_p)


def library_version() -> str:
    """The version of the shared object that was found. If it was built without its proofs, " (not proved)" follows.

    >>> import livevec
    >>> livevec.library_version().startswith(livevec.__version__)
    True
    """
    return _version().decode()


# their types are told, since the other modules use them
_u32: type[ctypes.c_uint32]
_i64: type[ctypes.c_int64]
_pointer: type[ctypes.c_void_p]
_size: type[ctypes.c_size_t]
_flag: type[ctypes.c_bool]
_u32, _i64, _pointer, _size, _flag = ctypes.c_uint32, ctypes.c_int64, ctypes.c_void_p, ctypes.c_size_t, ctypes.c_bool

# The numbers by which C knows edits, and the index that an edit doesn't have: made once, since ctypes takes them quicker than it makes them.
_PUSH, _POP, _WRITE, _RESERVE, _SWAP, _TRUNCATE, _EXPIRE = (_u32(number) for number in range(1, 8))
_NO_INDEX, _NO_LONG_INDEX, _NO_VALUE = _u32(0), ctypes.c_uint64(0), _i64(0)
