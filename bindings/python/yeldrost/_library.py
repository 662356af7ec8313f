"""Finds and loads the shared library."""
import ctypes
import ctypes.util
import functools
import os
import subprocess

from . import _header

SONAME = "libyeldrost.so.0"


def _path() -> str:
    """As $YELDROST_LIBRARY says, else where pkg-config says that it is installed, else where the
    linker looks."""
    named = os.environ.get("YELDROST_LIBRARY")
    if named:
        return named
    try:
        words = ["pkg-config", "--variable=libdir", "yeldrost"]
        folder = subprocess.run(words, capture_output=True, text=True, check=True).stdout.strip()
        if os.path.exists(os.path.join(folder, SONAME)):
            return os.path.join(folder, SONAME)
    except (OSError, subprocess.CalledProcessError):
        pass
    return SONAME


@functools.lru_cache(maxsize=None)
def load(holds_gil: bool) -> ctypes.CDLL:
    """The calls of the library, in which the interpreter's lock is held, or let go."""
    try:
        library = (ctypes.PyDLL if holds_gil else ctypes.CDLL)(_path())
    except OSError as error:
        how = (
            "install it (tools/build/install PREFIX), and set "
            "PKG_CONFIG_PATH=PREFIX/lib/pkgconfig or YELDROST_LIBRARY"
        )
        raise ImportError(f"the library of Yeldrost isn't found ({error}): {how}") from error
    for name, (result, parameters) in _header.CALLS.items():
        call = getattr(library, name)
        call.restype, call.argtypes = result, parameters
    if library.msg_version() != _header.VERSION or library.msg_sender_size() != ctypes.sizeof(
        _header.msg_sender
    ):
        raise ImportError("the library of Yeldrost is of another version than this package")
    return library
