"""Where the libraries are."""

from __future__ import annotations

import ctypes
import os
import sys
from collections.abc import Mapping, Sequence
from typing import TypeVar

PACKAGE = os.path.dirname(os.path.abspath(__file__))


_Library = TypeVar("_Library", bound=ctypes.CDLL)


def one_at_a_time() -> bool:
    """Whether the interpreter runs one thread at a time, with a lock of its own that a `ctypes.PyDLL` keeps in a call."""
    is_enabled = getattr(sys, "_is_gil_enabled", None)
    return is_enabled is None or bool(is_enabled())


def load(
    kind: type[_Library],
    name: str,
    variable: str,
    signatures: Mapping[str, Sequence[object]],
    use_errno: bool = False,
) -> _Library:
    """The library of this name: where the variable says, else in this package, else in `bindings/out`."""
    bindings = os.path.dirname(os.path.dirname(PACKAGE))
    places = [os.path.join(PACKAGE, f"{name}.so"), os.path.join(bindings, "out", f"{name}.so")]
    path = os.environ.get(variable) or next((place for place in places if os.path.exists(place)), places[0])
    library = kind(path, use_errno=use_errno)
    for function_name, takes in signatures.items():
        function = getattr(library, function_name)
        function.argtypes = takes
        function.restype = ctypes.c_uint32
    return library
