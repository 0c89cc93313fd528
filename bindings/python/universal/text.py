"""Runs of scripts: a script's answers, and pictures of its run that a notebook shows.

A script is a text of calls and steps of processes that share an object; `docs/script-language.md` says how it is written.

    replay("universal 1 queue 2 8\\ncall 0 enq 10\\nfinish 0\\n")
    # 'called 0.0\\nreturned 0.0 ok steps 16 turns 1\\nend\\n'
    draw("universal 1 queue 2 8\\ncall 0 enq 10\\nfinish 0\\n")     # an Svg

The functions behind this module are proved; this module is not. The library `libuniversal_text.so` is the one that the
variable `UNIVERSAL_TEXT_LIBRARY` names, or else the one in the package, where `pip install bindings/python` puts it.
"""

from __future__ import annotations

import ctypes
from ctypes import POINTER, byref, c_size_t, c_uint8, c_uint64, string_at

from ._native import load

__all__ = ["BadScript", "HISTORY", "LIMIT", "Svg", "TooLong", "draw", "lines", "replay"]

HISTORY = 1 << 20
"""How many events a script's history can have where `replay` isn't told."""

LIMIT = 1 << 26
"""How many bytes of text are made where it isn't said."""

_DONE, _BAD_SCRIPT, _SMALL, _MEMORY, _BAD_HISTORY, _MISDRAWN = range(6)


class BadScript(ValueError):
    """A script has a fault, which `str` says, as 'line 3: bad line'; or it has too many events for a picture."""


class TooLong(ValueError):
    """The text would have more bytes than the limit: `needed` is how many."""

    def __init__(self, needed: int) -> None:
        super().__init__(f"the text has {needed} bytes")
        self.needed = needed


class Svg:
    """A picture. A notebook shows it, and `str` is its text."""

    def __init__(self, text: str) -> None:
        self.text = text

    def __str__(self) -> str:
        return self.text

    def __repr__(self) -> str:
        return f"<Svg of {len(self.text)} characters>"

    def _repr_svg_(self) -> str:
        return self.text


_SCRIPT, _OUT = [POINTER(c_uint8), c_size_t], [POINTER(c_uint8), c_size_t, POINTER(c_size_t)]
_SIGNATURES = {
    "universal_replay": [*_SCRIPT, c_uint64, *_OUT],
    "universal_draw": [*_SCRIPT, *_OUT],
    "universal_lines": [*_SCRIPT, *_OUT],
}
_LIBRARY = load(ctypes.CDLL, "libuniversal_text", "UNIVERSAL_TEXT_LIBRARY", _SIGNATURES)


def _text(name: str, script: str, limit: int, *numbers: int) -> str:
    bytes_in = script.encode()
    given = (c_uint8 * max(1, len(bytes_in))).from_buffer_copy(bytes_in or b"\0")
    # room that isn't written takes no memory
    out, written = (c_uint8 * max(1, limit))(), c_size_t()
    status = getattr(_LIBRARY, name)(given, len(bytes_in), *numbers, out, limit, byref(written))
    if status == _SMALL:
        raise TooLong(written.value)
    if status == _MEMORY:
        raise MemoryError
    if status == _BAD_HISTORY:
        raise ValueError("history isn't from 1 to 16777216")
    if status == _MISDRAWN:
        raise RuntimeError("the picture does not show its run")
    text = string_at(out, written.value).decode()
    if status == _BAD_SCRIPT:
        raise BadScript(text.rstrip("\n"))
    return text


def replay(script: str, history: int = HISTORY, limit: int = LIMIT) -> str:
    """Runs a script, whose history can have `history` events, from 1 to 16,777,216: its answers, of `limit` bytes at most.

    Raises `BadScript`; `TooLong`; `ValueError`: `history` is another number; `MemoryError`.
    """
    if not 0 <= history < 1 << 64:
        raise ValueError("history isn't from 1 to 16777216")
    return _text("universal_replay", script, limit, history)


def draw(script: str, limit: int = LIMIT) -> Svg:
    """The picture of a script's run.

    Raises `BadScript`, also of a script with more than 2,000 events; `TooLong`; `MemoryError`; `RuntimeError` where the
    picture does not show its run, which is so of no known script.
    """
    return Svg(_text("universal_draw", script, limit))


def lines(script: str, limit: int = LIMIT) -> str:
    """The same picture as lines of a terminal of 100 columns. Raises as `draw`."""
    return _text("universal_lines", script, limit)
