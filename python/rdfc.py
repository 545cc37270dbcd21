"""RDF Dataset Canonicalization (RDFC-1.0) in memory, by the library librdfc.

    >>> import rdfc
    >>> form = rdfc.canonize('_:alice <http://e/knows> _:bob .')
    >>> form.bytes
    b'_:c14n0 <http://e/knows> _:c14n1 .\\n'
    >>> form.settled
    True

A text is N-Quads or TriG, as `str` or as `bytes` of UTF-8. A text that is refused raises `Refused`, with the line; work
past the limit raises `WorkLimitPassed`. The library is looked for where the environment's RDFC_LIBRARY says, else beside
this file, in lib/out of the checkout that this file lies in, and where the system looks for libraries. It may be called
from several threads at once: a call holds no lock of Python's interpreter.
"""

from __future__ import annotations

import ctypes
import hashlib
import os
import secrets
from pathlib import Path
from typing import Any

__all__ = [
    "Canonical",
    "Different",
    "NoMemory",
    "RdfcError",
    "Refused",
    "Undecided",
    "WorkLimitPassed",
    "WrongUse",
    "canonize",
    "identifiers",
    "isomorphism",
    "lean",
    "pyld_normalize",
]

DEFAULT_LIMIT = 200_000

_DONE, _DIFFERENT, _USAGE, _UNSETTLED, _REFUSED, _READ_FAULT, _WRITE_FAULT = range(7)
_WORK_LIMIT, _NO_MEMORY, _UNDECIDED, _NO_ROOM = range(7, 11)

_CAUSES = (
    "",
    "too long",
    "not UTF-8",
    "not an N-Quads line",
    "IRI without a scheme",
    "not TriG",
    "unknown prefix",
    "relative IRI without a base",
    "too many quads",
    "a quad has a graph name",
)


class RdfcError(Exception):
    """A call that gave no result. Its text is the note that the program rdfc would write."""


class WrongUse(RdfcError, ValueError):
    """An argument has no meaning: an unknown hash, a limit that is none, a base that is no IRI."""


class Refused(RdfcError, ValueError):
    """A text is refused.

    `cause` says why. `line` is the line, counted from 1, or None where the cause has none. `text` is 1 for the first
    text of the call, and 2 for the second.
    """

    def __init__(self, note: str, cause: str, line: int | None, text: int) -> None:
        super().__init__(note)
        self.cause = cause
        self.line = line
        self.text = text


class WorkLimitPassed(RdfcError):
    """The work is past the limit: raise it, or take the text for a hostile one. `text` is as in `Refused`."""

    def __init__(self, note: str, text: int) -> None:
        super().__init__(note)
        self.text = text


class Different(RdfcError):
    """The two datasets are not isomorphic."""


class Undecided(RdfcError):
    """Whether the two datasets are isomorphic was not decided: both have ties that are not settled."""


class NoMemory(RdfcError, MemoryError):
    """Memory was refused."""


class Canonical:
    """A canonical form.

    `bytes` is the form, in N-Quads. Where `settled` is False, another implementation may give another form: do not sign
    this one.
    """

    __slots__ = ("_hash", "_options", "_text", "bytes", "settled")

    def __init__(self, form: bytes, settled: bool, text: bytes, options: list[str], hash: str) -> None:
        self.bytes = form
        self.settled = settled
        self._text = text
        self._options = options
        self._hash = hash

    def __repr__(self) -> str:
        return f"Canonical(bytes={self.bytes!r}, hash={self.hash!r}, settled={self.settled})"

    @property
    def hash(self) -> str:
        """The hash of the form in hexadecimal digits, by the hash that was asked for."""
        return hashlib.new(self._hash, self.bytes).hexdigest()

    @property
    def units(self) -> int:
        """How much work telling the blank nodes apart took. It is counted anew each time that it is asked for."""
        _, report = _call(_words("ties", self._options, "first"), self._text, b"", 1024)
        return int(report.split(b"\n", 1)[0].split()[1])


class _Answer(ctypes.Structure):
    _fields_ = [
        ("status", ctypes.c_uint32),
        ("cause", ctypes.c_uint32),
        ("file", ctypes.c_uint32),
        ("note_len", ctypes.c_uint32),
        ("line", ctypes.c_uint64),
        ("written", ctypes.c_size_t),
        ("needed", ctypes.c_size_t),
        ("note", ctypes.c_char * 240),
    ]


def _load() -> Any:
    here = Path(__file__).resolve().parent
    named = os.environ.get("RDFC_LIBRARY")
    places = [here / "librdfc.so.1", here.parent / "lib" / "out" / "librdfc.so.1"]
    name = named or next((str(place) for place in places if place.exists()), "librdfc.so.1")
    run = ctypes.CDLL(name).rdfc_run
    slice_types = [ctypes.c_char_p, ctypes.c_size_t]
    run.argtypes = [ctypes.c_uint64, ctypes.c_uint64, *slice_types * 3, ctypes.c_void_p, ctypes.c_size_t, ctypes.c_void_p]
    run.restype = ctypes.c_uint32
    return run


_run = _load()

# The keys of the library's tables, which nobody who writes a text may know.
_KEYS = (secrets.randbits(64), secrets.randbits(64))


def _bytes_of(text: str | bytes) -> bytes:
    if isinstance(text, str):
        return text.encode("utf-8", "surrogatepass")
    return bytes(text)


def _fail(answer: _Answer) -> RdfcError:
    """The exception of a status with which nothing was written."""
    note = answer.note.decode("utf-8", "replace").removeprefix("rdfc: ").rstrip("\n")
    if answer.status == _REFUSED:
        return Refused(note, _CAUSES[answer.cause], answer.line or None, answer.file)
    if answer.status == _WORK_LIMIT:
        return WorkLimitPassed(note, answer.file)
    if answer.status in (_NO_MEMORY, _WRITE_FAULT):
        return NoMemory(note)
    kinds = {_DIFFERENT: Different, _USAGE: WrongUse, _UNDECIDED: Undecided}
    return kinds.get(answer.status, RdfcError)(note)


def _call(words: bytes, first: bytes, second: bytes, room: int) -> tuple[int, bytes]:
    """The status, done or unsettled, and the output. `words` are ended by a byte 0 each."""
    answer = _Answer()
    while True:
        out = ctypes.create_string_buffer(room)
        status = _run(
            *_KEYS, words, len(words), first, len(first), second, len(second), out, room, ctypes.byref(answer)
        )
        if status == _NO_ROOM:
            room = answer.needed
        elif status in (_DONE, _UNSETTLED):
            return status, ctypes.string_at(out, answer.written)
        else:
            raise _fail(answer)


def _words(command: str, options: list[str], *files: str) -> bytes:
    words = [command, *options, *files]
    if any("\0" in word for word in words):
        raise WrongUse("an argument has a byte 0")
    return "".join(word + "\0" for word in words).encode("utf-8", "surrogatepass")


def _syntax(syntax: str, base: str | None) -> list[str]:
    if syntax not in ("nquads", "trig"):
        raise WrongUse(f"no syntax: {syntax}")
    if base is not None and syntax != "trig":
        raise WrongUse("a base goes with the syntax trig alone")
    return (["--trig"] if syntax == "trig" else []) + ([] if base is None else ["--base", base])


def _profile(hash: str, related: str, limit: int) -> list[str]:
    return ["--limit", str(limit), "--hash", hash, "--related", related]


def _pairs(output: bytes) -> dict[str, str]:
    return dict(line.split(" ", 1) for line in output.decode("utf-8").splitlines())


def canonize(
    text: str | bytes,
    *,
    syntax: str = "nquads",
    hash: str = "sha256",
    related: str = "each",
    limit: int = DEFAULT_LIMIT,
    base: str | None = None,
) -> Canonical:
    """The canonical form of a text.

    `syntax` is "nquads" or "trig", and `base` the IRI that a reference of TriG is resolved against before the text sets
    a base of its own. `hash` is "sha256" or "sha384". `related` is "each" or "once": how often a blank node that is met
    twice under one related hash stands in its list. `limit` is the most units of work, from 1 to 100,000,000.
    """
    given = _bytes_of(text)
    options = _syntax(syntax, base) + _profile(hash, related, limit)
    status, form = _call(_words("canon", options, "first"), given, b"", 2 * len(given) + 1024)
    return Canonical(form, status == _DONE, given, options, hash)


def identifiers(
    text: str | bytes,
    *,
    syntax: str = "nquads",
    hash: str = "sha256",
    related: str = "each",
    limit: int = DEFAULT_LIMIT,
    base: str | None = None,
) -> dict[str, str]:
    """The canonical identifier of each blank node by its label, as {'_:alice': '_:c14n0'}.

    A node that a text of TriG gives no label is called '[k]', with its number from 0 in the order of their beginnings.
    """
    given = _bytes_of(text)
    words = _words("map", _syntax(syntax, base) + _profile(hash, related, limit), "first")
    return _pairs(_call(words, given, b"", len(given) + 1024)[1])


def isomorphism(
    a: str | bytes,
    b: str | bytes,
    *,
    syntax: str = "nquads",
    limit: int = DEFAULT_LIMIT,
    base: str | None = None,
) -> dict[str, str] | None:
    """A map of the blank nodes of the one text to those of the other that carries the one dataset to the other.

    None where the datasets are not isomorphic. `Undecided` is raised where that was not decided.
    """
    first, second = _bytes_of(a), _bytes_of(b)
    words = _words("compare", _syntax(syntax, base) + ["--limit", str(limit)], "first", "second")
    try:
        return _pairs(_call(words, first, second, len(first) + len(second) + 1024)[1])
    except Different:
        return None


def lean(
    text: str | bytes,
    *,
    syntax: str = "nquads",
    limit: int = DEFAULT_LIMIT,
    base: str | None = None,
) -> bytes:
    """The graph without its redundant part, in N-Quads. `limit` is the most maps that are tried for a component."""
    given = _bytes_of(text)
    words = _words("lean", _syntax(syntax, base) + ["--limit", str(limit)], "first")
    return _call(words, given, b"", 2 * len(given) + 1024)[1]


def pyld_normalize(input_: str | bytes, options: dict[str, Any] | None = None) -> str:
    """`pyld.jsonld.normalize` for N-Quads under the algorithm RDFC-1.0.

    The options are pyld's: 'algorithm' must be 'RDFC-1.0' where it stands, and 'inputFormat' and 'format' be
    'application/n-quads'. JSON-LD is no input: take `pyld.jsonld.to_rdf` first. Raises `WrongUse` for anything else, and
    `RdfcError` where the form is not settled.
    """
    wanted = {"algorithm": "RDFC-1.0", "inputFormat": "application/n-quads", "format": "application/n-quads"}
    for name, value in (options or {}).items():
        if wanted.get(name, value) != value:
            raise WrongUse(f"the option {name} is {value!r} and not {wanted[name]!r}")
    given = _bytes_of(input_)
    status, form = _call(b"canon\0first\0", given, b"", 2 * len(given) + 1024)
    if status != _DONE:
        raise RdfcError("a tie is unsettled")
    return form.decode("utf-8")
