"""The exports of the library, over bytes.

`include/tubrambutan.h` says what a caller owes; each call here meets it but for two duties, which are those of who calls this package:
a call has 512 KiB of the stack left (`threading.stack_size`), and none comes from the forked child of a process with threads
(`multiprocessing` by `fork`).
"""

from __future__ import annotations

import ctypes
import mmap
import pathlib
import struct
from typing import Any, Callable, Iterable, Sequence, Union, cast

from ._refused import Refused
from ._texts import between_zero_bytes

LIST, PROJECT, TABLE = 0, 1, 2
_ANSWERED, _REFUSED = 0, 2
# Room for any line of a refusal, and for most texts but those of tables.
_SIZE = 512
_Room: Any = ctypes.c_char * _SIZE
# Above it room is taken from the system, which gives memory for what is written alone.
_LARGE = 1 << 18
# The length in front of a key, and how many bytes it has.
length_at, LENGTH = struct.Struct(">Q").unpack_from, 8


def _path() -> pathlib.Path:
    """Returns the library of a wheel, or in a clone that of `dist/`."""
    here = pathlib.Path(__file__).resolve()
    beside = here.with_name("libtubrambutan.so")
    return beside if beside.exists() else here.parents[2] / "dist" / beside.name


class _Part(ctypes.Structure):
    _fields_ = [("kind", ctypes.c_uint32), ("size", ctypes.c_size_t), ("group_size", ctypes.c_size_t)]


class _Reply(ctypes.Structure):
    _fields_ = [("status", ctypes.c_uint32), ("answer", ctypes.c_int32), ("size", ctypes.c_size_t)]


# What may stand in a call. An int may not, since ctypes would cut it to 32 bits. (To convert arguments by `argtypes` takes a third of a short call.)
_Argument = Union[bytes, "ctypes.Array[Any]", ctypes.c_size_t, ctypes.c_uint64, ctypes.c_bool]
# (a `CDLL` gives the interpreter's lock back while a call runs)
_LIBRARY = ctypes.CDLL(str(_path()))
# The sizes of short texts and of their room, made once.
_SIZES = tuple(map(ctypes.c_size_t, range(2 * _SIZE)))
_ROOM_SIZE = _SIZES[_SIZE]


def _export(name: str) -> Callable[..., _Reply]:
    """Returns the function of the library with this name."""
    function = getattr(_LIBRARY, name)
    function.restype = _Reply
    return cast(Callable[..., _Reply], function)


_merge = _export("tubrambutan_merge")
_check = _export("tubrambutan_check")
_check_each = _export("tubrambutan_check_each")
_why = _export("tubrambutan_why")
_clashes = _export("tubrambutan_clashes")
_version = _export("tubrambutan_version")
_requirement = _export("tubrambutan_requirement")
_requirement_parts = _export("tubrambutan_requirement_parts")
_name = _export("tubrambutan_name")
_admits = _export("tubrambutan_admits")
_clauses = _export("tubrambutan_clauses")
_admits_each = _export("tubrambutan_admits_each")
_ranges = _export("tubrambutan_ranges")
_within = _export("tubrambutan_within")
_judge = _export("tubrambutan_judge")
_key = _export("tubrambutan_key")
_keys = _export("tubrambutan_keys")
_version_numbers = _export("tubrambutan_version_numbers")
_split = _export("tubrambutan_split")


def _size(size: int) -> ctypes.c_size_t:
    """Returns a size as an argument."""
    return _SIZES[size] if size < len(_SIZES) else ctypes.c_size_t(size)


def _sized(data: bytes) -> tuple[bytes, ctypes.c_size_t]:
    """Returns bytes and their number, as arguments."""
    return data, _size(len(data))


def _refused(reply: Any, room: Any) -> Exception:
    """Returns the exception of a call that isn't answered. The room is larger than any line of a refusal."""
    if reply.status == _REFUSED:
        return Refused(room[: reply.size].decode())
    return AssertionError("inputs that aren't cut as they were joined")


def _large_room(size: int) -> Any:
    """Returns room of this size."""
    if size <= _LARGE:
        return ctypes.create_string_buffer(size)
    try:
        return (ctypes.c_char * size).from_buffer(mmap.mmap(-1, size))
    except OSError as fault:
        raise MemoryError from fault


def _given(function: Callable[..., _Reply], size: int, *arguments: _Argument) -> bytes:
    """Returns the bytes that go out of a call, for which there is room of this size at first, or of the least, which is enough for a refusal."""
    room, room_size = (_Room(), _ROOM_SIZE) if size <= _SIZE else (_large_room(size), ctypes.c_size_t(size))
    while True:
        reply = function(*arguments, room, room_size)
        if reply.status != _ANSWERED:
            raise _refused(reply, room)
        size = reply.size
        if size <= room_size.value:
            given: bytes = room[:size]
            return given
        room, room_size = _large_room(size), ctypes.c_size_t(size)


def _of_one(function: Callable[..., _Reply], data: bytes) -> bytes:
    """Returns the bytes that go out of a call over one text. (Most go into the least room, and a call with no list of arguments is faster.)"""
    room = _Room()
    reply = function(data, _size(len(data)), room, _ROOM_SIZE)
    size = reply.size
    if reply.status == _ANSWERED and size <= _SIZE:
        given: bytes = room[:size]
        return given
    return _given(function, size, *_sized(data))


def _text(function: Callable[..., _Reply], size: int, *arguments: _Argument) -> str:
    """Returns the text that goes out of a call."""
    return _given(function, size, *arguments).decode()


def _answer(function: Callable[..., _Reply], *arguments: _Argument) -> int:
    """Returns the answer of a call."""
    room = _Room()
    reply = function(*arguments, room, _ROOM_SIZE)
    if reply.status != _ANSWERED:
        raise _refused(reply, room)
    return int(reply.answer)


class Inputs:
    """Inputs in one buffer, each with its kind; and the dependency group of the project files that is asked for."""

    def __init__(self, environment: bytes, inputs: Sequence[tuple[int, bytes]], group: bytes = b"") -> None:
        groups = [group if kind == PROJECT else b"" for kind, _ in inputs]
        parts = (_Part * max(len(inputs), 1))(*[_Part(kind, len(data), len(own)) for (kind, data), own in zip(inputs, groups)])
        data = b"".join(own + data for (_, data), own in zip(inputs, groups))
        self._size = len(data)
        self._arguments: tuple[_Argument, ...] = (*_sized(environment), parts, _size(len(inputs)), *_sized(data))

    def merged(self) -> str:
        """Returns the text of the table of the inputs."""
        # (a table that finds no room is made twice, and most are far shorter)
        return _text(_merge, 8 * self._size + 4096, *self._arguments)

    def answer(self, name: bytes, version: bytes, wants_pre_releases: bool) -> int:
        """Returns 1 where a version of the name meets what the inputs demand, 0 where it doesn't, -1 where two URLs are demanded."""
        return _answer(_check, *self._arguments, *_sized(name), *_sized(version), ctypes.c_bool(wants_pre_releases))

    def why(self, name: bytes) -> str:
        """Returns the lines of why the package with a name has its verdict: `NAME VERDICT`; `claim I N TEXT` for each claim, with the number of its input and
        that of its line or text there; and `clash I N TEXT` for each that clashes."""
        return _text(_why, 4096, *self._arguments, *_sized(name))

    def clashes(self) -> str:
        """Returns the same lines of each package whose verdict isn't open."""
        return _text(_clashes, 4096, *self._arguments)

    def answers(self, questions: Sequence[str]) -> bytes:
        """Returns a byte for each question, which is a name, a space and a version: 1 where it meets what the inputs demand, or 3 where it is a pre-release
        too; 0 where it doesn't meet that; 4 where two URLs are demanded; 2 where the question has no name or no version."""
        joined = between_zero_bytes(questions)
        return _given(_check_each, max(len(questions), _SIZE), *self._arguments, *_sized(joined)) if questions else b""


def version_text(version: bytes) -> str:
    """Returns the normal text of a version."""
    return _of_one(_version, version).decode()


def requirement_text(requirement: bytes) -> str:
    """Returns the normal text of a requirement."""
    return _of_one(_requirement, requirement).decode()


def clause_admits(clause: bytes, version: bytes) -> bool:
    """Returns whether a clause admits a version."""
    return _answer(_admits, *_sized(clause), *_sized(version)) == 1


def requirement_parts(requirement: bytes) -> list[str]:
    """Returns the lines of the parts of a requirement: `name N`, `extra E`, `clause C` or `url U`, and `marker M`."""
    return _of_one(_requirement_parts, requirement).decode().split("\n")[:-1]


def name_text(name: bytes) -> str:
    """Returns the normalized text of a name."""
    return _of_one(_name, name).decode()


def clause_texts(clauses: bytes) -> list[str]:
    """Returns the normal text of each clause between commas."""
    return _of_one(_clauses, clauses).decode().split("\n")[:-1]


def admits_each(clauses: bytes, versions: Sequence[str]) -> bytes:
    """Returns a byte for each version: 1 where all clauses admit it, or 3 where it is a pre-release too; 0 where a clause doesn't admit it; 2 where it
    isn't a version."""
    joined = between_zero_bytes(versions)
    return _given(_admits_each, max(len(versions), _SIZE), *_sized(clauses), *_sized(joined)) if versions else b""


def range_texts(clauses: bytes) -> list[str]:
    """Returns the ranges of the versions that all clauses between commas admit but those with `===`, as `before 1 to end`."""
    return _of_one(_ranges, clauses).decode().split("\n")[:-1]


def clauses_within(clauses: bytes, others: bytes) -> bool:
    """Returns whether each version that all clauses between commas admit, all of the others admit too."""
    return _answer(_within, *_sized(clauses), *_sized(others)) == 1


def marker_holds(environment: bytes, marker: bytes) -> bool:
    """Returns whether a marker holds in the environment of a file."""
    return _answer(_judge, *_sized(environment), *_sized(marker)) == 1


def version_key(version: bytes) -> bytes:
    """Returns the key of a version: the order of keys as bytes is that of versions."""
    return _of_one(_key, version)


def version_keys(versions: Sequence[str]) -> bytes:
    """Returns the key of each version, behind its length, which `length_at` reads in `LENGTH` bytes. It is 0 for what isn't a version."""
    joined = between_zero_bytes(versions)
    return _given(_keys, 64 * len(versions) + 10 * len(joined), *_sized(joined)) if versions else b""


def version_numbers(version: bytes) -> tuple[int, ...]:
    """Returns the numbers of a version: epoch; phase and number of a pre-release; 1 and the number of a post-release, and of a developmental release;
    and the release. What isn't there has two zeros."""
    count = 32
    while True:
        numbers, room = (ctypes.c_uint64 * count)(), _Room()
        reply = _version_numbers(*_sized(version), numbers, _size(count), room, _ROOM_SIZE)
        if reply.status != _ANSWERED:
            raise _refused(reply, room)
        if reply.size <= count:
            return tuple(numbers[: reply.size])
        count = reply.size


def line_shards(lines: bytes, count: int) -> Iterable[int]:
    """Returns the shard of each line of a list, which is that of the name on it: a number from 0 to below the count. It is the count itself for a line that is
    blank or a comment."""
    size = lines.count(b"\n") + 1
    numbers, room = (ctypes.c_uint64 * size)(), _Room()
    reply = _split(*_sized(lines), ctypes.c_uint64(count), numbers, _size(size), room, _ROOM_SIZE)
    if reply.status != _ANSWERED:
        raise _refused(reply, room)
    # (their memory is read as it stands, without a list of them)
    return memoryview(numbers).cast("B").cast("Q")
