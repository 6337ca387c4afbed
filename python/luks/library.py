"""The library libluks.so.1: its records, its calls, and what is passed to them."""
from __future__ import annotations

import ctypes
import os
from types import TracebackType
from typing import Any, Callable, List, Optional, Tuple, Type, Union

Buffer = Union[bytes, bytearray, memoryview]
"""What a passphrase may be: anything whose items are bytes."""

TO_END = 2**64 - 1
NO_SLOT = NO_NUMBER = 2**32 - 1
NO_SECTOR = 2**64 - 1
KEYSLOTS = 32
NAME = "libluks.so.1"


class Sized(ctypes.Structure):
    """A struct of luks.h whose first field is its size."""

    def __init__(self, *fields: Any, **named: Any) -> None:
        super().__init__(ctypes.sizeof(self), *fields, **named)


def _sized(*fields: Tuple[str, Any]) -> List[Tuple[str, Any]]:
    return [("size", ctypes.c_uint64), *fields]


class ReportRecord(Sized):
    _fields_ = _sized(("version", ctypes.c_uint32), ("copies", ctypes.c_uint32), ("seqid", ctypes.c_uint64), ("areas", ctypes.c_uint64))


class OpenedRecord(Sized):
    _fields_ = _sized(("slot", ctypes.c_uint32), ("key_bytes", ctypes.c_uint32))


class DerivationRecord(Sized):
    _fields_ = _sized(*((name, ctypes.c_uint32) for name in ("kind", "turns", "memory", "lanes")))


class EditRecord(Sized):
    _fields_ = _sized(*((name, ctypes.c_uint32) for name in ("kind", "slot", "by", "to", "iterations", "memory", "older", "by_key")),
                      ("derivation", ctypes.POINTER(DerivationRecord)), ("subsystem", ctypes.c_char_p), ("subsystem_bytes", ctypes.c_uint64))


class GivenRecord(Sized):
    _fields_ = _sized(("sector", ctypes.c_uint64), ("key", ctypes.c_void_p), ("key_bytes", ctypes.c_uint64),
                      *((name, ctypes.c_char_p) for name in ("uuid", "label", "subsystem")),
                      *((name, ctypes.c_uint32) for name in ("cipher", "sector_bytes", "older", "nothing")))


class FieldsRecord(Sized):
    _fields_ = _sized(*((name, ctypes.c_char_p) for name in ("cipher_name", "cipher_mode", "hash")), ("key_bytes", ctypes.c_uint32),
                      ("payload", ctypes.c_uint32))


class VolumeRecord(Sized):
    _fields_ = _sized(("fd", ctypes.c_int), ("lock", ctypes.c_int))


Progress = ctypes.CFUNCTYPE(ctypes.c_int, ctypes.c_void_p, ctypes.c_uint64, ctypes.c_uint64)


def _path() -> str:
    """The file to load: the environment's LIBLUKS, else the library in this folder, as in a wheel, else what the system's loader finds."""
    beside = os.path.join(os.path.dirname(os.path.abspath(__file__)), NAME)
    return os.environ.get("LIBLUKS") or (beside if os.path.exists(beside) else NAME)


def _signatures() -> List[Tuple[str, List[Any], Any]]:
    """Each call that the module uses: its name, its arguments and its answer."""
    number, size, place = ctypes.c_uint32, ctypes.c_size_t, ctypes.c_uint64
    window = [ctypes.c_int, place, place]
    given = [ctypes.c_void_p, size]
    text = [number, ctypes.c_void_p, size]
    tried = [*given, number, number]
    opened = [ctypes.c_void_p, size, ctypes.POINTER(OpenedRecord)]
    random = given
    numbers = [*window, ctypes.c_bool, ctypes.POINTER(GivenRecord), number, number]
    return [
        ("luks_version", [], ctypes.c_char_p),
        ("luks_open_volume", [ctypes.c_char_p, ctypes.c_bool, number, ctypes.POINTER(VolumeRecord)], number),
        ("luks_close_volume", [ctypes.POINTER(VolumeRecord)], None),
        ("luks_check", [*window, ctypes.c_bool, ctypes.POINTER(ReportRecord)], number),
        ("luks_read", [*window, ctypes.c_void_p, size, ctypes.POINTER(place)], number),
        ("luks_token", [*window, number, ctypes.c_void_p, size, ctypes.POINTER(place)], number),
        ("luks_open", [*window, number, *tried, *opened], number),
        ("luks_meets", [*window, *given, number, number, ctypes.POINTER(number)], number),
        ("luks_costs", [number, number, number, number, number, ctypes.POINTER(DerivationRecord)], number),
        ("luks_apply", [*window, ctypes.c_bool, ctypes.POINTER(EditRecord), *given, *given, *random, ctypes.POINTER(number)], number),
        ("luks_format1", [*numbers, *given, *random], number),
        ("luks_format2", [*numbers, ctypes.POINTER(DerivationRecord), *given, number, *random], number),
        ("luks_convert", [*window, ctypes.c_bool, *window, *random], number),
        ("luks_rebuild", [*window, ctypes.c_char_p, *window, *random], number),
        ("luks_rebuild1", [*window, ctypes.POINTER(FieldsRecord), ctypes.c_char_p, *window], number),
        ("luks_rebuild2", [*window, ctypes.c_bool, place, ctypes.c_char_p, *window, *random], number),
        ("luks_find_step", [*window, place, ctypes.POINTER(place), ctypes.POINTER(place)], number),
        ("luks_find_watched", [*window, place, Progress, ctypes.c_void_p, ctypes.POINTER(place)], number),
        ("luks_backup_length", [*window, ctypes.c_bool, ctypes.POINTER(place)], number),
        ("luks_backup", [*window, ctypes.c_bool, *window], number),
        ("luks_restore", [*window, *window, ctypes.c_bool, ctypes.c_bool], number),
        ("luks_compare", [*window, *window, ctypes.c_bool, ctypes.c_void_p, ctypes.POINTER(ctypes.c_bool)], number),
        ("luks_signature", [*window, place, ctypes.POINTER(number)], number),
        ("luks_signature_name", text, size),
        ("luks_fault_name", text, size),
        ("luks_fault_text", [number, *text], size),
    ]


def _loaded() -> ctypes.CDLL:
    path = _path()
    library = ctypes.CDLL(path, use_errno=True)
    for name, takes, gives in _signatures():
        try:
            function = getattr(library, name)
        except AttributeError:
            raise ImportError(f"{path} is of another version than this module: it lacks {name}") from None
        function.argtypes, function.restype = takes, gives
    return library


LIBRARY = _loaded()


def text_of(call: Callable[..., int], *words: int) -> str:
    """The text that a call says of a number, as one line."""
    room = ctypes.create_string_buffer(2048)
    count = call(*words, room, len(room))
    return " ".join(line.strip() for line in room.raw[:count].decode("ascii").split("\n"))


class Secret:
    """A copy of secret bytes, which is overwritten with zeros at the end of its `with`.

    It gives the two arguments for a call: the address and the number of bytes.
    """

    def __init__(self, given: Buffer) -> None:
        view = _items_of(given)
        self.count = len(view)
        self._room = (ctypes.c_ubyte * max(self.count, 1))()
        if self.count:
            memoryview(self._room).cast("B")[: self.count] = view

    def __enter__(self) -> Tuple[Any, int]:
        return self._room, self.count

    def __exit__(self, kind: Optional[Type[BaseException]], value: Optional[BaseException], trace: Optional[TracebackType]) -> None:
        ctypes.memset(self._room, 0, len(self._room))


def _items_of(given: Buffer) -> memoryview:
    """The bytes of a buffer, which has one dimension and items of one byte."""
    view = memoryview(given)
    if view.ndim != 1 or view.itemsize != 1 or view.format.lstrip("@=<>!") not in ("B", "b", "c"):
        raise TypeError("a passphrase is a buffer in one dimension whose items are bytes")
    return view if view.format == "B" else view.cast("B")
