"""Checks, lists and opens LUKS volumes, edits their keyslots, makes and backs up headers, and finds volumes on a disk: the calls of libluks.

    >>> import luks
    >>> with luks.Volume("disk.img") as volume:
    ...     volume.check()
    ...     volume.unlock(b"secret")
    Report(version=2, copies='in-step', seqid=3, areas=4)
    0

    >>> with luks.Volume("disk.img", writes=True) as volume:
    ...     volume.add(0, b"secret", b"another")
    ...     volume.remove(0, b"another", by=1)
    1

    >>> with luks.Volume("old.img") as source, luks.Volume("header.img", writes=True) as target:
    ...     source.convert(target)

    >>> with luks.Volume("disk.img") as volume:
    ...     volume.backup("disk.backup")
    >>> with luks.Volume("disk.img", writes=True) as volume, luks.Volume("disk.backup") as backup:
    ...     volume.compare(backup).is_current
    ...     volume.restore(backup)
    True

    >>> with luks.Volume("whole-disk.img") as disk:
    ...     list(disk.find())
    [1048576]

If a volume isn't accepted or an edit is refused, `Fault` is raised, which says what it means and what to try next; nothing was written then.
If a passphrase opens nothing, the answer is None, but only if it was tried on each keyslot. Otherwise `Untried` is raised, which says which
keyslots weren't tried, and why. A volume that is opened by its name is locked as `luks` locks it, so an edit by that program waits or is refused.

A passphrase is bytes, a bytearray or a memoryview of bytes. This module writes zeros over its own copies. Two objects stay with the caller: the
passphrase, which can't be overwritten if it is `bytes`, and what `key` returns.

The module loads libluks.so.1 from its own folder, as in a wheel, or else where the system's loader finds it. The environment variable LIBLUKS
names another file.
"""
from __future__ import annotations

import ctypes
import errno
import json
import os
import threading
import time
from dataclasses import dataclass
from types import TracebackType
from typing import Any, Callable, Dict, Iterator, List, Mapping, Optional, Tuple, Type, TypeVar, Union

from .library import (KEYSLOTS, LIBRARY, NO_NUMBER, NO_SECTOR, NO_SLOT, TO_END, Buffer, DerivationRecord, EditRecord, FieldsRecord, GivenRecord,
                      OpenedRecord, ReportRecord, Secret, VolumeRecord, text_of)
from .numbers import Number
from .records import Digest, Header, Keyslot, Segment, Token

__all__ = ["CIPHERS", "Comparison", "Derivation", "Digest", "Fault", "Header", "Keyslot", "Number", "Report", "Segment", "Token", "Unreadable", "Untried", "VERSION", "Volume",
           "explain"]

VERSION = LIBRARY.luks_version().decode("ascii")
"""The version of the library."""

ADD, CHANGE, REMOVE, REPAIR, LABEL, PRIORITY, TOKEN_ADD, TOKEN_REMOVE, UUID, ERASE = range(1, 11)
PRIORITIES = ("ignore", "normal", "prefer")
HASHES = (None, "sha1", "sha256", "sha512")
CIPHERS = ("aes-xts-plain64", "aes-xts-plain", "aes-cbc-essiv:sha256", "aes-cbc-plain64", "aes-cbc-plain")
KINDS = (None, "pbkdf2", "argon2i", "argon2id")
KEY_ROOM = 128
KEEPINGS = ("absent", "same", "older", "missing", "removed", "damaged")
COPIES = (None, "in-step", "first-newer", "second-newer", "first-only", "second-only")
SECTOR = 512
PAUSE = 0.05
"""How many seconds pass between two tries."""
UNTRIED = (Number.OUTSIDE, Number.ARGON2, Number.CIPHER, Number.HASH, Number.KEY_SIZE)
"""The faults for which a passphrase isn't tried on a keyslot."""
OLDER = (Number.CIPHER, Number.HASH)
"""The two of them that a keyslot of an older disk has unless `older` is set."""


def _slot(number: int) -> int:
    if not 0 <= number < 256:
        raise ValueError("the number of a keyslot or a token is 0 to 255")
    return number


def _slot_or_none(number: Optional[int]) -> int:
    return NO_SLOT if number is None else _slot(number)


def _iterations(number: int) -> int:
    if not 0 <= number < 2**32:
        raise ValueError("iterations are a number of 32 bits")
    return number


def _number(number: int) -> int:
    if not 0 <= number < 2**32:
        raise ValueError("costs are numbers of 32 bits")
    return number


def _kib(mib: int) -> int:
    if mib < 0:
        raise ValueError("memory is a number of MiB")
    return min(mib * 1024, 2**32 - 1)


def _text(text: Optional[str]) -> Optional[bytes]:
    """A text's bytes. For C the first 0 ends a text, so it may have none."""
    if text is not None and "\0" in text:
        raise ValueError("a text has no null character")
    return None if text is None else text.encode()


def _known(number: int) -> int:
    """The number as a `Number`, if this module knows it."""
    try:
        return Number(number)
    except ValueError:
        return number


class Fault(Exception):
    """Why a call failed or was refused.

    `number` is the number in luks.h, a `Number` if this module knows it. `name` is the fault as `luks` prints it, without brackets. `meaning` says
    what it means, `place` where it can be, `safe` what is still safe, and `next` what to try next; the last three may be empty. `use` says what the
    disk is used for; only OtherUse has it.
    """

    def __init__(self, number: int, use: Optional[str] = None) -> None:
        self.number, self.use = _known(number), use
        self.name = text_of(LIBRARY.luks_fault_name, number)
        self.meaning, self.place, self.safe, self.next = (text_of(LIBRARY.luks_fault_text, number, part) for part in (1, 2, 3, 4))
        super().__init__(f"{self.name}{f'({use})' if use else ''}: {self.meaning}")

    def __reduce__(self) -> Tuple[Type[Fault], Tuple[int, Optional[str]]]:
        return Fault, (int(self.number), self.use)


class Untried(Exception):
    """The passphrase opens no keyslot that it was tried on, and some keyslots weren't tried.

    `keyslots` has these, each with the fault for which it wasn't tried, or None if its priority is 0: then only `open` tries it, by its number.
    `memory` is how many MiB it takes to try those that need more memory; 0 if none does. `older` says whether some weren't tried for their cipher or
    hash; `older=True` accepts it if it is one of older disks.
    """

    def __init__(self, keyslots: Dict[int, Optional[Fault]], memory: int = 0, older: bool = False) -> None:
        self.keyslots, self.memory, self.older = keyslots, memory, older
        said = ", ".join(f"keyslot {n} by {'priority 0' if fault is None else fault.name}" for n, fault in sorted(keyslots.items()))
        more = [*([f"memory={memory} lets Argon2 be tried"] if memory else []), *(["older=True accepts those of older disks"] if older else [])]
        super().__init__(f"no keyslot opens that was tried; not tried: {said}" + (f" ({'; '.join(more)})" if more else ""))

    def __reduce__(self) -> Tuple[Type[Untried], Tuple[Dict[int, Optional[Fault]], int, bool]]:
        return Untried, (self.keyslots, self.memory, self.older)


class Unreadable(OSError):
    """Sectors of the disk, of 512 bytes, couldn't be read and were passed over. `sectors` has the place of each."""

    def __init__(self, sectors: List[int]) -> None:
        self.sectors = sectors
        super().__init__(errno.EIO, f"sectors that couldn't be read were passed over: {', '.join(map(str, sectors))}")

    def __reduce__(self) -> Tuple[Type[Unreadable], Tuple[List[int]]]:
        return Unreadable, (self.sectors,)


def explain(number: int) -> Fault:
    """Explains a number of luks.h, as the exception that it raises."""
    return Fault(number)


@dataclass(frozen=True)
class Report:
    """What `check` says of an accepted volume."""

    version: int
    """1 or 2."""
    copies: Optional[str]
    """How the two copies of a LUKS2 header compare: in-step, first-newer, second-newer, first-only or second-only. None for LUKS1."""
    seqid: Optional[int]
    """The sequence number of the copy that counts. None for LUKS1."""
    areas: int
    """How many areas it has: headers, keyslots, segments."""


@dataclass(frozen=True)
class Derivation:
    """How the key of a new keyslot is derived from its passphrase.

        >>> Derivation("argon2id", passes=4, memory=1024 * 1024, lanes=4)
        >>> Derivation("pbkdf2", iterations=1000000)

    If the call allows less memory, or if a cost is outside its bounds, the fault is Argon2. LUKS1 has only pbkdf2.
    """

    kind: str
    """pbkdf2, argon2i or argon2id."""
    iterations: int = 100000
    """pbkdf2: at least 1000."""
    passes: int = 4
    """Argon2: at least one."""
    memory: int = 1024 * 1024
    """Argon2: in KiB, at least 8 for each lane."""
    lanes: int = 4
    """Argon2: 1 to 2^24 - 1."""

    @classmethod
    def timed(cls, kind: str, milliseconds: int, memory: int = 1024 * 1024, lanes: int = 4, hash: str = "sha256") -> Derivation:
        """Measures which costs take about `milliseconds` on this machine.

        For pbkdf2 these are the iterations by this hash, at least 1000. For Argon2 these are the passes, at least 4, over `memory` KiB; if 4 passes
        take longer, it is less memory, but at least 64 MiB.
        """
        if kind not in KINDS[1:] or hash not in HASHES[1:]:
            raise ValueError("a derivation is pbkdf2, argon2i or argon2id, a hash sha1, sha256 or sha512")
        chosen = DerivationRecord()
        answer = LIBRARY.luks_costs(KINDS.index(kind), HASHES.index(hash), _number(milliseconds), _number(memory), _number(lanes), ctypes.byref(chosen))
        Volume._done(answer)
        if kind == "pbkdf2":
            return cls(kind, iterations=chosen.turns)
        return cls(kind, passes=chosen.turns, memory=chosen.memory, lanes=chosen.lanes)

    def _numbers(self) -> DerivationRecord:
        if self.kind not in KINDS[1:]:
            raise ValueError("a derivation is pbkdf2, argon2i or argon2id")
        if self.kind == "pbkdf2":
            return DerivationRecord(KINDS.index(self.kind), _number(self.iterations))
        return DerivationRecord(KINDS.index(self.kind), *map(_number, (self.passes, self.memory, self.lanes)))


def _choice(derivation: Optional[Derivation]) -> Any:
    """The argument for a call that takes a derivation or none."""
    return None if derivation is None else ctypes.pointer(derivation._numbers())


@dataclass(frozen=True)
class Comparison:
    """How a backup compares to a volume."""

    is_same_key: bool
    """Whether a digest of the backup's volume key is one of the volume's."""
    keyslots: Dict[int, str]
    """What became of each keyslot, by its number: same, older (it was made anew since), missing (only the volume has it), removed (only the
    backup has it) or damaged (their key areas differ)."""

    @property
    def is_current(self) -> bool:
        """Whether restoring the backup would change no keyslot."""
        return all(state == "same" for state in self.keyslots.values())


T = TypeVar("T")


def _apart(call: Callable[[], T]) -> T:
    """Makes the call on another thread, and returns its result. Python looks for signals only between two calls, so this lets KeyboardInterrupt end
    the wait at once; the thread then goes on to its end."""
    given: List[T] = []
    thrown: List[BaseException] = []

    def run() -> None:
        try:
            given.append(call())
        except BaseException as fault:
            thrown.append(fault)

    thread = threading.Thread(target=run, daemon=True)
    thread.start()
    while thread.is_alive():
        thread.join(PAUSE)
    if thrown:
        raise thrown[0]
    return given[0]


class Volume:
    """A LUKS volume: `length` bytes of a file or block device from `offset` on, or all that follow.

    Give its name, and it is opened and locked until `close`, for reading, or with `writes` for reading and writing. Or give a descriptor that you
    have opened and locked. If another program edits the volume (with `writes`: uses it), the name is tried for `wait` seconds, and then raises
    BlockingIOError. A folder, a pipe and so on raise OSError. `is_detached` says that the volume is only a header, and its data is on another device.

    If only one copy of a LUKS2 header is sound, and something else is in the place of the other by now, an edit is refused by OtherUse, unless
    `over` allows it to overwrite that.

    Use a volume on one thread at a time. Two threads may use two volumes, also of one file that is only read.
    """

    def __init__(self, volume: Union[str, os.PathLike[str], int], offset: int = 0, length: Optional[int] = None, *, writes: bool = False,
                 is_detached: bool = False, over: bool = False, wait: float = 3) -> None:
        self._opened = VolumeRecord(-1, -1)
        if not 0 <= offset <= TO_END or length is not None and not 0 <= length <= TO_END:
            raise ValueError("offset and length are numbers of bytes")
        self._window = (offset, TO_END if length is None else length)
        self._is_detached, self._over = is_detached, over
        if isinstance(volume, int):
            self._fd = volume
        else:
            self._open(os.fspath(volume), writes, wait)
            self._fd = self._opened.fd

    def _open(self, name: str, writes: bool, wait: float) -> None:
        """Opens the file of this name and locks it. Python looks for signals between two tries."""
        end = time.monotonic() + wait
        while True:
            answer = LIBRARY.luks_open_volume(os.fsencode(name), writes, 0, ctypes.byref(self._opened))
            if answer != Number.BUSY:
                break
            if time.monotonic() >= end:
                raise BlockingIOError(errno.EWOULDBLOCK, os.strerror(errno.EWOULDBLOCK), name)
            time.sleep(PAUSE)
        if answer == Number.DEVICE:
            number = ctypes.get_errno() or errno.EIO
            raise OSError(number, os.strerror(number), name)
        self._done(answer)

    def __enter__(self) -> Volume:
        return self

    def __exit__(self, kind: Optional[Type[BaseException]], value: Optional[BaseException], trace: Optional[TracebackType]) -> None:
        self.close()

    def __del__(self) -> None:
        self.close()

    def close(self) -> None:
        """Closes the file if this object opened it, which releases its locks."""
        if self._opened.fd >= 0:
            LIBRARY.luks_close_volume(ctypes.byref(self._opened))
            self._fd = -1

    def check(self, is_detached: bool = False) -> Report:
        """Checks that the volume is well formed, with its areas; if it isn't, raises its first fault.

        `is_detached` says for this call, as it does for the volume, that this is only a header, and its data is on another device.
        """
        report = ReportRecord()
        self._done(LIBRARY.luks_check(self._fd, *self._window, is_detached or self._is_detached, ctypes.byref(report)))
        if report.version == 1:
            return Report(1, None, None, report.areas)
        return Report(report.version, COPIES[report.copies], report.seqid, report.areas)

    def show(self) -> Dict[str, Any]:
        """What the header says: the object that `luks show --json` prints. Areas may be in impossible places, which `check` tells."""
        return self._object(LIBRARY.luks_read)

    def token(self, number: int) -> Dict[str, Any]:
        """LUKS2: the token of this number with all its members, in the form for `add_token`."""
        return self._object(LIBRARY.luks_token, _slot(number))

    def header(self) -> Header:
        """The header as records: its keyslots, segments, digests and tokens."""
        return Header.of(self.show())

    def unlock(self, passphrase: Buffer, memory: int = 0, older: bool = False) -> Optional[int]:
        """The first keyslot that the passphrase opens, or None if it was tried on all that are in use and opens none.

        A keyslot isn't tried if Argon2 takes more than `memory` MiB for it, if its cipher or hash is one of older disks, such as
        aes-cbc-essiv:sha256 or ripemd160, unless `older` accepts them, or if its priority is 0. If none opens and some weren't tried, `Untried` is
        raised and says which. A keyslot that can't be read is passed over; if none of the others opens, its OSError is raised. KeyboardInterrupt
        ends the call at once; another thread completes what was begun, and holds the volume's lock until then.
        """
        found = self._unlocked(passphrase, memory, older, 0)
        return None if found is None else found[0]

    def open(self, slot: int, passphrase: Buffer, memory: int = 0, older: bool = False) -> bool:
        """Whether the passphrase opens this keyslot. If it can't be tried, the fault is raised."""
        return self._tried(_slot(slot), passphrase, memory, older, 0) is not None

    def key(self, passphrase: Buffer, memory: int = 0, older: bool = False) -> Optional[bytes]:
        """The volume key, from the keyslot that `unlock` finds. It is secret, and stays in Python's memory."""
        found = self._unlocked(passphrase, memory, older, KEY_ROOM)
        return None if found is None else found[1]

    def meets(self, key: Buffer, digest: Optional[int] = None, older: bool = False) -> Optional[int]:
        """The number of the digest if the key meets it, else None. Without `digest` it is the digest of the volume key.

        What `key` returns meets it. A key whose length isn't that of the volume's key raises KeyLength. A digest that isn't there raises
        NoSuchDigest.
        """
        judged = ctypes.c_uint32(0)
        with Secret(key) as words:
            answer = LIBRARY.luks_meets(self._fd, *self._window, *words, NO_NUMBER if digest is None else _slot(digest), bool(older), ctypes.byref(judged))
        if answer == Number.SHUT:
            return None
        self._done(answer)
        return judged.value

    def add(self, by: Optional[int], passphrase: Buffer, added: Buffer, to: Optional[int] = None, iterations: int = 100000, memory: int = 0,
            derivation: Optional[Derivation] = None, older: bool = False, *, is_key: bool = False) -> int:
        """Adds the keyslot `to`, or the lowest free one, and returns its number.

        The passphrase `added` then opens in it what `passphrase` opens in the keyslot `by`. If `by` is None, that is the keyslot that `unlock`
        finds; if it finds none, Locked is raised.

        The new keyslot derives by `derivation`. Without one it derives as the keyslot `by` does: by Argon2 with the same costs, or by PBKDF2 with
        `iterations`. Argon2 may take `memory` MiB for either keyslot. With `older` the keyslot `by` may be one of an older disk, and the new one has
        the same cipher and hash.

        With `is_key`, `passphrase` is the volume key. If `by` names a keyslot, the key is that keyslot's, and its key material isn't read, so it may
        be destroyed. If `by` is None, no keyslot is needed.
        """
        named = _slot_or_none(by) if is_key else _slot(self._opener(by, passphrase, memory, older, is_key))
        edit = EditRecord(kind=ADD, by=named, to=_slot_or_none(to), iterations=_iterations(iterations), derivation=_choice(derivation))
        slot = self._edited(edit, passphrase, added, memory, older, is_key)
        assert slot is not None
        return slot

    def change(self, slot: Optional[int], passphrase: Buffer, changed: Buffer, iterations: int = 100000, memory: int = 0,
               derivation: Optional[Derivation] = None, older: bool = False, *, is_key: bool = False) -> int:
        """Replaces the passphrase of the keyslot by `changed`, and returns its number, which is a new one for LUKS1. If `slot` is None, it is the
        keyslot that `unlock` finds.

        From then on the keyslot derives by `derivation`, or without one as before. Argon2 may take `memory` MiB. With `older` it may be a keyslot of
        an older disk, which keeps its cipher and hash. `is_key` is described at `add`.
        """
        slot = self._opener(slot, passphrase, memory, older, is_key)
        edit = EditRecord(kind=CHANGE, slot=_slot(slot), iterations=_iterations(iterations), derivation=_choice(derivation))
        made = self._edited(edit, passphrase, changed, memory, older, is_key)
        assert made is not None
        return made

    def remove(self, slot: int, passphrase: Buffer, by: Optional[int] = None, memory: int = 0, older: bool = False, *, is_key: bool = False) -> None:
        """Removes the keyslot and wipes its area, by its own passphrase or by that of the keyslot `by`. `is_key` is described at `add`."""
        self._edited(EditRecord(kind=REMOVE, slot=_slot(slot), by=_slot_or_none(by)), passphrase, b"", memory, older, is_key)

    def erase(self) -> None:
        """Removes every keyslot and wipes its area. No passphrase opens the volume afterwards; only a header backup or the volume key does."""
        self._edited(EditRecord(kind=ERASE), b"", b"")

    def repair(self) -> None:
        """LUKS2: writes both copies of the header anew from the one that counts. LUKS1: nothing."""
        self._edited(EditRecord(kind=REPAIR), b"", b"")

    def label(self, text: str, subsystem: Optional[str] = None) -> None:
        """LUKS2: sets the label and, if it is given, the subsystem, each at most 47 bytes of printable ASCII."""
        own = None if subsystem is None else subsystem.encode()
        self._edited(EditRecord(kind=LABEL, subsystem=own, subsystem_bytes=len(own or b"")), b"", text.encode())

    def set_uuid(self, text: Optional[str] = None) -> None:
        """Sets the uuid: 32 hexadecimal digits with hyphens at places 8, 13, 18 and 23. Without a text it is a new one of random bytes."""
        self._edited(EditRecord(kind=UUID), b"", (text or "").encode())

    def set_priority(self, slot: int, priority: str) -> None:
        """LUKS2: sets when the keyslot is tried if none is named: `ignore`, not at all; `normal`; `prefer`, before the others."""
        if priority not in PRIORITIES:
            raise ValueError(f"a priority is one of {', '.join(PRIORITIES)}")
        self._edited(EditRecord(kind=PRIORITY, slot=_slot(slot), to=PRIORITIES.index(priority)), b"", b"")

    def add_token(self, token: Union[str, Mapping[str, Any]], to: Optional[int] = None) -> None:
        """LUKS2: adds a token, a JSON object or its text, with the number `to` or the lowest free one.

        It has a `type`, `keyslots`, a list of their numbers as texts, and any other members, which are kept.
        """
        text = token if isinstance(token, str) else json.dumps(token)
        self._edited(EditRecord(kind=TOKEN_ADD, to=_slot_or_none(to)), b"", text.encode())

    def remove_token(self, number: int) -> None:
        """LUKS2: removes the token of this number."""
        self._edited(EditRecord(kind=TOKEN_REMOVE, to=_slot(number)), b"", b"")

    def format(self, version: int, passphrase: Buffer, hash: str = "sha256", iterations: int = 100000, force: bool = False, *,
               derivation: Optional[Derivation] = None, memory: int = 0, key: Optional[Buffer] = None, payload: Optional[int] = None,
               uuid: Optional[str] = None, label: Optional[str] = None, subsystem: Optional[str] = None, cipher: str = "aes-xts-plain64",
               key_bytes: Optional[int] = None, sector_size: int = 512, older: bool = False) -> None:
        """Makes a LUKS1 or LUKS2 volume whose keyslot 0 opens by the passphrase.

        `key` is its volume key; without it, random bytes. `payload` is the sector of 512 bytes at which its data begins; no byte of the data changes.
        `uuid` is the text of its uuid. LUKS2 has a `label` and a `subsystem`. Payload, KeyLength, Uuid and BadLabel may refuse these.

        `cipher` is one of CIPHERS. Those of older disks need `older`, else Cipher refuses them. `key_bytes` is the length of the volume key: by
        default that of `key`, else 64, or 32 with a cipher of older disks. `sector_size` is the length of the data's sectors, for LUKS2 up to 4096
        (SectorSize, Uneven).

        The keyslot of LUKS2 derives by `derivation`, Argon2 with up to `memory` MiB; without one by PBKDF2, like the digest.

        Unless you `force` it, the call is refused by OtherVolume if a LUKS header is there that is accepted, at least as a detached one, by
        Reencrypting during a reencryption, and by OtherUse if `signature` shows another use of the disk.
        """
        if version not in (1, 2) or hash not in HASHES[1:]:
            raise ValueError("a version is 1 or 2, a hash sha1, sha256 or sha512")
        if version == 1 and derivation is not None:
            raise ValueError("a derivation is chosen for LUKS2")
        if payload is not None and not 0 <= payload < NO_SECTOR:
            raise ValueError("a payload's sector is a number of 64 bits")
        if cipher not in CIPHERS or not 0 < sector_size < 1 << 32:
            raise ValueError("a cipher is one of CIPHERS, and a sector has some bytes")
        if key_bytes is not None and not 0 < key_bytes < 1 << 32:
            raise ValueError("a key's length is a number of 32 bits")
        choice = _choice(derivation)
        if not force:
            self._refuse_standing(None)
        with Secret(passphrase) as words, Secret(b"" if key is None else key) as (key_at, key_count):
            if key is not None and key_bytes not in (None, key_count):
                raise ValueError("the key hasn't so many bytes")
            given = GivenRecord(NO_SECTOR if payload is None else payload, None if key is None else ctypes.addressof(key_at), key_bytes or key_count,
                                *map(_text, (uuid, label, subsystem)), CIPHERS.index(cipher) + 1, sector_size, older)
            made = (self._fd, *self._window, self._is_detached, ctypes.byref(given), HASHES.index(hash), _iterations(iterations))
            if version == 1:
                answer = LIBRARY.luks_format1(*made, *words, None, 0)
            else:
                answer = LIBRARY.luks_format2(*made, choice, *words, _kib(memory), None, 0)
        self._done(answer)

    def signature(self, within: Optional[int] = None) -> Optional[str]:
        """What else the disk is used for, by the signatures in its first `within` bytes, or in all: GPT, MBR, ext, swap and so on, or None.

        It doesn't look for LUKS; `check` does.
        """
        shows, room = ctypes.c_uint32(0), ctypes.create_string_buffer(32)
        self._done(LIBRARY.luks_signature(self._fd, *self._window, TO_END if within is None else within, ctypes.byref(shows)))
        count = LIBRARY.luks_signature_name(shows.value, room, len(room))
        return room.raw[:count].decode("ascii") if count else None

    def find(self, start: int = 0, progress: Optional[Callable[[int], object]] = None) -> Iterator[int]:
        """The places at which LUKS volumes begin on this disk, from `start` on and in ascending order, in bytes from its own offset.

        A volume is known by its header (for LUKS1 also without its magic), its second copy, or whole metadata; `check` of a volume at that offset
        says more. `progress` is called before each block, with the place up to which the search is done. What it raises, and KeyboardInterrupt, ends
        the search there; another thread completes the block. A sector that can't be read is passed over, and `Unreadable` is raised at the end.
        """
        if not 0 <= start <= TO_END:
            raise ValueError("a place is a number of bytes")
        place = ctypes.c_uint64(start)
        unread: List[int] = []
        while self._next(place, progress, unread):
            yield place.value
            place.value += 1
        if unread:
            raise Unreadable(unread)

    def _next(self, place: ctypes.c_uint64, progress: Optional[Callable[[int], object]], unread: List[int]) -> bool:
        """Searches block by block. If there is another such place, puts it into `place`, and returns True."""
        reached = ctypes.c_uint64(place.value)
        while True:
            if progress is not None:
                progress(reached.value)
            answer, place.value, reached.value = self._stepped(reached.value)
            if answer == Number.DEVICE and reached.value != TO_END:
                unread.append(reached.value - SECTOR)
                continue
            self._done(answer)
            if place.value != TO_END or reached.value == TO_END:
                return place.value != TO_END

    def _stepped(self, start: int) -> Tuple[int, int, int]:
        """Searches one block. Returns the answer's number, the place that was found, and where the next block begins."""
        fd = os.dup(self._fd)

        def stepped() -> Tuple[int, int, int, int]:
            place, reached = ctypes.c_uint64(start), ctypes.c_uint64(start)
            try:
                answer = LIBRARY.luks_find_step(fd, *self._window, start, ctypes.byref(place), ctypes.byref(reached))
                return answer, ctypes.get_errno(), place.value, reached.value
            finally:
                os.close(fd)

        answer, number, place, reached = _apart(stepped)
        ctypes.set_errno(number)
        return answer, place, reached

    def backup(self, name: str | os.PathLike[str]) -> None:
        """Writes a backup of the header and of the key areas in use to a new file of this name, which only its owner may read.

        FileExistsError is raised if there is such a file. If the backup fails, its file is removed again.
        """
        length = ctypes.c_uint64(0)
        self._done(LIBRARY.luks_backup_length(self._fd, *self._window, self._is_detached, ctypes.byref(length)))
        fd = os.open(name, os.O_RDWR | os.O_CREAT | os.O_EXCL | os.O_CLOEXEC, 0o600)
        try:
            os.ftruncate(fd, length.value)
            self._done(LIBRARY.luks_backup(self._fd, *self._window, self._is_detached, fd, 0, TO_END))
        except BaseException:
            os.unlink(name)
            raise
        finally:
            os.close(fd)

    def restore(self, backup: Volume, *, over_any: bool = False, force: bool = False, over_reencryption: bool = False) -> None:
        """Puts the header and the key areas of a backup, which is only read, onto this volume.

        The call is refused by OtherVolume if the header that counts here is another volume's, unless you allow `over_any`. It is refused by OtherUse
        if no header of the same volume counts and `signature` shows another use of the disk. `force` allows both. It is refused by Reencrypting if
        the metadata here tells of a reencryption, unless you allow `over_reencryption`.
        """
        if not over_reencryption and self._is_reencrypting():
            raise Fault(Number.REENCRYPTING)
        if not force and not self._is_of(backup):
            self._refuse_use(self.signature())
        over_any = over_any or force
        self._done(LIBRARY.luks_restore(backup._fd, *backup._window, self._fd, *self._window, self._is_detached, over_any))

    def compare(self, backup: Volume) -> Comparison:
        """Compares a backup to this volume, keyslot by keyslot. Nothing is written."""
        keyslots, is_same_key = ctypes.create_string_buffer(KEYSLOTS), ctypes.c_bool(False)
        self._done(LIBRARY.luks_compare(backup._fd, *backup._window, self._fd, *self._window, self._is_detached, keyslots, ctypes.byref(is_same_key)))
        return Comparison(is_same_key.value, {n: KEEPINGS[state] for n, state in enumerate(keyslots.raw) if state})

    def convert(self, target: Volume, *, force: bool = False) -> None:
        """Writes to the start of the target a LUKS2 header for this LUKS1 volume, with which each enabled keyslot opens as before.

        This volume is only read. If it `is_detached`, its data is elsewhere. The target is another file, of 16 MiB or more. Unless you `force` it,
        the call is refused by OtherVolume if an accepted LUKS header with another uuid is there, by Reencrypting during a reencryption, and by
        OtherUse if the target's `signature` shows another use.
        """
        if not force:
            target._refuse_standing(self._uuid())
        self._done(LIBRARY.luks_convert(self._fd, *self._window, self._is_detached, target._fd, *target._window, None, 0))

    def rebuild(self, target: Volume, uuid: Optional[str] = None, *, second: bool = False, size: int = 0, cipher: Optional[str] = None,
                hash: Optional[str] = None, key_bytes: Optional[int] = None, payload: Optional[int] = None, force: bool = False) -> None:
        """Writes to the start of the target a header made from what is still whole in this volume, which is only read.

        For LUKS2 that is metadata that a checksum vouches for, or else the first that is whole, if no header counts. With `second` it is that of the
        second copy, with `size` that of a copy of so many bytes, even if a header counts. For LUKS1 it is the fields and keyslots that are left.
        `cipher` (such as aes-xts-plain64), `hash`, `key_bytes` and `payload` (the sector where the data begins) say that LUKS1 is meant; they and
        `uuid` win over what is there. Without these options LUKS2 comes first. The target is refused as by `convert`.
        """
        fields = (cipher, hash, key_bytes, payload)
        if (second or size) and fields != (None,) * 4:
            raise ValueError("second and size are of LUKS2, cipher, hash, key_bytes and payload of LUKS1")
        if not force:
            target._refuse_standing(self._uuid())
        to, text = (target._fd, *target._window), _text(uuid)
        if second or size:
            answer = LIBRARY.luks_rebuild2(self._fd, *self._window, second, size, text, *to, None, 0)
        elif fields != (None,) * 4:
            name, _, mode = (cipher or "").partition("-")
            given = FieldsRecord(_text(name or None), _text(mode or None), _text(hash),
                            NO_NUMBER if key_bytes is None else key_bytes, NO_NUMBER if payload is None else payload)
            answer = LIBRARY.luks_rebuild1(self._fd, *self._window, ctypes.byref(given), text, *to)
        else:
            answer = LIBRARY.luks_rebuild(self._fd, *self._window, text, *to, None, 0)
        self._done(answer)

    def _refuse_use(self, use: Optional[str]) -> None:
        if use is not None:
            raise Fault(Number.OTHER_USE, use)

    def _uuid(self, needs_check: bool = False) -> Optional[str]:
        """The uuid of the header that counts, where it can be shown, or where it is to be accepted too."""
        try:
            if needs_check:
                self.check(is_detached=True)
            return str(self.show()["uuid"])
        except Fault as fault:
            if fault.number in (Number.MEMORY, Number.DEVICE):
                raise
            return None

    def _refuse_standing(self, uuid: Optional[str]) -> None:
        """Refuses to write over an accepted LUKS header of another uuid, over a reencryption, and over another use of the disk."""
        standing = self._uuid(needs_check=True)
        if standing is not None and standing != uuid:
            raise Fault(Number.OTHER_VOLUME)
        if self._is_reencrypting():
            raise Fault(Number.REENCRYPTING)
        self._refuse_use(self.signature())

    def _is_of(self, backup: Volume) -> bool:
        """Whether an accepted header of the backup's volume stands here."""
        try:
            self.compare(backup)
        except Fault as fault:
            if fault.number in (Number.MEMORY, Number.DEVICE):
                raise
            return False
        return True

    def _is_reencrypting(self) -> bool:
        """Whether metadata at one of the places of a LUKS2 header tells of a reencryption."""
        return any(self._tells_reencryption(place) for place in (0, *(2**n for n in range(14, 23))))

    def _tells_reencryption(self, place: int) -> bool:
        start, length = self._window[0] + place + 4096, max(0, min(2**22, self._window[1] - place - 4096))
        text = os.pread(self._fd, length, start).partition(b"\0")[0]
        if not text.startswith(b"{"):
            return False
        try:
            metadata = json.loads(text)
            keyslots = metadata.get("keyslots", {}).values()
            mandatory = metadata.get("config", {}).get("requirements", {}).get("mandatory", [])
            return (any(keyslot.get("type") == "reencrypt" for keyslot in keyslots)
                    or any(str(name).startswith(("online-reencrypt", "offline-reencrypt")) for name in mandatory))
        except (ValueError, AttributeError, TypeError):
            return False

    def _refuse_other_use(self) -> None:
        """Refuses to overwrite another use of the disk in the place of an unsound copy."""
        try:
            shown = self.show()
        except Fault:
            return
        if shown.get("copies") in ("first-only", "second-only"):
            places = 1 if shown["copies"] == "second-only" else 2
            self._refuse_use(self.signature(places * shown["sizes"]["header"]))

    def _opener(self, slot: Optional[int], passphrase: Buffer, memory: int, older: bool, is_key: bool) -> int:
        """The keyslot that an edit opens: the one that is named, or the first that the passphrase opens."""
        if slot is not None:
            return slot
        if is_key:
            raise ValueError("a change by the key names its keyslot")
        found = self.unlock(passphrase, memory, older)
        if found is None:
            raise Fault(Number.LOCKED)
        return found

    def _object(self, call: Callable[..., int], *words: int) -> Dict[str, Any]:
        """The JSON object whose text a call puts into a buffer."""
        bytes_ = ctypes.c_uint64(1 << 16)
        while True:
            room = bytes_.value
            text = ctypes.create_string_buffer(room)
            answer = call(self._fd, *self._window, *words, text, room, ctypes.byref(bytes_))
            if answer != Number.ROOM:
                break
        self._done(answer)
        shown: Dict[str, Any] = json.loads(text.raw[: bytes_.value])
        return shown

    def _edited(self, edit: EditRecord, passphrase: Buffer, text: Buffer, memory: int = 0, older: bool = False, is_key: bool = False) -> Optional[int]:
        edit.memory, edit.older, edit.by_key = _kib(memory), bool(older), bool(is_key)
        if not self._over:
            self._refuse_other_use()
        slot = ctypes.c_uint32(NO_SLOT)
        with Secret(passphrase) as old, Secret(text) as new:
            self._done(LIBRARY.luks_apply(self._fd, *self._window, self._is_detached, ctypes.byref(edit), *old, *new, None, 0, ctypes.byref(slot)))
        return None if slot.value == NO_SLOT else slot.value

    def _tried(self, slot: int, passphrase: Buffer, memory: int, older: bool, room: int) -> Optional[Tuple[int, bytes]]:
        """The keyslot and its key if the passphrase opens it, else None."""
        limit, fd = _kib(memory), os.dup(self._fd)

        def tried() -> Tuple[int, int, bytes]:
            opened = OpenedRecord()
            try:
                with Secret(passphrase) as words, Secret(bytes(room)) as (key, _):
                    answer = LIBRARY.luks_open(fd, *self._window, slot, *words, limit, bool(older), key, room, ctypes.byref(opened))
                    return answer, ctypes.get_errno(), bytes(key[: min(room, opened.key_bytes)])
            finally:
                os.close(fd)

        answer, number, found = _apart(tried)
        ctypes.set_errno(number)
        if answer == Number.SHUT:
            return None
        self._done(answer)
        return slot, found

    def _unlocked(self, passphrase: Buffer, memory: int, older: bool, room: int) -> Optional[Tuple[int, bytes]]:
        """The first keyslot that opens, and its key. For LUKS2 those of priority 2 come before those of priority 1."""
        keyslots = [it for it in self.header().keyslots if it.is_enabled]
        untried: Dict[int, Optional[Fault]] = {it.number: None for it in keyslots if it.priority == 0}
        unread: Optional[OSError] = None
        for keyslot in sorted((it for it in keyslots if it.priority > 0), key=lambda it: (-it.priority, it.number)):
            try:
                found = self._tried(keyslot.number, passphrase, memory, older, room)
            except Fault as fault:
                if fault.number not in UNTRIED:
                    raise
                untried[keyslot.number] = fault
                continue
            except OSError as fault:
                unread = fault
                continue
            if found is not None:
                return found
        if unread is not None:
            raise unread
        if untried:
            raise Untried(untried, self._wanted(keyslots, untried), not older and any(fault is not None and fault.number in OLDER for fault in untried.values()))
        return None

    @staticmethod
    def _wanted(keyslots: List[Keyslot], untried: Dict[int, Optional[Fault]]) -> int:
        """How many MiB it takes to try the keyslots that were refused by Argon2."""
        by_memory = [n for n, fault in untried.items() if fault is not None and fault.number == Number.ARGON2]
        return max((-(-(it.memory or 0) // 1024) for it in keyslots if it.number in by_memory), default=0)

    @staticmethod
    def _done(answer: int) -> None:
        if answer == Number.DEVICE:
            number = ctypes.get_errno() or errno.EIO
            raise OSError(number, os.strerror(number))
        if answer == Number.MEMORY:
            raise MemoryError
        if answer != Number.DONE:
            raise Fault(answer)
