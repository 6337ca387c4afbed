"""What a header says, as records."""
from __future__ import annotations

import base64
from dataclasses import dataclass
from typing import Any, Mapping, Optional, Tuple

__all__ = ["Digest", "Header", "Keyslot", "Segment", "Token"]


@dataclass(frozen=True)
class Keyslot:
    """A keyslot: for LUKS2 one in the metadata, for LUKS1 one of the eight."""

    number: int
    is_enabled: bool
    """Whether it is in use. A LUKS1 keyslot may not be; then only its key area, its stripes and its digest are known."""
    cipher: str
    """The cipher of its key area, such as aes-xts-plain64."""
    area_key_bytes: int
    offset: int
    """The start of its key area, in bytes from the volume's start."""
    size: int
    stripes: int
    key_bytes: Optional[int] = None
    """The length of its volume key."""
    kdf: Optional[str] = None
    """pbkdf2, argon2i or argon2id."""
    hash: Optional[str] = None
    """Only for pbkdf2."""
    iterations: Optional[int] = None
    """Only for pbkdf2."""
    passes: Optional[int] = None
    """Only for Argon2."""
    memory: Optional[int] = None
    """Only for Argon2: in KiB."""
    lanes: Optional[int] = None
    """Only for Argon2."""
    salt: Optional[bytes] = None
    priority: int = 1
    """For LUKS2: 2 is tried first, 0 only if the keyslot is named."""
    digest: Optional[int] = None
    """The digest of its volume key. LUKS1 has only one."""


@dataclass(frozen=True)
class Segment:
    """A part of the data. LUKS1 has only one."""

    number: int
    kind: str
    """crypt or linear."""
    offset: int
    """Where it begins, in bytes from the start of the device that has the data."""
    size: Optional[int]
    """In bytes; None means up to the device's end."""
    cipher: Optional[str] = None
    sector_size: Optional[int] = None
    iv_tweak: Optional[int] = None


@dataclass(frozen=True)
class Digest:
    """Tells whether a volume key is the right one. LUKS1 has only one."""

    number: int
    kind: str
    hash: str
    iterations: int
    salt: bytes
    value: bytes
    keyslots: Tuple[int, ...]
    segments: Tuple[int, ...]


@dataclass(frozen=True)
class Token:
    """For LUKS2: how another program gets a passphrase of these keyslots."""

    number: int
    kind: str
    keyslots: Tuple[int, ...]


@dataclass(frozen=True)
class Header:
    """What the header that counts says."""

    version: int
    """1 or 2."""
    uuid: str
    label: str
    """Only for LUKS2, else empty."""
    keyslots: Tuple[Keyslot, ...]
    segments: Tuple[Segment, ...]
    digests: Tuple[Digest, ...]
    tokens: Tuple[Token, ...]

    @classmethod
    def of(cls, shown: Mapping[str, Any]) -> Header:
        """Makes it from the object of `show`."""
        keyslots = tuple(map(_keyslot, shown["keyslots"]))
        if shown["version"] == 1:
            return cls(1, _text(shown["uuid"]), "", keyslots, (_payload(shown),), (_digest1(shown, keyslots),), ())
        return cls(2, _text(shown["uuid"]), _text(shown["label"]), keyslots, tuple(map(_segment, shown["segments"])),
                   tuple(map(_digest, shown["digests"])), tuple(map(_token, shown["tokens"])))


def _text(value: Any) -> str:
    """The text, or an empty one if it isn't UTF-8: `show` then gives no text."""
    return value if isinstance(value, str) else ""


def _keyslot(shown: Mapping[str, Any]) -> Keyslot:
    area, kdf = shown["area"], shown.get("kdf", {})
    return Keyslot(number=shown["number"], is_enabled=shown["state"] == "enabled", cipher=area["cipher"], area_key_bytes=area["key_bytes"],
                   offset=area["offset"], size=area["size"], stripes=shown["splitter"]["stripes"], key_bytes=shown.get("key_bytes"),
                   kdf=kdf.get("type"), hash=kdf.get("hash"), iterations=kdf.get("iterations"), passes=kdf.get("time"), memory=kdf.get("memory"),
                   lanes=kdf.get("cpus"), salt=base64.b64decode(kdf["salt"]) if "salt" in kdf else None, priority=shown.get("priority", 1),
                   digest=shown.get("digest", 0))


def _segment(shown: Mapping[str, Any]) -> Segment:
    size = shown["size"]
    return Segment(shown["number"], shown["type"], shown["offset"], None if size == "dynamic" else size, shown.get("cipher"), shown.get("sector_size"),
                   shown.get("iv_tweak"))


def _payload(shown: Mapping[str, Any]) -> Segment:
    return Segment(0, "crypt", shown["payload_offset"], None, f"{shown['cipher_name']}-{shown['cipher_mode']}", 512, 0)


def _digest(shown: Mapping[str, Any]) -> Digest:
    return Digest(shown["number"], shown["type"], shown["hash"], shown["iterations"], base64.b64decode(shown["salt"]), base64.b64decode(shown["value"]),
                  tuple(shown["keyslots"]), tuple(shown["segments"]))


def _digest1(shown: Mapping[str, Any], keyslots: Tuple[Keyslot, ...]) -> Digest:
    digest = shown["digest"]
    return Digest(0, "pbkdf2", shown["hash"], digest["iterations"], base64.b64decode(digest["salt"]), base64.b64decode(digest["value"]),
                  tuple(keyslot.number for keyslot in keyslots if keyslot.is_enabled), (0,))


def _token(shown: Mapping[str, Any]) -> Token:
    return Token(shown["number"], shown["type"], tuple(shown["keyslots"]))
