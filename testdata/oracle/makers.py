"""New metadata made of old, on values as Python's json reads them; each call answers a new value and leaves the old one as it was.

What an edit doesn't name is kept: members that docs/PROFILE.md doesn't list, numbers of tokens, the order in arrays.
"""
import copy
import json

import images


def compact(value):
    """The text without white space, members in the order of their names' bytes; what isn't ASCII stands as it is."""
    return json.dumps(value, separators=(",", ":"), sort_keys=True, ensure_ascii=False).encode()


def area_text(value, length):
    """The JSON area of this many bytes, or none where the text and one zero byte don't fit it."""
    text = compact(value)
    return text.ljust(length, b"\0") if len(text) <= length - 1 else None


def digest_of(value, n):
    """The digest that names keyslot n."""
    return next(digest for digest in value["digests"].values() if str(n) in digest["keyslots"])


def digest_name(value, n):
    """The name of the digest that names keyslot n."""
    return next(name for name, digest in value["digests"].items() if str(n) in digest["keyslots"])


def area_size(slot):
    """The size in bytes of a new area for a keyslot like this one."""
    return images.round_up(slot["key_size"] * slot["af"]["stripes"], 4096)


def derived_like(kdf, iterations, salt):
    """The same derivation with a new salt: by so many iterations where it is PBKDF2, at the same costs where it is Argon2."""
    costs = {"hash": kdf["hash"], "iterations": iterations} if kdf["type"] == "pbkdf2" else {name: kdf[name] for name in ("time", "memory", "cpus")}
    return {"type": kdf["type"], "salt": images.b64(salt), **costs}


def derivation(old, iterations, salt, chosen):
    """How a keyslot derives that is made like this one: as that one does, or as is chosen, PBKDF2 by the hash of its splitter."""
    if chosen is None:
        return derived_like(old["kdf"], iterations, salt)
    return {"salt": images.b64(salt), **({"hash": old["af"]["hash"]} if chosen["type"] == "pbkdf2" else {}), **chosen}


def with_slot(value, to, old, digest, iterations, salt, offset, size, chosen=None):
    """The metadata with a new keyslot `to` like the keyslot `old`, whose key is that of the digest of this name."""
    value = copy.deepcopy(value)
    value["keyslots"][str(to)] = {
        "type": "luks2",
        "key_size": old["key_size"],
        "af": {"type": "luks1", "stripes": old["af"]["stripes"], "hash": old["af"]["hash"]},
        "area": {"type": "raw", "offset": str(offset), "size": str(size), "encryption": old["area"]["encryption"], "key_size": old["area"]["key_size"]},
        "kdf": derivation(old, iterations, salt, chosen),
    }
    value["digests"][digest]["keyslots"].append(str(to))
    return value


def changed_slot(value, n, iterations, salt, offset, size, chosen=None):
    """With the salt and area of keyslot n renewed, and its iterations where its kdf has such a member, as PBKDF2 has; or with a kdf that is chosen."""
    value = copy.deepcopy(value)
    slot = value["keyslots"][str(n)]
    if chosen is None:
        slot["kdf"].update(salt=images.b64(salt), **({"iterations": iterations} if "iterations" in slot["kdf"] else {}))
    else:
        slot["kdf"] = derivation(slot, iterations, salt, chosen)
    slot["area"].update(offset=str(offset), size=str(size))
    return value


def without_slot(value, n):
    """Without keyslot n, and without its name in its digest and in tokens."""
    value = copy.deepcopy(value)
    digest = digest_of(value, n)
    del value["keyslots"][str(n)]
    for holder in [digest, *value["tokens"].values()]:
        holder["keyslots"] = [name for name in holder["keyslots"] if name != str(n)]
    return value


def without_slots(value):
    """Without a keyslot: digests and tokens name none."""
    value = copy.deepcopy(value)
    value["keyslots"] = {}
    for holder in [*value["digests"].values(), *value["tokens"].values()]:
        holder["keyslots"] = []
    return value


PRIORITIES = {"ignore": 0, "normal": None, "prefer": 2}


def with_priority(value, n, priority):
    """With the priority of that name in keyslot n, or none where it is the normal one."""
    value = copy.deepcopy(value)
    slot, number = value["keyslots"][str(n)], PRIORITIES[priority]
    slot.pop("priority", None)
    slot.update({} if number is None else {"priority": number})
    return value


def with_token(value, n, token):
    return {**value, "tokens": {**value["tokens"], str(n): token}}


def without_token(value, n):
    return {**value, "tokens": {name: token for name, token in value["tokens"].items() if name != str(n)}}


def formatted(hash_name, iterations, segment_offset, digest_salt, digest, slot_salt):
    """What formatting writes."""
    return images.metadata({"0": images.keyslot(hash_name, iterations, slot_salt)}, hash_name, iterations, digest, digest_salt, segment_offset)


def converted(header, slots):
    """What converting makes of a LUKS1 header: its hash, encryption, key bytes, payload in bytes and digest (iterations, salt, bytes), and by
    their numbers the enabled keyslots (iterations, salt, stripes)."""
    name, encryption, key_bytes, payload, digest = header
    value = without_slot(formatted(name, digest[0], payload, digest[1], digest[2], bytes(32)), 0)
    value["segments"]["0"]["encryption"] = encryption
    start = 32768
    for n in sorted(slots):
        iterations, salt, stripes = slots[n]
        slot = images.keyslot(name, iterations, salt, start, key_bytes, key_bytes, stripes)
        slot["area"]["encryption"] = encryption
        value["keyslots"][str(n)] = slot
        value["digests"]["0"]["keyslots"].append(str(n))
        start += int(slot["area"]["size"])
    value["config"]["keyslots_size"] = str(keyslots_size(start, payload))
    return value


def keyslots_size(end, payload):
    """The bytes of the keyslots' region, whose areas end at `end`: cryptsetup takes no header whose region ends past the data's place, though the
    data is on another device. So the blocks up to that place where the areas end by it; otherwise as in a new volume."""
    if end <= payload < 16777216:
        return (payload - 32768) // 4096 * 4096
    return 16744448
